/* Touches a byte beyond a buffer. Under the address sanitizer it must not end well: so the sanitizer is seen to be there. */
#include <stdlib.h>

int main(int words, char **word)
{
    volatile char *buffer = malloc(10);
    (void)word;
    if (!buffer)
        return 1;
    buffer[9 + words] = 1;
    return buffer[9 + words] - 1;
}
