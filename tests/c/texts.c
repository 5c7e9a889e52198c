/* Writes each small text into a folder, as NUMBER-LINE-PLACE.rnx with the answer that is due. */
#include "texts.h"

#include <stdio.h>
#include <string.h>

static int write_text(const char *folder, size_t place)
{
    const struct case_text *c = &case_texts[place];
    char name[1024];
    FILE *out;
    snprintf(name, sizeof name, "%s/%zu-%zu-%03zu.rnx", folder, c->number, c->line, place);
    out = fopen(name, "wb");
    if (out == NULL)
        return 1;
    fwrite(c->text, 1, c->length > 0 ? c->length : strlen(c->text), out);
    return fclose(out) != 0;
}

int main(int count, char **words)
{
    size_t place;
    int failed = count != 2;
    for (place = 0; place < CASE_TEXTS && !failed; place++)
        failed = write_text(words[1], place);
    return failed;
}
