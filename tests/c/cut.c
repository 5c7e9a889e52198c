/* A mapped file that is cut short before it is read: the command's guard takes it. Called with a file of its own. */
#include <stdio.h>
#include <unistd.h>

#include "command.h"
#include "text.h"

static void read_last(void *with)
{
    const struct text *text = with;
    volatile uint8_t last = text->bytes[text->length - 1];
    (void)last;
}

static bool is_guarded(const char *path)
{
    struct text text;
    bool before, after, changed;
    if (text_open(&text, path) != NULL || !text.mapped)
        return false;
    before = guarded(read_last, &text) && !text_changed(&text);
    if (truncate(path, 1) != 0)
        return false;
    after = guarded(read_last, &text);
    changed = text_changed(&text);
    text_close(&text);
    return before && !after && changed;
}

int main(int count, char **words)
{
    return count == 2 && is_guarded(words[1]) ? 0 : 1;
}
