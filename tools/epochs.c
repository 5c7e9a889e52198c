/* The epoch records of a text, gone over again to say more of a refusal. */
#include <string.h>

#include "columns.h"
#include "epochs.h"
#include "header.h"

static void note_epoch(struct epochs *epochs, struct line record, size_t line)
{
    epochs->line = line;
    if (!whole_number(record, 32, 32, &epochs->flag) || !whole_number(record, 33, 35, &epochs->count))
        epochs->count = 0;
    epochs->left = epochs->count;
    if (epochs->flag > 1)
        return;
    epochs->timed = line;
    epochs->timed_line = record;
}

struct epochs epochs_before(const struct text *text, size_t line)
{
    struct header header = header_before(text, line);
    struct epochs epochs;
    size_t at = header.at, number = header.line;
    memset(&epochs, 0, sizeof epochs);
    epochs.is_past = header.is_over;
    for (; epochs.is_past && number < line && at < text->length; number++) {
        struct line next = line_at(text, at);
        if (epochs.left == 0)
            note_epoch(&epochs, next, number);
        else
            epochs.left--;
        at += next.width + 1;
    }
    return epochs;
}

const char *epoch_word(unsigned flag)
{
    return flag <= 1 ? "epoch" : "event";
}

const char *entry_word(unsigned flag, size_t count)
{
    if (flag <= 1)
        return count == 1 ? "row" : "rows";
    return count == 1 ? "line" : "lines";
}
