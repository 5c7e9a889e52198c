/* What a text still needs that ends too early, which is refused with 14, or is empty. */
#include "epochs.h"
#include "header.h"
#include "places.h"

/* The list whose codes are due comes before END OF HEADER, which is missing as well. */
static void place_in_header(const struct reading *reading, struct faulty *faulty)
{
    struct header header = header_before(&reading->text, reading->reply.line);
    if (header.due > 0)
        note_place(faulty, 0, "in the header: %zu %s of %c's list, and END OF HEADER, are still due", header.due,
            header.due == 1 ? "code" : "codes", PISTROVELLE_LETTERS[header.system]);
    else
        note_place(faulty, 0, "in the header: END OF HEADER is still due");
}

static void place_in_epoch(const struct epochs *epochs, struct faulty *faulty)
{
    note_place(faulty, 0, "the %s of line %zu still needs %zu of its %u %s", epoch_word(epochs->flag), epochs->line, epochs->left,
        epochs->count, entry_word(epochs->flag, epochs->count));
}

void place_ending(const struct reading *reading, struct faulty *faulty)
{
    struct epochs epochs;
    if (reading->reply.number == PISTROVELLE_NO_VERSION && reading->text.length == 0) {
        note_place(faulty, 0, "the file is empty");
        return;
    }
    if (reading->reply.number != PISTROVELLE_CUT_OFF)
        return;
    epochs = epochs_before(&reading->text, reading->reply.line);
    if (!epochs.is_past)
        place_in_header(reading, faulty);
    else if (epochs.left > 0)
        place_in_epoch(&epochs, faulty);
}
