/* The earlier epoch that another is not later than, which is refused with 9. */
#include "epochs.h"
#include "places.h"

/* The time stands there in columns 3-29, and is shown as it is printed. */
void place_earlier(const struct reading *reading, struct faulty *faulty)
{
    struct epochs epochs = epochs_before(&reading->text, reading->reply.line);
    if (epochs.timed > 0 && epochs.timed_line.width >= 29)
        note_place(faulty, 0, "the one before, in line %zu, is of %.27s", epochs.timed, (const char *)epochs.timed_line.bytes + 2);
}
