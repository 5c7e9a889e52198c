/* How wide a line is that is refused with 2. */
#include "columns.h"
#include "places.h"

void place_width(struct line line, struct faulty *faulty)
{
    size_t last = last_filled(line);
    if (line.width <= PISTROVELLE_WIDEST)
        return;
    if (last == 0)
        note_place(faulty, PISTROVELLE_WIDEST + 1, "it has %zu columns, all blank", line.width);
    else
        note_place(faulty, PISTROVELLE_WIDEST + 1, "it has %zu columns, and column %zu is the last filled one", line.width, last);
}
