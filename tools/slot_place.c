/* The place of a row's unfit slot, or of the first filled column past its slots, which is refused with 13. */
#include <stdio.h>

#include "codes.h"
#include "columns.h"
#include "places.h"
#include "unfit.h"

void place_slot(const struct reading *reading, struct line row, struct faulty *faulty)
{
    struct unfit unfit = find_unfit(&reading->text, &reading->tables, row);
    int letters = row.width < 3 ? (int)row.width : 3;
    const char *satellite = (const char *)row.bytes;
    size_t column = slot_column(unfit.slot);
    if (unfit.code != 0) {
        note_place(faulty, column, "%.*s, slot %zu (%s), columns %zu-%zu", letters, satellite, unfit.slot, code_letters(unfit.code).text,
            column, column + 15);
        return;
    }
    column = first_filled(row, slot_column(unfit.declared + 1), row.width);
    note_place(faulty, column, "%.*s, column %zu, past slot %zu, its last", letters, satellite, column, unfit.declared);
}
