/* What is wrong with the label of a line, which is refused with 4. */
#include <string.h>

#include "columns.h"
#include "labels.h"
#include "places.h"

/* How far from its column a label is looked for. Farther off its words may be free text. */
enum { FARTHEST = 10 };

/* The column in which a known label begins that ends the line, near column 61; 0 where there is none. */
static size_t shifted_label(struct line line, size_t *label)
{
    size_t last = last_filled(line);
    for (*label = 0; *label < LABELS; ++*label) {
        size_t size = strlen(labels[*label]);
        size_t column = last < size ? 0 : last - size + 1;
        if (column >= LABEL_COLUMN - FARTHEST && column <= LABEL_COLUMN + FARTHEST
            && memcmp(line.bytes + column - 1, labels[*label], size) == 0)
            return column;
    }
    return 0;
}

static void place_unknown(struct line line, struct faulty *faulty)
{
    size_t label, last = last_filled(line), column = shifted_label(line, &label);
    if (column > 0)
        note_place(faulty, column, "\"%s\" begins in column %zu, and a label in column 61", labels[label], column);
    else if (first_filled(line, LABEL_COLUMN, LABEL_LAST) == 0)
        note_place(faulty, LABEL_COLUMN, "no label: columns 61-80 are blank");
    else {
        for (last = last < LABEL_LAST ? last : LABEL_LAST; column_of(line, last) == ' '; last--)
            ;
        note_place(faulty, LABEL_COLUMN, "unknown label \"%.*s\"", (int)(last - LABEL_COLUMN + 1),
            (const char *)line.bytes + LABEL_COLUMN - 1);
    }
}

void place_label(struct line line, struct faulty *faulty)
{
    size_t label = label_of(line), filled = first_filled(line, LABEL_LAST + 1, line.width);
    if (label == LABELS)
        place_unknown(line, faulty);
    else if (filled > 0)
        note_place(faulty, filled, "column %zu, past column 80, is filled", filled);
    else if (label == LABEL_SCALE)
        note_place(faulty, LABEL_COLUMN, "%s is not read", labels[label]);
    else if (label == LABEL_VERSION || label == LABEL_LIST || label == LABEL_END)
        note_place(faulty, LABEL_COLUMN, "%s is barred from events", labels[label]);
}
