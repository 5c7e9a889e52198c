/* Why a record of the header is out of place, which is refused with 5. */
#include "columns.h"
#include "header.h"
#include "labels.h"
#include "places.h"

static void place_due(const struct header *header, struct line line, struct faulty *faulty)
{
    const char *codes = header->due == 1 ? "code" : "codes", *are = header->due == 1 ? "is" : "are";
    char letter = PISTROVELLE_LETTERS[header->system];
    size_t filled = first_filled(line, 1, 6);
    if (label_of(line) != LABEL_LIST)
        note_place(faulty, LABEL_COLUMN, "%zu %s of %c's list %s still due, and the label is another", header->due, codes, letter, are);
    else if (filled > 0)
        note_place(faulty, filled, "%zu %s of %c's list %s still due, and column %zu is filled", header->due, codes, letter, are, filled);
}

static void place_too_early(const struct header *header, struct faulty *faulty)
{
    bool has_list = false;
    size_t i;
    for (i = 0; i < PISTROVELLE_SYSTEMS; i++)
        has_list = has_list || header->lists[i] > 0;
    if (!has_list && header->first == 0)
        note_place(faulty, 0, "neither a list (SYS / # / OBS TYPES) nor TIME OF FIRST OBS stands before it");
    else if (!has_list)
        note_place(faulty, 0, "no list (SYS / # / OBS TYPES) stands before it");
    else if (header->first == 0)
        note_place(faulty, 0, "no TIME OF FIRST OBS stands before it");
}

/* The line where a record of this line's kind stands, which the header has once at the most; 0 where there is none. */
static size_t line_before(const struct header *header, struct line line)
{
    size_t system = pistrovelle_system(column_of(line, 1));
    switch (label_of(line)) {
    case LABEL_VERSION:
        return header->version;
    case LABEL_FIRST:
        return header->first;
    case LABEL_INTERVAL:
        return header->interval;
    case LABEL_LIST:
        return system < PISTROVELLE_SYSTEMS ? header->lists[system] : 0;
    default:
        return 0;
    }
}

void place_order(const struct reading *reading, struct line line, struct faulty *faulty)
{
    struct header header = header_before(&reading->text, reading->reply.line);
    size_t label = label_of(line), before = line_before(&header, line);
    if (header.is_over)
        return;
    if (header.due > 0)
        place_due(&header, line, faulty);
    else if (label == LABEL_END)
        place_too_early(&header, faulty);
    else if (before > 0 && label == LABEL_LIST)
        note_place(faulty, 0, "%c's list already stands in line %zu", column_of(line, 1), before);
    else if (before > 0)
        note_place(faulty, 0, "%s already stands in line %zu", labels[label], before);
}
