/* The first unfit field of a header record, which is refused with 6. */
#include "columns.h"
#include "fields.h"
#include "labels.h"
#include "list_place.h"

static const struct field first_time[] = {
    {YEAR, 1, 6}, {MONTH, 7, 12}, {DAY, 13, 18}, {HOUR, 19, 24}, {MINUTE, 25, 30}, {SECOND, 31, 43}, {BLANK, 44, 48},
    {TIME_SYSTEM, 49, 51}, {BLANK, 52, 60},
};

static const struct field interval[] = {{SECONDS_BETWEEN, 1, 10}, {BLANK, 11, 60}};

static const struct field end[] = {{BLANK, 1, 60}};

void note_field(struct line line, const struct field *field, struct faulty *faulty)
{
    size_t filled;
    if (field == NULL)
        return;
    filled = first_filled(line, field->first, field->last);
    if (field->kind == BLANK)
        note_place(faulty, filled, "column %zu is filled", filled);
    else if (field->first == field->last)
        note_place(faulty, field->first, "%s, column %zu%s", kind_word(field->kind), field->first, filled > 0 ? "" : ", is blank");
    else
        note_place(faulty, field->first, "%s, columns %zu-%zu%s", kind_word(field->kind), field->first, field->last,
            filled > 0 ? "" : ", is blank");
}

void place_header_field(const struct reading *reading, struct line line, struct faulty *faulty)
{
    struct header header = header_before(&reading->text, reading->reply.line);
    switch (label_of(line)) {
    case LABEL_LIST:
        place_list(&header, line, faulty);
        break;
    case LABEL_FIRST:
        note_field(line, first_unfit(line, first_time, sizeof first_time / sizeof *first_time), faulty);
        break;
    case LABEL_INTERVAL:
        note_field(line, first_unfit(line, interval, sizeof interval / sizeof *interval), faulty);
        break;
    case LABEL_END:
        note_field(line, first_unfit(line, end, 1), faulty);
        break;
    default:
        break;
    }
}
