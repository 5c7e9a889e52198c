/* The first unfit field of an epoch record, or why a line is none, which is refused with 7. */
#include "columns.h"
#include "epochs.h"
#include "fields.h"
#include "places.h"

/* The fields of a record; those behind its time are the last ones. */
static const struct field record[] = {
    {BLANK, 2, 2}, {YEAR, 3, 6}, {BLANK, 7, 7}, {MONTH, 8, 9}, {BLANK, 10, 10}, {DAY, 11, 12}, {BLANK, 13, 13}, {HOUR, 14, 15},
    {BLANK, 16, 16}, {MINUTE, 17, 18}, {SECOND, 19, 29}, {BLANK, 30, 31}, {FLAG, 32, 32}, {COUNT, 33, 35}, {BLANK, 36, 41},
    {CLOCK, 42, 56}, {BLANK, 57, PISTROVELLE_WIDEST},
};

enum { FIELDS = sizeof record / sizeof *record, BEHIND_TIME = 11 };

/* Flags 2, 3 and 4 may leave the time blank. A flag that is no digit is unfit itself. */
static bool needs_time(uint8_t flag)
{
    return flag >= '0' && flag <= '9' && !(flag >= '2' && flag <= '4');
}

/* A line that has no > in column 1. */
static void place_no_record(const struct reading *reading, struct line line, struct faulty *faulty)
{
    struct epochs epochs = epochs_before(&reading->text, reading->reply.line);
    const char *what = last_filled(line) == 0 ? "the line is blank" : "column 1 isn't >";
    if (epochs.line == 0 || epochs.left > 0)
        note_place(faulty, 1, "%s", what);
    else
        note_place(faulty, 1, "%s, and the %s of line %zu has its %u %s already", what, epoch_word(epochs.flag), epochs.line, epochs.count,
            entry_word(epochs.flag, epochs.count));
}

/* The fault of a record; where its time is blank, of what stands behind that. */
static const struct field *unfit_field(struct line line, bool is_untimed)
{
    return is_untimed ? first_unfit(line, record + BEHIND_TIME, FIELDS - BEHIND_TIME) : first_unfit(line, record, FIELDS);
}

void place_epoch_field(const struct reading *reading, struct line line, struct faulty *faulty)
{
    uint8_t flag = column_of(line, 32);
    size_t filled = first_filled(line, 2, 29);
    const struct field *unfit = unfit_field(line, filled == 0);
    if (column_of(line, 1) != '>')
        place_no_record(reading, line, faulty);
    else if (filled == 0 && needs_time(flag))
        note_place(faulty, 3, "time, columns 3-29, is blank, which flag %c doesn't allow", flag);
    else if (filled > 6 && flag >= '2' && flag <= '4')
        note_place(faulty, filled, "column %zu is filled, and the year, columns 3-6, is blank", filled);
    else if (unfit != NULL)
        note_field(line, unfit, faulty);
    else if (flag >= '2' && flag <= '5' && first_filled(line, 42, 56) > 0)
        note_place(faulty, 42, "clock, columns 42-56, which flag %c doesn't allow", flag);
}
