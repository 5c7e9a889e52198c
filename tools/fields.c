/* The fields of the records that are read, looked at again to name the first unfit one; nothing is decided by them. */
#include <string.h>

#include "columns.h"
#include "fields.h"
#include "pistrovelle.h"

/* The year and month of a date whose day is judged. */
struct date {
    unsigned year, month;
};

static unsigned days_of(struct date date)
{
    static const unsigned days[12] = {31, 28, 31, 30, 31, 30, 31, 31, 30, 31, 30, 31};
    if (date.month < 1 || date.month > 12)
        return 31;
    return days[date.month - 1] + (date.month == 2 && date.year % 4 == 0);
}

static bool is_within(struct line line, const struct field *field, unsigned least, unsigned most, unsigned *number)
{
    return whole_number(line, field->first, field->last, number) && *number >= least && *number <= most;
}

static bool is_second(struct line line, const struct field *field)
{
    struct decimal second = decimal_number(line, field->first, field->last, 7);
    return second.is_fit && !second.has_minus && second.digits >= 1 && second.digits <= 2 && second.whole < 60;
}

static bool is_interval(struct line line, const struct field *field)
{
    struct decimal interval = decimal_number(line, field->first, field->last, 3);
    return interval.is_fit && !interval.has_minus && !interval.is_zero;
}

static bool is_time_system(struct line line, const struct field *field)
{
    const char *names = PISTROVELLE_TIME_SYSTEM_NAMES;
    size_t i;
    for (i = 0; i < PISTROVELLE_TIME_SYSTEMS; i++) {
        if (line.width >= field->last && memcmp(line.bytes + field->first - 1, names + 3 * i, 3) == 0)
            return true;
    }
    return false;
}

static bool is_fit(struct line line, const struct field *field, struct date *date)
{
    unsigned number;
    switch (field->kind) {
    case YEAR:
        return is_within(line, field, 1980, 2099, &date->year);
    case MONTH:
        return is_within(line, field, 1, 12, &date->month);
    case DAY:
        return is_within(line, field, 1, days_of(*date), &number);
    case HOUR:
        return is_within(line, field, 0, 23, &number);
    case MINUTE:
        return is_within(line, field, 0, 59, &number);
    case SECOND:
        return is_second(line, field);
    case TIME_SYSTEM:
        return is_time_system(line, field);
    case SECONDS_BETWEEN:
        return is_interval(line, field);
    case FLAG:
    case COUNT:
        return whole_number(line, field->first, field->last, &number);
    case CLOCK:
        return first_filled(line, field->first, field->last) == 0 || decimal_number(line, field->first, field->last, 12).is_fit;
    default:
        return first_filled(line, field->first, field->last) == 0;
    }
}

const struct field *first_unfit(struct line line, const struct field *fields, size_t count)
{
    struct date date = {0, 0};
    size_t i;
    for (i = 0; i < count; i++) {
        if (!is_fit(line, &fields[i], &date))
            return &fields[i];
    }
    return NULL;
}

const char *kind_word(enum kind kind)
{
    static const char *const words[] = {
        "blank", "year", "month", "day", "hour", "minute", "second", "time system", "interval", "flag", "count", "clock"};
    return words[kind];
}
