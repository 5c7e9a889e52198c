/* The header's helpers for satellites and times: every day of 1980 to 2099, counted one by one, and names right and wrong. */
#include <stdio.h>

#include "pistrovelle.h"

static size_t passed, failed;

static void fact(int holds, const char *words, uint64_t which)
{
    if (holds)
        passed++;
    else if (failed++ < 20)
        printf("FAILED %s: %llu\n", words, (unsigned long long)which);
}

static unsigned days_of(unsigned year, unsigned month)
{
    static const unsigned days[13] = {0, 31, 28, 31, 30, 31, 30, 31, 31, 30, 31, 30, 31};
    return days[month] + (month == 2 && year % 4 == 0);
}

static int same(pistrovelle_date d, unsigned year, unsigned month, unsigned day, unsigned hour, unsigned minute, uint32_t ticks)
{
    return d.year == year && d.month == month && d.day == day && d.hour == hour && d.minute == minute && d.ticks == ticks;
}

/* The first and the last instant of each day. */
static void dates(void)
{
    uint64_t at = 0, day_long = 864000000000u;
    unsigned year, month, day;
    for (year = 1980; year < 2100; year++)
        for (month = 1; month <= 12; month++)
            for (day = 1; day <= days_of(year, month); day++, at += day_long) {
                fact(same(pistrovelle_date_of(at), year, month, day, 0, 0, 0), "a day's first instant", at);
                fact(same(pistrovelle_date_of(at + day_long - 1), year, month, day, 23, 59, 599999999), "a day's last instant", at);
            }
    fact(same(pistrovelle_date_of(8276730540000000u), 2006, 3, 24, 13, 10, 540000000), "the paper's date", 0);
}

static void satellites(void)
{
    static const char *const wrong[] = {"", "G", "G5", "G005", "X05", "g05", "G 5", "G5 ", "G-5", "05G", "\xff" "05", "G00", "R00", "S00"};
    size_t i;
    fact(pistrovelle_satellite("G05") == 5, "G05", 0);
    fact(pistrovelle_satellite("R12") == 112, "R12", 0);
    fact(pistrovelle_satellite("S99") == 699, "S99", 0);
    fact(pistrovelle_satellite("I01") == 501, "I01", 0);
    fact(pistrovelle_satellite("G10") == 10, "G10", 0);
    for (i = 0; i < sizeof wrong / sizeof wrong[0]; i++)
        fact(pistrovelle_satellite(wrong[i]) == UINT16_MAX, "no satellite", i);
    for (i = 0; i < 256; i++)
        fact((pistrovelle_system((uint8_t)i) < PISTROVELLE_SYSTEMS) == (i > 0 && strchr("GREJCIS", (int)i) != NULL), "a system", i);
}

int main(void)
{
    dates();
    satellites();
    printf("%zu passed, %zu failed\n", passed, failed);
    return failed > 0;
}
