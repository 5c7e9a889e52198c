/*
 * Writes an observation file like a real day's: five systems, 40 satellites an epoch, some blanks, marks.
 *
 *     day BYTES SECONDS SEED    so many bytes or a little more, an epoch each so many seconds, to standard output
 *
 * The same words give the same bytes on every machine.
 */
#include <stdint.h>
#include <stdio.h>
#include <stdlib.h>
#include <string.h>

#define ROWS 40

typedef struct { char letter; int before; int satellites; int codes; const char *names; } sky;

/* 18, 12, 16, 8 and 4 codes. Satellites are numbered from `before` on, by twos. */
static const sky skies[] = {
    {'G', 0, 14, 18, "C1C L1C D1C S1C C1W S1W C2W L2W D2W S2W C2L L2L D2L S2L C5Q L5Q D5Q S5Q"},
    {'R', 0, 8, 12, "C1C L1C D1C S1C C1P L1P D1P S1P C2P L2P D2P S2P"},
    {'E', 0, 10, 16, "C1C L1C D1C S1C C5Q L5Q D5Q S5Q C7Q L7Q D7Q S7Q C8Q L8Q D8Q S8Q"},
    {'C', 5, 6, 8, "C2I L2I D2I S2I C7I L7I D7I S7I"},
    {'S', 19, 2, 4, "C1C L1C D1C S1C"},
};

static uint64_t state;

static uint64_t below(uint64_t bound)
{
    state ^= state >> 12;
    state ^= state << 25;
    state ^= state >> 27;
    return (state * 0x2545F4914F6CDD1Dull >> 11) % bound;
}

static size_t header_line(char *out, const char *content, const char *label)
{
    size_t n = (size_t)sprintf(out, "%-60s%-20s", content, label);
    while (n > 0 && out[n - 1] == ' ')
        n--;
    out[n] = '\n';
    return n + 1;
}

/* A list, 13 codes a line. */
static size_t list(char *out, const sky *s)
{
    char line[64];
    size_t n = 0, at = 0;
    int i;
    for (i = 0; i < s->codes; i++) {
        if (i % 13 == 0)
            at = (size_t)(i == 0 ? sprintf(line, "%c  %3d", s->letter, s->codes) : sprintf(line, "%6s", ""));
        at += (size_t)sprintf(line + at, " %.3s", s->names + 4 * i);
        if (i % 13 == 12 || i + 1 == s->codes)
            n += header_line(out + n, line, "SYS / # / OBS TYPES");
    }
    return n;
}

static size_t header(char *out, int seconds)
{
    char interval[16];
    size_t i, n = 0;
    n += header_line(out + n, "     3.03           OBSERVATION DATA    M", "RINEX VERSION / TYPE");
    n += header_line(out + n, "MADE UP             FOR MEASURING       20240531 000000 UTC", "PGM / RUN BY / DATE");
    n += header_line(out + n, "QUAY WALL 7", "MARKER NAME");
    n += header_line(out + n, "  3764189.2235   535723.4594  5103873.6309", "APPROX POSITION XYZ");
    for (i = 0; i < sizeof skies / sizeof skies[0]; i++)
        n += list(out + n, &skies[i]);
    sprintf(interval, "%6d.000", seconds);
    n += header_line(out + n, interval, "INTERVAL");
    n += header_line(out + n, "  2024     5    31     0     0    0.0000000     GPS", "TIME OF FIRST OBS");
    return n + header_line(out + n, "", "END OF HEADER");
}

/* A value in thousandths by the letter of its code. */
static long long value(char kind, long long range)
{
    switch (kind) {
    case 'C': return range + (long long)below(9000);
    case 'L': return range * 5 + (long long)below(1000000);
    case 'D': return (long long)below(8000000) - 4000000;
    default: return 20000 + 250 * (long long)below(140);
    }
}

/* 16 columns. */
static void slot(char *out, char kind, long long number)
{
    char sign = number < 0 ? '-' : ' ';
    long long size = number < 0 ? -number : number;
    char digits[24];
    int n = sprintf(digits, "%lld.%03d", size / 1000, (int)(size % 1000));
    memset(out, ' ', 16);
    memcpy(out + 14 - n, digits, (size_t)n);
    if (sign == '-')
        out[13 - n] = '-';
    if (kind == 'L' && below(200) == 0)
        out[14] = '1';
    if (kind == 'C' || kind == 'L')
        out[15] = (char)('4' + below(6));
}

/* A satellite's row: a value in twenty is missing, and a band in twelve. */
static size_t row(char *out, const sky *s, int number)
{
    long long range = 20000000000 + (long long)below(5000000000);
    size_t n = (size_t)sprintf(out, "%c%02d", s->letter, number);
    int i, is_tracked = 1;
    for (i = 0; i < s->codes; i++, n += 16) {
        char kind = s->names[4 * i];
        if (kind == 'C')
            is_tracked = i == 0 || below(12) != 0;
        memset(out + n, ' ', 16);
        if (is_tracked && below(20) != 0)
            slot(out + n, kind, value(kind, range));
    }
    while (out[n - 1] == ' ')
        n--;
    out[n] = '\n';
    return n + 1;
}

static size_t epoch(char *out, long long second)
{
    int day = (int)(second / 86400);
    int rest = (int)(second % 86400);
    size_t i, n = (size_t)sprintf(out, "> 2024 %02d %02d %02d %02d %2d.0000000  0 %2d\n", day == 0 ? 5 : 6, day == 0 ? 31 : day, rest / 3600,
                                  rest / 60 % 60, rest % 60, ROWS);
    for (i = 0; i < sizeof skies / sizeof skies[0]; i++) {
        int k, first = 1 + (int)(second / 7200 % 5);
        for (k = 0; k < skies[i].satellites; k++)
            n += row(out + n, &skies[i], skies[i].before + first + 2 * k);
    }
    return n;
}

int main(int argc, char **argv)
{
    static char out[1 << 20];
    long long bytes = argc == 4 ? atoll(argv[1]) : 0, seconds = argc == 4 ? atoll(argv[2]) : 0, written, second = 0;
    size_t n;
    if (bytes <= 0 || seconds <= 0) {
        fprintf(stderr, "usage: day BYTES SECONDS SEED\n");
        return 2;
    }
    state = (uint64_t)atoll(argv[3]) * 0x9E3779B97F4A7C15ull | 1;
    n = header(out, (int)seconds);
    for (written = 0; written < bytes && second < 30 * 86400; second += seconds) {
        n += epoch(out + n, second);
        if (fwrite(out, 1, n, stdout) != n)
            return 2;
        written += (long long)n;
        n = 0;
    }
    return fflush(stdout) == 0 ? 0 : 2;
}
