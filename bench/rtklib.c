/*
 * Times RTKLIB's reader on a file, or tells what it makes of files.
 *
 *     rtklib read RUNS FILE     readrnx, file to observations
 *     rtklib tell FILE..        for each file: its status, how many observations it took, how many values in them, and a mark of them all
 *
 * An observation here is a satellite at an epoch, a value one of its phases, ranges and Dopplers that isn't 0 (RTKLIB has 0 for a missing
 * one). Debian's library comes without a header: what is used of it is declared here, after RTKLIB 2.4.3 b34.
 */
#include "bench.h"
#include <stdint.h>
#include <string.h>

typedef struct {
    int n, nmax;
    unsigned char *data;
} observations;

/* RTKLIB's readrnx: file, receiver, options, observations, navigation data (none), station (none). */
extern int readrnx(const char *file, int receiver, const char *options, observations *obs, void *nav, void *station);

/* What the library asks of a program that shows messages; this one shows none. */
extern int showmsg(char *format, ...);
extern void settspan(void);
extern void settime(void);
int showmsg(char *format, ...) { return format == NULL; }
void settspan(void) {}
void settime(void) {}

static observations taken;

static int take(const char *path)
{
    free(taken.data);
    memset(&taken, 0, sizeof taken);
    return readrnx(path, 1, "", &taken, NULL, NULL);
}

static void task_read(void *with)
{
    if (take(with) != 1) {
        fprintf(stderr, "RTKLIB doesn't take the file\n");
        exit(2);
    }
}

static size_t size_of(const char *path)
{
    FILE *file = fopen(path, "rb");
    long size = file != NULL && fseek(file, 0, SEEK_END) == 0 ? ftell(file) : 0;
    if (file != NULL)
        fclose(file);
    return size > 0 ? (size_t)size : 0;
}

/* With so many signals an observation has 16 bytes of time, 2 of satellite and receiver, 4 a signal (strength, lock, code), then from the next
   multiple of 8 on phases and ranges (double) and Dopplers (float). */
static size_t values_at(size_t signals) { return (18 + 4 * signals + 7) / 8 * 8; }
static size_t whole(size_t signals) { return (values_at(signals) + 20 * signals + 7) / 8 * 8; }

/* How many signals the library was built for: two satellites of one epoch have the same time, so many bytes apart. */
static size_t signals_built_for(void)
{
    size_t signals;
    for (signals = 1; signals < 16; signals++) {
        if (memcmp(taken.data, taken.data + whole(signals), 16) == 0)
            return signals;
    }
    fprintf(stderr, "an observation of this RTKLIB is laid out in another way\n");
    exit(2);
}

static void mix(uint64_t *mark, const unsigned char *bytes, size_t count)
{
    size_t i;
    for (i = 0; i < count; i++)
        *mark = (*mark ^ bytes[i]) * 1099511628211u;
}

/* The values of one observation that aren't 0. */
static size_t values_in(const unsigned char *values, size_t signals)
{
    double number;
    float doppler;
    size_t i, count = 0;
    for (i = 0; i < 2 * signals; i++) {
        memcpy(&number, values + 8 * i, 8);
        count += number != 0;
    }
    for (i = 0; i < signals; i++) {
        memcpy(&doppler, values + 16 * signals + 4 * i, 4);
        count += doppler != 0;
    }
    return count;
}

static void tell(const char *path)
{
    int i, status = take(path);
    size_t signals = taken.n > 1 ? signals_built_for() : 0, values = 0;
    uint64_t mark = 14695981039346656037u;
    for (i = 0; signals > 0 && i < taken.n; i++) {
        const unsigned char *one = taken.data + (size_t)i * whole(signals);
        mix(&mark, one, 17);
        mix(&mark, one + values_at(signals), 20 * signals);
        values += values_in(one + values_at(signals), signals);
    }
    printf("%s %d %d %zu %016llx\n", path, status, taken.n, values, (unsigned long long)mark);
}

int main(int argc, char **argv)
{
    int i;
    if (argc == 4 && strcmp(argv[1], "read") == 0) {
        bench_report("read", size_of(argv[3]), bench_runs(argv[2]), task_read, argv[3]);
        fprintf(stderr, "%d observations\n", taken.n);
        return 0;
    }
    if (argc < 3 || strcmp(argv[1], "tell") != 0) {
        fprintf(stderr, "usage: rtklib read RUNS FILE, or rtklib tell FILE..\n");
        return 2;
    }
    for (i = 2; i < argc; i++)
        tell(argv[i]);
    return 0;
}
