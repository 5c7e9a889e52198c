/* What the measuring programs share: a text in memory, a clock of processor time, the median of some runs, the line that is reported. */
#ifndef BENCH_H
#define BENCH_H

#include <stdio.h>
#include <stdlib.h>
#include <sys/resource.h>
#include <time.h>

#define BENCH_MOST 99

/* Processor time of this process, so that others on the machine count for little. */
static inline double bench_now(void)
{
    struct timespec t;
    clock_gettime(CLOCK_PROCESS_CPUTIME_ID, &t);
    return (double)t.tv_sec + 1e-9 * (double)t.tv_nsec;
}

/* The bytes of a file. Ends the program where it can't be read. */
static inline unsigned char *bench_text(const char *path, size_t *length)
{
    FILE *file = fopen(path, "rb");
    unsigned char *text = NULL;
    long size = -1;
    if (file != NULL && fseek(file, 0, SEEK_END) == 0)
        size = ftell(file);
    if (size > 0)
        text = malloc((size_t)size);
    if (text == NULL || fseek(file, 0, SEEK_SET) != 0 || fread(text, 1, (size_t)size, file) != (size_t)size) {
        fprintf(stderr, "%s can't be read\n", path);
        exit(2);
    }
    fclose(file);
    *length = (size_t)size;
    return text;
}

static inline int bench_order(const void *a, const void *b)
{
    double x = *(const double *)a, y = *(const double *)b;
    return (x > y) - (x < y);
}

/* Does the task once untimed, then so many times (99 at most), and prints: name, bytes, median seconds, runs, peak KiB of the process. */
static inline void bench_report(const char *name, size_t bytes, int runs, void (*task)(void *), void *with)
{
    double seconds[BENCH_MOST];
    struct rusage usage;
    int i;
    task(with);
    for (i = 0; i < runs; i++) {
        double start = bench_now();
        task(with);
        seconds[i] = bench_now() - start;
    }
    qsort(seconds, (size_t)runs, sizeof seconds[0], bench_order);
    getrusage(RUSAGE_SELF, &usage);
    printf("%s %zu %.9f %d %ld\n", name, bytes, seconds[runs / 2], runs, usage.ru_maxrss);
}

/* The number of runs, the second word of a program that measures. */
static inline int bench_runs(const char *word)
{
    int runs = atoi(word);
    return runs < 1 ? 1 : runs > BENCH_MOST ? BENCH_MOST : runs;
}

#endif
