/* Times a bare search for line ends: scan RUNS FILE. The floor under every reader. */
#include "bench.h"
#include <string.h>

typedef struct {
    unsigned char *text;
    size_t length, lines;
} work;

static void task_scan(void *with)
{
    work *w = with;
    unsigned char *at = w->text, *end = w->text + w->length;
    w->lines = 0;
    while (at < end && (at = memchr(at, '\n', (size_t)(end - at))) != NULL) {
        w->lines++;
        at++;
    }
}

int main(int argc, char **argv)
{
    work w = {0};
    if (argc != 3) {
        fprintf(stderr, "usage: scan RUNS FILE\n");
        return 2;
    }
    w.text = bench_text(argv[2], &w.length);
    bench_report("read", w.length, bench_runs(argv[1]), task_scan, &w);
    fprintf(stderr, "%zu lines\n", w.lines);
    return 0;
}
