/*
 * Times the calls of the archive on a file.
 *
 *     archive read RUNS FILE      pistrovelle_read into lent tables
 *     archive write RUNS FILE     pistrovelle_write of the file's tables
 *     archive column RUNS FILE    pistrovelle_column of one code, and pistrovelle_slot for the first 20 rows one by one
 */
#include "bench.h"
#include "pistrovelle.h"

#define ASKED 20

typedef struct {
    unsigned char *text, *out, *kinds;
    size_t length;
    double *floats;
    pistrovelle_tables tables;
    pistrovelle_read_reply reply;
} work;

static void must(int holds, const char *what)
{
    if (!holds) {
        fprintf(stderr, "%s\n", what);
        exit(2);
    }
}

static void task_read(void *with)
{
    work *w = with;
    w->reply = pistrovelle_read_into(w->text, w->length, &w->tables);
    must(w->reply.number == PISTROVELLE_ACCEPTED, "the file is refused");
}

static void task_write(void *with)
{
    work *w = with;
    pistrovelle_write_reply reply = pistrovelle_write_from(&w->reply.head, &w->reply.counts, &w->tables, w->out, w->length, 0);
    must(reply.number == PISTROVELLE_ACCEPTED, "the tables are refused");
}

static void task_column(void *with)
{
    work *w = with;
    pistrovelle_column_reply reply = pistrovelle_column_from(&w->reply.head, &w->reply.counts, &w->tables, 0, pistrovelle_code("L1C"),
                                                             w->kinds, w->floats, w->reply.counts.rows);
    must(reply.number == PISTROVELLE_ACCEPTED, "the column is refused");
}

static void task_slot(void *with)
{
    work *w = with;
    size_t row;
    for (row = 0; row < ASKED; row++)
        must(pistrovelle_slot_from(&w->reply.head, &w->reply.counts, &w->tables, row, pistrovelle_code("L1C")).kind != PISTROVELLE_UNSPELLED,
             "the slot is refused");
}

static void measure_column(work *w, int runs)
{
    w->kinds = malloc(w->reply.counts.rows);
    w->floats = malloc(sizeof(double) * w->reply.counts.rows);
    must(w->kinds != NULL && w->floats != NULL, "no memory");
    bench_report("column", w->reply.counts.rows, runs, task_column, w);
    bench_report("slot", ASKED, runs < 3 ? runs : 3, task_slot, w);
}

int main(int argc, char **argv)
{
    work w = {0};
    void *memory;
    int runs;
    must(argc == 4, "usage: archive read|write|column RUNS FILE");
    runs = bench_runs(argv[2]);
    w.text = bench_text(argv[3], &w.length);
    pistrovelle_room room = pistrovelle_room_for(w.text, w.length);
    memory = malloc(pistrovelle_bytes(room));
    must(memory != NULL, "no memory");
    w.tables = pistrovelle_lay(memory, room);
    if (argv[1][0] == 'r') {
        bench_report("read", w.length, runs, task_read, &w);
        return 0;
    }
    task_read(&w);
    if (argv[1][0] == 'c') {
        measure_column(&w, runs);
        return 0;
    }
    w.out = malloc(w.length);
    must(w.out != NULL, "no memory");
    bench_report("write", w.length, runs, task_write, &w);
    return 0;
}
