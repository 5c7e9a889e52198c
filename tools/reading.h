/* A file that has been read. */
#ifndef READING_H
#define READING_H

#include "command.h"
#include "text.h"

/* How many columns of a faulty line are shown. */
enum { SHOWN = 100 };

/* A faulty line, or where it is long the columns around its fault, from column `from` on. */
struct faulty {
    bool is_there;
    size_t width;
    size_t from;
    size_t count;
    uint8_t bytes[SHOWN];
    char place[240]; /* in words, where to look or what is missing; empty where no more is known than the rule says */
    size_t column;   /* where that begins in the line; 0 where it has no column */
};

struct reading {
    char problem[160]; /* why there is no reply; empty where there is one */
    pistrovelle_read_reply reply;
    pistrovelle_tables tables;
    struct faulty faulty;
    struct text text;
    void *memory;
};

/* Reads a file with room enough for its tables. */
void read_path(struct reading *reading, const char *path);

void reading_close(struct reading *reading);

/* Finds the faulty line of a refused text, which may use the tables that were lent for it. */
void find_faulty(struct reading *reading);

#endif
