/* A line on standard error that says how far the work has come. */
#ifndef PROGRESS_H
#define PROGRESS_H

#include <stddef.h>
#include <stdint.h>

struct progress {
    size_t files, all_files;
    uint64_t bytes, all_bytes;
};

/* Where standard error is a terminal and the work is long: since a second, or because the next file is large. */
void progress_show(const struct progress *progress, const char *next, uint64_t size);

/* Takes the line away, before other lines and at the end. */
void progress_clear(void);

#endif
