/* What is printed of a file that was read. */
#ifndef REPORT_H
#define REPORT_H

#include <stdio.h>

#include "reading.h"

struct total {
    size_t files, accepted, refused, unread, left_out;
};

/* One line for a file. */
void report_line(FILE *out, const char *name, const struct reading *reading);
void report_json(FILE *out, const char *name, const struct reading *reading);

/* The same on standard error, of a file that is refused or not read, where it was to be accepted; answers the exit status. */
int report_failure(const char *name, const struct reading *reading);

/* One line for all. */
void report_total(FILE *out, const struct total *total);
void report_total_json(FILE *out, const struct total *total);

#endif
