/* The labels of header records. */
#ifndef LABELS_H
#define LABELS_H

#include "text.h"

/* A label is told by its place in the table; LABELS is no label. Named are those that are read, and those barred from events. */
enum {
    LABEL_VERSION = 0,
    LABEL_LIST = 17,
    LABEL_INTERVAL = 19,
    LABEL_FIRST = 20,
    LABEL_SCALE = 25,
    LABEL_END = 32,
    LABELS = 33,
    LABEL_COLUMN = 61,
    LABEL_LAST = 80
};

extern const char *const labels[LABELS];

/* The label that stands in columns 61-80, exact and padded with blanks. */
size_t label_of(struct line line);

#endif
