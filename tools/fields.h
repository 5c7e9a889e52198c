/* The fields of the records that are read, from left to right. */
#ifndef FIELDS_H
#define FIELDS_H

#include "text.h"

enum kind { BLANK, YEAR, MONTH, DAY, HOUR, MINUTE, SECOND, TIME_SYSTEM, SECONDS_BETWEEN, FLAG, COUNT, CLOCK };

struct field {
    enum kind kind;
    size_t first, last;
};

/* What a kind is called. */
const char *kind_word(enum kind kind);

/* The first one of so many fields that is unfit; NULL where each is fit. */
const struct field *first_unfit(struct line line, const struct field *fields, size_t count);

#endif
