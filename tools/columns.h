/* The columns of a line, counted from 1; those past its end are blank. */
#ifndef COLUMNS_H
#define COLUMNS_H

#include "text.h"

uint8_t column_of(struct line line, size_t column);

/* The first one of these that isn't blank; 0 where there is none. */
size_t first_filled(struct line line, size_t first, size_t last);

/* The last column that isn't blank; 0 where the line is blank. */
size_t last_filled(struct line line);

/* A whole number at the right of its field: blanks, then one digit or more. False where it is unfit or above 999,999. */
bool whole_number(struct line line, size_t first, size_t last, unsigned *number);

/* A decimal number that ends in the field's last column. */
struct decimal {
    bool is_fit, has_minus, is_zero;
    size_t digits;  /* how many stand before the point */
    unsigned whole; /* the first six of them as a number */
};

struct decimal decimal_number(struct line line, size_t first, size_t last, size_t decimals);

#endif
