/* The header of a text, gone over again to say more of a refusal. */
#ifndef HEADER_H
#define HEADER_H

#include "pistrovelle.h"
#include "text.h"

/* What the lines before some line have. Lines are 0 where there is none. */
struct header {
    size_t at, line;                     /* where the line behind them begins, and its number */
    bool is_over;                        /* END OF HEADER is among them */
    uint8_t letter;                      /* the file letter */
    size_t version, first, interval;     /* the lines of RINEX VERSION / TYPE, TIME OF FIRST OBS and INTERVAL */
    size_t lists[PISTROVELLE_SYSTEMS];   /* the first line of each system's list */
    size_t system;                       /* whose list is the last one */
    size_t due, given;                   /* how many of its codes are due and how many stand */
    uint32_t codes[PISTROVELLE_LIST];    /* these */
};

/* How many codes a line of a list has at the most, where the first of them begins, and how far from one to the next. */
enum { CODES_A_LINE = 13, FIRST_CODE = 8, CODE_STEP = 4, CODE_COLUMNS = 3 };

/* The code in the three columns from this one on. */
uint32_t code_at(struct line line, size_t column);

/* Goes over the lines before this one, but not past END OF HEADER. They are fit; where they are not, all that is told may be wrong. */
struct header header_before(const struct text *text, size_t line);

#endif
