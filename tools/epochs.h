/* The epoch records of a text, gone over again to say more of a refusal. */
#ifndef EPOCHS_H
#define EPOCHS_H

#include "text.h"

/* What the lines before some line have. */
struct epochs {
    bool is_past;           /* the header is over */
    size_t line;            /* the line of the last epoch record; 0 where there is none */
    unsigned flag, count;   /* its own */
    size_t left;            /* how many of its rows or lines are still due */
    size_t timed;           /* the line of the last one of flag 0 or 1; 0 where there is none */
    struct line timed_line; /* that line */
};

/* Goes over the lines before this one. They are fit; where they are not, all that is told may be wrong. */
struct epochs epochs_before(const struct text *text, size_t line);

/* What an epoch of this flag is called, and what follows its record. */
const char *epoch_word(unsigned flag);
const char *entry_word(unsigned flag, size_t count);

#endif
