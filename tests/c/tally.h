/* How often each call came to each number: 0 where it was done, a refusal, or the kind of a slot. Of pairs of rooms, to what the first came
   and, where that is 16, the second; and which buffer was an entry too short. */
#ifndef TALLY_H
#define TALLY_H

#include <stdio.h>
#include <stddef.h>

enum call { READ, WRITE, EPOCH, SLOT, COLUMN, FIRST_ROOM, SECOND_ROOM, SHORT_BUFFER, CALLS };

enum { NUMBERS_TALLIED = 22 };

static const char *const call_name[CALLS] = {"read", "write", "epoch", "slot", "column", "first", "second", "short"};
static size_t tally[CALLS][NUMBERS_TALLIED];

static inline void tally_number(enum call call, size_t number)
{
    tally[call][number < NUMBERS_TALLIED ? number : NUMBERS_TALLIED - 1]++;
}

static inline size_t tally_of(enum call call)
{
    size_t i, sum = 0;
    for (i = 0; i < NUMBERS_TALLIED; i++)
        sum += tally[call][i];
    return sum;
}

/* A line for each number that came; for reading also for those that did not. */
static inline void tally_tell(FILE *to)
{
    size_t call, i;
    for (call = 0; call < CALLS; call++) {
        for (i = 0; i < NUMBERS_TALLIED; i++) {
            if (tally[call][i] > 0 || (call == READ && i < 18))
                fprintf(to, "%s %zu: %zu%s\n", call_name[call], i, tally[call][i], call == READ && i == 0 ? " accepted" : "");
        }
    }
}

#endif
