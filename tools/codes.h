/* The codes that a file declares. */
#ifndef CODES_H
#define CODES_H

#include "reading.h"

/* A code as it is given to the command: two letters where the attribute is blank. Blanks at its end are cut. */
struct code_letters {
    char text[4];
};

struct code_letters code_letters(uint32_t code);

/* The code's place in a system's list; the list's length where it lacks the code. */
size_t code_place(const struct reading *reading, size_t system, uint32_t code);

/* Whether a system's list has the code. */
bool is_declared(const struct reading *reading, size_t system, uint32_t code);

/* A message that no system declares the code, and which codes each declares; answers NOT_DONE. */
int none_declares(const struct reading *reading, const char *path, uint32_t code);

#endif
