/* What is unfit in a line of a system's list. */
#ifndef LIST_PLACE_H
#define LIST_PLACE_H

#include "header.h"
#include "places.h"

/* Notes it for the line that stands behind those of the header, which is changed. */
void place_list(struct header *header, struct line line, struct faulty *faulty);

/* Notes a code that isn't taken under the list's system: its number in the list, and the column in which it begins. */
void place_code(size_t system, uint32_t code, size_t number, size_t column, struct faulty *faulty);

#endif
