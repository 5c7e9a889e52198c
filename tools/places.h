/* What is said of a fault beside the rule's words: where to look. The archive has decided number and line; these look at the text again,
   only to explain, and say nothing where they find no certain reason. */
#ifndef PLACES_H
#define PLACES_H

#include "fields.h"
#include "reading.h"

/* Notes a place in words, and the column in which it begins; 0 where it has none. */
void note_place(struct faulty *faulty, size_t column, const char *format, ...) __attribute__((format(printf, 3, 4)));

/* Adds to the words of the place that is noted. */
void note_more(struct faulty *faulty, const char *format, ...) __attribute__((format(printf, 2, 3)));

/* Notes an unfit field by its name and columns, or the first filled column of one that is to be blank; nothing where there is no field. */
void note_field(struct line line, const struct field *field, struct faulty *faulty);

/* Each is for a text that was refused with this number at this line. */
void place_width(struct line line, struct faulty *faulty);                                           /* 2 */
void place_label(struct line line, struct faulty *faulty);                                           /* 4 */
void place_order(const struct reading *reading, struct line line, struct faulty *faulty);            /* 5 */
void place_header_field(const struct reading *reading, struct line line, struct faulty *faulty);     /* 6 */
void place_epoch_field(const struct reading *reading, struct line line, struct faulty *faulty);      /* 7 */
void place_earlier(const struct reading *reading, struct faulty *faulty);                            /* 9 */
void place_slot(const struct reading *reading, struct line row, struct faulty *faulty);              /* 13 */

/* For a text that has no line of this number: it is empty, or ends too early. */
void place_ending(const struct reading *reading, struct faulty *faulty);                             /* 3, 14 */

#endif
