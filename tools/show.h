/* Bytes from outside, printed so that they can do no harm. */
#ifndef SHOW_H
#define SHOW_H

#include <stdbool.h>
#include <stddef.h>
#include <stdint.h>
#include <stdio.h>

/* A line's bytes between quotes: what doesn't print, quotes and backslashes are escaped. */
void show_line(FILE *out, const uint8_t *bytes, size_t count);

/* A file's name, or a message: what moves the cursor or turns the order of characters, what is not UTF-8 and backslashes are escaped. */
void show_name(FILE *out, const char *name);

/* The same, cut so that it takes no more columns than these; answers how many it takes at the most. */
size_t show_within(FILE *out, const char *name, size_t columns);

/* Text as a JSON string; what is not UTF-8 becomes U+FFFD, and what would move the cursor is escaped. */
void show_json(FILE *out, const char *text);

/* A line's bytes as a JSON string, with what doesn't print and backslashes escaped first, as show_line does. */
void show_json_line(FILE *out, const uint8_t *bytes, size_t count);

bool is_utf8(const char *text);

/* The text's bytes as a JSON string of hexadecimal digits. */
void show_hex(FILE *out, const char *text);

#endif
