/* Bytes into a file that is replaced whole or not at all, or to standard output. */
#ifndef OUTPUT_H
#define OUTPUT_H

#include <stdbool.h>
#include <stddef.h>

/* Writes all bytes; false, with errno, where that fails. */
bool write_all(int file, const void *bytes, size_t count);

/* Writes the bytes as a file of this name: to another file beside it, which takes its place once all is on the disk. What is there and
   is no plain file, as a device or a pipe, is written to as it is. False, with errno, where that fails; the name then holds what it held. */
bool replace_file(const char *name, const void *bytes, size_t count);

/* All of a command's output, into such a file or, where the name is NULL, to standard output; answers the exit status, with a message
   where that fails. */
int put_text(const char *out, const void *text, size_t count);

#endif
