/* A file's bytes in memory. */
#ifndef TEXT_H
#define TEXT_H

#include <stdbool.h>
#include <stddef.h>
#include <stdint.h>
#include <sys/stat.h>

/* Of a file that is longer than a text may be, one byte past that is there. */
struct text {
    const uint8_t *bytes;
    size_t length;
    int file;
    bool mapped;
    struct stat as_opened;
};

/* A line of a text, without its LF. */
struct line {
    const uint8_t *bytes;
    size_t width;
};

/* Why a file of this name can't be opened or looked at, by its errno: a link to nothing is said to be one. */
const char *name_problem(const char *name, int why);

/* Opens a file, or standard input from where it stands where the name is -. Files 0 to 2 are taken by then. Answers NULL, or why it can't
   be read. */
const char *text_open(struct text *text, const char *path);

/* Whether a mapped file has changed since it was opened. */
bool text_changed(const struct text *text);

void text_close(struct text *text);

/* The bytes from a place on, up to the next LF or to the end. */
struct line line_at(const struct text *text, size_t at);

/* Does the work, which may read mapped files. False where a part of one could not be read: it has been cut short, or its disk fails. */
bool guarded(void (*work)(void *), void *with);

#endif
