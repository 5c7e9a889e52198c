/* The files that a call names. */
#ifndef PATHS_H
#define PATHS_H

#include <stddef.h>
#include <stdint.h>

struct path {
    char *name;
    uint64_t size;
    const char *problem; /* why it is not to be read; NULL where it is */
};

struct paths {
    struct path *items;
    size_t count;
    size_t room;
    size_t left_out; /* files of folders whose names are not of the pattern */
    uint64_t bytes;
};

/* Adds a file, or of a folder every file in it and below, by name, if its name is of the pattern (NULL: any). Links to folders that
   stand in a folder are not followed. What can't be read is added with its problem; so is, whatever its name, what may be a folder,
   and a folder of which nothing is added. */
void paths_add(struct paths *paths, const char *name, const char *pattern);

void paths_free(struct paths *paths);

#endif
