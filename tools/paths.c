/* The files that a call names: files, and all that folders hold. */
#define _DEFAULT_SOURCE /* for the kinds of entries, as DT_DIR */
#include <dirent.h>
#include <errno.h>
#include <fnmatch.h>
#include <stdio.h>
#include <stdlib.h>
#include <string.h>
#include <sys/stat.h>

#include "command.h"
#include "paths.h"
#include "text.h"

static void add(struct paths *paths, char *name, uint64_t size, const char *problem)
{
    struct path path = {name, size, problem};
    if (paths->count == paths->room) {
        paths->room = paths->room == 0 ? 64 : 2 * paths->room;
        paths->items = take_memory(paths->items, paths->room * sizeof *paths->items);
    }
    paths->items[paths->count++] = path;
    paths->bytes += size;
}

static char *copy(const char *text)
{
    size_t size = strlen(text) + 1;
    return memcpy(take_memory(NULL, size), text, size);
}

static char *joined(const char *folder, const char *name)
{
    size_t length = strlen(folder);
    size_t size = length + strlen(name) + 2;
    char *path = take_memory(NULL, size);
    snprintf(path, size, "%s%s%s", folder, length > 0 && folder[length - 1] == '/' ? "" : "/", name);
    return path;
}

static int is_entry(const struct dirent *entry)
{
    return strcmp(entry->d_name, ".") != 0 && strcmp(entry->d_name, "..") != 0;
}

static void add_folder(struct paths *paths, const char *folder, const char *pattern);

static int is_of(const char *pattern, const char *name)
{
    return pattern == NULL || fnmatch(pattern, name, 0) == 0;
}

/* Whether an entry that can't be looked at may be a folder, or a link to one. */
static int may_be_folder(const struct dirent *entry)
{
#ifdef DT_DIR
    return entry->d_type == DT_DIR || entry->d_type == DT_LNK || entry->d_type == DT_UNKNOWN;
#else
    (void)entry;
    return 1;
#endif
}

/* What is no folder: left out if its name is not of the pattern. One of another kind than a file, as a pipe, is not to be read, since to
   open it could take forever. */
static void add_file(struct paths *paths, const char *path, const struct stat *about, int is_named)
{
    if (!is_named)
        paths->left_out++;
    else if (!S_ISREG(about->st_mode))
        add(paths, copy(path), 0, "not a file");
    else
        add(paths, copy(path), (uint64_t)about->st_size, NULL);
}

/* What can't be looked at: left out if its name is not of the pattern, and it is no folder. */
static void add_unseen(struct paths *paths, const char *path, const char *problem, int is_named, int is_no_folder)
{
    if (!is_named && is_no_folder)
        paths->left_out++;
    else
        add(paths, copy(path), 0, problem);
}

/* A link is what it names, but for a folder. */
static void add_link(struct paths *paths, const char *path, int is_named)
{
    struct stat about;
    int why = stat(path, &about) == 0 ? 0 : errno;
    if (why != 0)
        add_unseen(paths, path, name_problem(path, why), is_named, why == ENOENT);
    else if (S_ISDIR(about.st_mode))
        add(paths, copy(path), 0, "a link to a folder, which is not followed");
    else
        add_file(paths, path, &about, is_named);
}

static void add_entry(struct paths *paths, const char *folder, const struct dirent *entry, const char *pattern)
{
    struct stat about;
    char *path = joined(folder, entry->d_name);
    int is_named = is_of(pattern, entry->d_name);
    if (lstat(path, &about) != 0)
        add_unseen(paths, path, strerror(errno), is_named, !may_be_folder(entry));
    else if (S_ISDIR(about.st_mode))
        add_folder(paths, path, pattern);
    else if (S_ISLNK(about.st_mode))
        add_link(paths, path, is_named);
    else
        add_file(paths, path, &about, is_named);
    free(path);
}

static void add_folder(struct paths *paths, const char *folder, const char *pattern)
{
    struct dirent **entries;
    int i, count = scandir(folder, &entries, is_entry, alphasort);
    if (count < 0) {
        add(paths, copy(folder), 0, strerror(errno));
        return;
    }
    for (i = 0; i < count; i++) {
        add_entry(paths, folder, entries[i], pattern);
        free(entries[i]);
    }
    free(entries);
}

/* A folder in which nothing is found is told itself. */
static void add_named_folder(struct paths *paths, const char *folder, const char *pattern)
{
    size_t count = paths->count, left_out = paths->left_out;
    add_folder(paths, folder, pattern);
    if (paths->count == count)
        add(paths, copy(folder), 0,
            paths->left_out == left_out ? "a folder with no file in it" : "a folder with no file of such a name in it");
}

void paths_add(struct paths *paths, const char *name, const char *pattern)
{
    struct stat about;
    if (strcmp(name, "-") == 0 || stat(name, &about) != 0)
        add(paths, copy(name), 0, NULL);
    else if (S_ISDIR(about.st_mode))
        add_named_folder(paths, name, pattern);
    else
        add(paths, copy(name), (uint64_t)about.st_size, NULL);
}

void paths_free(struct paths *paths)
{
    size_t i;
    for (i = 0; i < paths->count; i++)
        free(paths->items[i].name);
    free(paths->items);
}
