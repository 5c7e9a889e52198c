/* Lent memory with fences: a page behind it or before it that may not be touched, and a known pattern all around. */
#ifndef FENCE_H
#define FENCE_H

#include <stdbool.h>
#include <stddef.h>
#include <stdint.h>
#include <stdio.h>
#include <stdlib.h>
#include <string.h>
#include <sys/mman.h>
#include <unistd.h>

/* Which end of the memory lies at a forbidden page. */
enum side { AT_END, AT_START };

struct fenced {
    uint8_t *map;
    size_t mapped;
    uint8_t *inner; /* the pages between the forbidden ones */
    size_t inner_size;
    uint8_t *bytes;
    size_t size;
    uint8_t *before; /* the inner pages as they were */
};

static inline void give_up(const char *words)
{
    perror(words);
    printf("0 passed, 1 failed\n");
    exit(1);
}

static inline void *test_memory(size_t size)
{
    void *memory = malloc(size > 0 ? size : 1);
    if (memory == NULL)
        give_up("memory");
    return memory;
}

static inline struct fenced fence(size_t size, enum side side)
{
    size_t page = (size_t)sysconf(_SC_PAGESIZE);
    struct fenced f;
    f.size = size;
    f.inner_size = (size / page + 1) * page;
    f.mapped = f.inner_size + 2 * page;
    f.map = mmap(NULL, f.mapped, PROT_READ | PROT_WRITE, MAP_PRIVATE | MAP_ANONYMOUS, -1, 0);
    if (f.map == MAP_FAILED)
        give_up("mmap");
    f.inner = f.map + page;
    f.bytes = side == AT_END ? f.inner + f.inner_size - size : f.inner;
    if (mprotect(f.map, page, PROT_NONE) != 0 || mprotect(f.inner + f.inner_size, page, PROT_NONE) != 0)
        give_up("mprotect");
    f.before = test_memory(f.inner_size);
    return f;
}

static inline void fence_free(struct fenced *f)
{
    munmap(f->map, f->mapped);
    free(f->before);
}

/* A pattern that no table and no text has by chance. */
static inline void fence_fill(struct fenced *f, uint8_t seed)
{
    size_t i;
    for (i = 0; i < f->inner_size; i++)
        f->inner[i] = (uint8_t)(0xA5u ^ (i * 31u) ^ seed);
}

static inline void fence_remember(struct fenced *f)
{
    memcpy(f->before, f->inner, f->inner_size);
}

/* The bytes of the lent memory as they were. */
static inline const uint8_t *fence_was(const struct fenced *f)
{
    return f->before + (f->bytes - f->inner);
}

/* All is as it was but for the lent bytes from one place to another. */
static inline bool fence_kept_but(const struct fenced *f, size_t from, size_t to)
{
    size_t lead = (size_t)(f->bytes - f->inner);
    return memcmp(f->inner, f->before, lead + from) == 0
        && memcmp(f->bytes + to, fence_was(f) + to, f->inner_size - lead - to) == 0;
}

static inline bool fence_kept(const struct fenced *f)
{
    return memcmp(f->inner, f->before, f->inner_size) == 0;
}

/* A copy of a text in such memory. */
static inline struct fenced fence_text(const void *text, size_t length, enum side side)
{
    struct fenced f = fence(length, side);
    fence_fill(&f, 0);
    if (length > 0)
        memcpy(f.bytes, text, length);
    fence_remember(&f);
    return f;
}

#endif
