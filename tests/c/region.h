/* Lent memory that is used again and again: between two forbidden pages, with a known pattern in it and around it, and beside it what is
   due of every byte. */
#ifndef REGION_H
#define REGION_H

#include "fence.h"

/* So many bytes around the lent ones have the pattern and are looked at after each call. All others are 0, which is looked at in the end. */
enum { MARGIN = 64, BLOCK = 4096 };

struct region {
    const char *name;
    size_t entry;      /* the bytes of an entry */
    unsigned number;   /* which pattern it has */
    struct fenced map; /* map.bytes and map.size are what is lent now, and map.before is what is due */
    size_t far; /* stray bytes in memory that was given up */
    bool mapped;
    bool at_start;
};

/* The pattern, from any of its 256 places on. */
static inline const uint8_t *region_pattern(uint64_t shift)
{
    static uint8_t block[BLOCK + 256];
    size_t i;
    if (block[0] == 0) {
        for (i = 0; i < sizeof block; i++)
            block[i] = (uint8_t)(0xA5u ^ (i * 31u));
    }
    return block + shift % 256;
}

/* Fills memory with the pattern; a multiple of 256 bytes is a whole number of its rounds. */
static inline void region_paint(uint8_t *bytes, size_t size, uint64_t shift)
{
    const uint8_t *pattern = region_pattern(shift);
    size_t done;
    for (done = 0; done < size; done += BLOCK)
        memcpy(bytes + done, pattern, size - done < BLOCK ? size - done : BLOCK);
}

/* The first byte that is looked at, and how many there are. */
static inline size_t region_from(const struct region *r)
{
    return (size_t)(r->map.bytes - r->map.inner) - (r->at_start ? 0 : MARGIN);
}

static inline size_t region_watched(const struct region *r)
{
    return r->map.size + MARGIN;
}

/* Takes back what is lent. */
static inline void region_clear(struct region *r)
{
    if (r->mapped)
        memset(r->map.inner + region_from(r), 0, region_watched(r));
}

/* How many bytes are not 0 where nothing was ever lent, or is no more. */
static inline size_t region_far(const struct region *r)
{
    size_t i, count = 0;
    for (i = 0; r->mapped && i < r->map.inner_size; i++)
        count += r->map.inner[i] != 0;
    return count;
}

/* Maps memory, in place of any that was too small. */
static inline void region_map(struct region *r, size_t size)
{
    if (r->mapped) {
        r->far += region_far(r);
        fence_free(&r->map);
    }
    r->map = fence(size, AT_END);
    r->mapped = true;
}

/* Lends so many bytes, all pattern, at the end or the start of the memory between the forbidden pages. */
static inline void region_lend(struct region *r, size_t size, bool at_start, uint64_t fill)
{
    uint64_t shift = fill + 37u * r->number + (at_start ? 0 : 256 - MARGIN);
    region_clear(r);
    if (!r->mapped || size + MARGIN > r->map.inner_size)
        region_map(r, 2 * size + 65536);
    r->at_start = at_start;
    r->map.size = size;
    r->map.bytes = r->map.inner + (at_start ? 0 : r->map.inner_size - size);
    region_paint(r->map.inner + region_from(r), region_watched(r), shift);
    memcpy(r->map.before + region_from(r), r->map.inner + region_from(r), region_watched(r));
}

/* What is due of the lent bytes. */
static inline uint8_t *region_due(const struct region *r)
{
    return r->map.before + (r->map.bytes - r->map.inner);
}

/* What is due is what there is. */
static inline void region_settle(struct region *r)
{
    memcpy(r->map.bytes, region_due(r), r->map.size);
}

static inline bool region_holds(const struct region *r)
{
    return memcmp(r->map.inner + region_from(r), r->map.before + region_from(r), region_watched(r)) == 0;
}

/* Changes a byte, counted from the first lent one on, as a call that goes astray would. */
static inline void region_stray(struct region *r, int64_t offset)
{
    r->map.bytes[offset] ^= 1;
}

/* A lent length without bytes may be lent as NULL. */
static inline void *region_bytes(const struct region *r)
{
    return r->at_start && r->map.size == 0 ? NULL : r->map.bytes;
}

static inline size_t region_length(const struct region *r)
{
    return r->map.size / r->entry;
}

#endif
