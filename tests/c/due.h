/* Compares what came with what is due, and tells each difference: seed, operation, what was due and what came. */
#ifndef DUE_H
#define DUE_H

#include <inttypes.h>

#include "region.h"

static size_t most_told = 20; /* differences past these are counted only */
static uint64_t compared_seed;    /* the record's name */
static const char *compared_call; /* the operation */
static size_t comparisons, differences;

static inline bool difference_is_told(void)
{
    return differences++ < most_told;
}

static inline void due_number(const char *what, uint64_t due, uint64_t came)
{
    comparisons++;
    if (due != came && difference_is_told())
        printf("seed %" PRIu64 ": %s: %s: due %" PRIu64 ", came %" PRIu64 "\n", compared_seed, compared_call, what, due, came);
}

static inline void due_at_least(const char *what, uint64_t least, uint64_t came)
{
    comparisons++;
    if (came < least && difference_is_told())
        printf("seed %" PRIu64 ": %s: %s: due %" PRIu64 " or more, came %" PRIu64 "\n", compared_seed, compared_call, what, least, came);
}

/* The bits of a float. */
static inline void due_bits(const char *what, uint64_t due, double came)
{
    uint64_t bits;
    memcpy(&bits, &came, sizeof bits);
    comparisons++;
    if (due != bits && difference_is_told())
        printf("seed %" PRIu64 ": %s: %s: due %016" PRIx64 ", came %016" PRIx64 "\n", compared_seed, compared_call, what, due, bits);
}

/* Tells the first byte of lent memory that differs: its entry, or its place around the lent bytes. */
static inline void tell_region(const struct region *r)
{
    const uint8_t *due = region_due(r);
    int64_t i = r->at_start ? 0 : -MARGIN;
    while (r->map.bytes[i] == due[i])
        i++;
    printf("seed %" PRIu64 ": %s: %s: ", compared_seed, compared_call, r->name);
    if (i < 0 || i >= (int64_t)r->map.size)
        printf("outside, %" PRId64 " of %zu bytes", i, r->map.size);
    else
        printf("entry %" PRId64 " of %zu, byte %" PRId64, i / (int64_t)r->entry, region_length(r), i % (int64_t)r->entry);
    printf(": due %02x, came %02x\n", due[i], r->map.bytes[i]);
}

/* Every lent byte, and those around. What differs is mended, so that it is told once. */
static inline void due_region(struct region *r)
{
    comparisons++;
    if (region_holds(r))
        return;
    if (difference_is_told())
        tell_region(r);
    memcpy(r->map.inner + region_from(r), r->map.before + region_from(r), region_watched(r));
}

#endif
