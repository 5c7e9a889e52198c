/* The calls of the archive on the lent memory. */
#ifndef CALLS_H
#define CALLS_H

#include "lending.h"
#include "pistrovelle.h"

/* A buffer and how many entries it has. */
#define LENT(i) region_bytes(&lent[i]), region_length(&lent[i])
#define ALL_LENT \
    LENT(CODES), LENT(TIMES), LENT(TIME_STATES), LENT(FLAGS), LENT(TALLIES), LENT(CLOCKS), LENT(CLOCK_STATES), LENT(SATELLITES), \
        LENT(NUMBERS), LENT(STATES), LENT(LOSSES), LENT(STRENGTHS), LENT(CARRIED)

/* What is lent by value beside the tables. */
static pistrovelle_head lent_head;
static pistrovelle_counts lent_counts;

static inline pistrovelle_read_reply call_read(const uint8_t *text, size_t length)
{
    return pistrovelle_read(text, length, ALL_LENT);
}

static inline pistrovelle_write_reply call_write(size_t at)
{
    return pistrovelle_write(lent_head, lent_counts, ALL_LENT, LENT(OUT), at);
}

static inline pistrovelle_slot_reply call_slot(size_t row, uint32_t code)
{
    return pistrovelle_slot(lent_head, lent_counts, ALL_LENT, row, code);
}

static inline pistrovelle_column_reply call_column(size_t system, uint32_t code)
{
    return pistrovelle_column(lent_head, lent_counts, ALL_LENT, system, code, LENT(KINDS), LENT(FLOATS));
}

/* Where the parts of an epoch lie in the tables, and how many entries of each are lent. */
struct parts {
    size_t row, rows, slot, slots[4], carried_at, carried;
};

/* A part of a buffer, from an entry on; the stream has seen to it that it is there. */
static inline void *part(size_t region, size_t at, size_t count)
{
    if (at + count > region_length(&lent[region]))
        stream_broken("a part is not lent");
    return lent[region].map.bytes + at * lent[region].entry;
}

static inline pistrovelle_write_reply call_write_epoch(pistrovelle_epoch epoch, const struct parts *p, size_t at)
{
    pistrovelle_lengths lengths;
    memcpy(lengths.of, lent_head.lengths, sizeof lengths.of);
    return pistrovelle_write_epoch(lengths, epoch, LENT(CODES), part(SATELLITES, p->row, p->rows), p->rows,
        part(NUMBERS, p->slot, p->slots[0]), p->slots[0], part(STATES, p->slot, p->slots[1]), p->slots[1],
        part(LOSSES, p->slot, p->slots[2]), p->slots[2], part(STRENGTHS, p->slot, p->slots[3]), p->slots[3],
        part(CARRIED, p->carried_at, p->carried), p->carried, LENT(OUT), at);
}

#endif
