/* The memory that the calls are lent: the thirteen buffers, the text, the buffer written to and those of a column; and the stray change
   that a stream may ask for, to see that it is complained of. */
#ifndef LENDING_H
#define LENDING_H

#include "due.h"
#include "stream.h"

enum { CODES, TIMES, TIME_STATES, FLAGS, TALLIES, CLOCKS, CLOCK_STATES, SATELLITES, NUMBERS, STATES, LOSSES, STRENGTHS, CARRIED, BUFFERS,
    TEXT = BUFFERS, OUT, KINDS, FLOATS, REGIONS };

static struct region lent[REGIONS] = {
    {.name = "codes", .entry = 4, .number = CODES},
    {.name = "times", .entry = 8, .number = TIMES},
    {.name = "time states", .entry = 1, .number = TIME_STATES},
    {.name = "flags", .entry = 1, .number = FLAGS},
    {.name = "tallies", .entry = 2, .number = TALLIES},
    {.name = "clocks", .entry = 8, .number = CLOCKS},
    {.name = "clock states", .entry = 1, .number = CLOCK_STATES},
    {.name = "satellites", .entry = 2, .number = SATELLITES},
    {.name = "numbers", .entry = 8, .number = NUMBERS},
    {.name = "states", .entry = 1, .number = STATES},
    {.name = "losses", .entry = 1, .number = LOSSES},
    {.name = "strengths", .entry = 1, .number = STRENGTHS},
    {.name = "carried", .entry = 1, .number = CARRIED},
    {.name = "text", .entry = 1, .number = TEXT},
    {.name = "out", .entry = 1, .number = OUT},
    {.name = "kinds", .entry = 1, .number = KINDS},
    {.name = "floats", .entry = 8, .number = FLOATS},
};

static bool stray_asked;
static size_t stray_region;
static int64_t stray_offset;

/* X: after the next call a byte of lent memory changes. */
static inline void take_stray(struct record *r)
{
    stray_asked = true;
    stray_region = take_number(r);
    stray_offset = take_signed(r);
    if (stray_region >= REGIONS)
        stream_broken("a stray change");
}

/* After a call: the stray change if one is asked for, and then every lent byte against what is due. */
static inline void due_lent(size_t first, size_t last)
{
    size_t i;
    if (stray_asked)
        region_stray(&lent[stray_region], stray_offset);
    stray_asked = false;
    for (i = first; i <= last; i++)
        due_region(&lent[i]);
}

/* In the end: nothing was changed far outside of what was lent. */
static inline void due_far(void)
{
    size_t i;
    compared_call = "all calls";
    for (i = 0; i < REGIONS; i++) {
        region_clear(&lent[i]);
        due_number(lent[i].name, 0, lent[i].far + region_far(&lent[i]));
    }
}

/* The side and the fill that stand before lent lengths. */
struct place {
    bool at_start;
    uint64_t fill;
};

static inline struct place take_place(struct record *r)
{
    struct place place;
    place.at_start = take_number(r) == 1;
    place.fill = take_number(r);
    return place;
}

/* Lends a region with so many entries. */
static inline void lend_entries(size_t region, uint64_t count, struct place place)
{
    if (count > (uint64_t)1 << 28)
        stream_broken("a lent length");
    region_lend(&lent[region], (size_t)count * lent[region].entry, place.at_start, place.fill);
}

/* Lends a text. */
static inline const uint8_t *lend_bytes(const void *text, size_t length, bool at_start)
{
    region_lend(&lent[TEXT], length, at_start, 0);
    memcpy(region_due(&lent[TEXT]), text, length);
    region_settle(&lent[TEXT]);
    return region_bytes(&lent[TEXT]);
}

/* Lends the thirteen buffers. */
static inline void take_lengths(struct record *r)
{
    struct place place = take_place(r);
    size_t i;
    for (i = 0; i < BUFFERS; i++)
        lend_entries(i, take_number(r), place);
}

/* Puts what is due of a buffer's entries, from one on; their count stands before them. */
static inline void take_due_entries(struct record *r, size_t region, size_t from)
{
    size_t size = lent[region].entry;
    size_t count = take_number(r);
    uint8_t *due = region_due(&lent[region]);
    size_t i;
    if (count == 0)
        return;
    if (from + count > region_length(&lent[region]))
        stream_broken("more entries are due than lent");
    due += from * size;
    if (size == 1) {
        memcpy(due, take_bytes(r, count), count);
        return;
    }
    for (i = 0; i < count; i++) {
        bool has_sign = region == CLOCKS || region == NUMBERS;
        uint64_t entry = has_sign ? (uint64_t)take_signed(r) : take_number(r);
        memcpy(due + i * size, &entry, size);
    }
}

#endif
