/* The stream of records that is compared: a record is its length in four bytes, and then numbers of seven bits a byte, the lowest first,
   and runs of bytes. tests/reference/src/compared/stream.rs writes it. */
#ifndef STREAM_H
#define STREAM_H

#include "fence.h"

struct record {
    uint8_t *bytes;
    size_t room;
    size_t length;
    size_t at;
};

static inline void stream_broken(const char *words)
{
    fprintf(stderr, "the stream is broken: %s\n", words);
    exit(2);
}

/* The next record; false where the stream has ended. */
static inline bool record_next(struct record *r)
{
    uint8_t size[4];
    size_t got = fread(size, 1, sizeof size, stdin);
    if (got == 0)
        return false;
    if (got < sizeof size)
        stream_broken("a length is cut off");
    r->length = size[0] | (size_t)size[1] << 8 | (size_t)size[2] << 16 | (size_t)size[3] << 24;
    if (r->length > r->room) {
        free(r->bytes);
        r->room = 2 * r->length;
        r->bytes = test_memory(r->room);
    }
    if (fread(r->bytes, 1, r->length, stdin) != r->length)
        stream_broken("a record is cut off");
    r->at = 0;
    return true;
}

static inline bool record_more(const struct record *r)
{
    return r->at < r->length;
}

static inline uint8_t take_byte(struct record *r)
{
    if (!record_more(r))
        stream_broken("a record is too short");
    return r->bytes[r->at++];
}

static inline uint64_t take_number(struct record *r)
{
    uint64_t number = 0;
    unsigned shift = 0;
    uint8_t byte;
    do {
        byte = take_byte(r);
        if (shift > 63)
            stream_broken("a number is too long");
        number |= (uint64_t)(byte & 127) << shift;
        shift += 7;
    } while (byte > 127);
    return number;
}

/* A number with its sign lowest. */
static inline int64_t take_signed(struct record *r)
{
    uint64_t number = take_number(r);
    return (int64_t)(number >> 1 ^ (~(number & 1) + 1));
}

/* So many bytes, which stay in the record. */
static inline const uint8_t *take_bytes(struct record *r, size_t count)
{
    if (count > r->length - r->at)
        stream_broken("a run of bytes is too long");
    r->at += count;
    return r->bytes + r->at - count;
}

#endif
