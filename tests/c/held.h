/* Texts that are read into one lent memory which their tables just fill, and each call on those tables, with fences around all that is
   lent. */
#ifndef HELD_H
#define HELD_H

#include "expect.h"
#include "fence.h"
#include "pistrovelle.h"

#define COUNT(list) (sizeof(list) / sizeof *(list))

/* What is being tried, for the words of a failure. */
static char tried[128];

/* ---------------------------------------------------------------- texts */

enum { LONGEST_TRIED = 1024 };

struct text {
    char bytes[LONGEST_TRIED];
    size_t length;
};

static inline void put(struct text *text, const char *bytes)
{
    size_t length = strlen(bytes);
    memcpy(text->bytes + text->length, bytes, length);
    text->length += length;
}

/* How many bytes the header has. */
static inline size_t header_bytes(const struct text *text)
{
    static const char end[] = "END OF HEADER\n";
    return (size_t)(strstr(text->bytes, end) - text->bytes) + sizeof end - 1;
}

/* ---------------------------------------------------------------- what is held */

/* Lent memory, with the pattern in it and around it. */
static inline struct fenced lend(size_t size, enum side side)
{
    struct fenced lent = fence(size, side);
    fence_fill(&lent, 1);
    fence_remember(&lent);
    return lent;
}

/* What is read of a text, in one lent memory that its tables just fill. */
struct held {
    struct fenced memory;
    pistrovelle_tables tables;
    pistrovelle_read_reply reply;
};

static inline struct held read_text(const struct text *text, enum side side)
{
    pistrovelle_room room = pistrovelle_room_for(text->bytes, text->length);
    size_t aligned = (pistrovelle_bytes(room) + sizeof(uint64_t) - 1) / sizeof(uint64_t) * sizeof(uint64_t);
    struct fenced lent = fence_text(text->bytes, text->length, side);
    struct held held;
    held.memory = lend(aligned, side);
    held.tables = pistrovelle_lay(held.memory.bytes, room);
    held.reply = pistrovelle_read_into(lent.bytes, lent.size, &held.tables);
    expect(fence_kept(&lent), "%s: the text is changed", tried);
    expect(fence_kept_but(&held.memory, 0, aligned), "%s: what is around the tables", tried);
    fence_free(&lent);
    return held;
}

static inline void held_free(struct held *held)
{
    fence_free(&held->memory);
}

/* A text that is refused, with this number at this line; no entry is changed. */
static inline void test_refused(const struct held *held, size_t number, size_t line)
{
    expect(held->reply.number == number && held->reply.line == line && fence_kept(&held->memory), "%s: %zu at line %zu, not %zu at line %zu",
        tried, held->reply.number, held->reply.line, number, line);
}

/* ---------------------------------------------------------------- writing */

static inline bool is_refused(pistrovelle_write_reply reply, size_t number)
{
    return reply.number == number && reply.line == 0 && reply.count == 0;
}

/* Writes all, or the first epoch alone, from a place of the buffer on. */
static inline pistrovelle_write_reply write_into(const struct held *held, bool is_whole, const struct fenced *out, size_t at)
{
    pistrovelle_place first = pistrovelle_first_epoch(&held->reply.head, &held->reply.counts, &held->tables);
    if (is_whole)
        return pistrovelle_write_from(&held->reply.head, &held->reply.counts, &held->tables, out->bytes, out->size, at);
    return pistrovelle_write_epoch_from(&held->reply.head, &held->tables, first, out->bytes, out->size, at);
}

/* Writes tables whose normal text this is, from a place with room enough and from the buffer's end. */
static inline void test_written(const struct held *held, const struct text *normal, bool is_whole, enum side side)
{
    size_t at = 5, skipped = is_whole ? 0 : header_bytes(normal);
    struct fenced out = lend(LONGEST_TRIED, side);
    pistrovelle_write_reply reply = write_into(held, is_whole, &out, out.size);
    expect(is_refused(reply, PISTROVELLE_NO_PLACE) && fence_kept(&out), "%s: written without room: %zu", tried, reply.number);
    reply = write_into(held, is_whole, &out, at);
    expect(reply.number == PISTROVELLE_ACCEPTED && reply.line == 0 && reply.count == normal->length - skipped
        && memcmp(out.bytes + at, normal->bytes + skipped, reply.count) == 0 && fence_kept_but(&out, at, at + reply.count),
        "%s: written: %zu, %.*s", tried, reply.number, (int)reply.count, (const char *)out.bytes + at);
    fence_free(&out);
}

/* The same with tables that no text spells. */
static inline void test_unwritten(const struct held *held, bool is_whole, enum side side)
{
    struct fenced out = lend(LONGEST_TRIED, side);
    expect(is_refused(write_into(held, is_whole, &out, 0), PISTROVELLE_UNSPELLED) && fence_kept(&out), "%s: unspelled and written", tried);
    expect(is_refused(write_into(held, is_whole, &out, out.size), PISTROVELLE_UNSPELLED) && fence_kept(&out),
        "%s: unspelled and without room", tried);
    fence_free(&out);
}

/* ---------------------------------------------------------------- slot questions */

static inline bool is_slot(pistrovelle_slot_reply reply, pistrovelle_slot_reply due)
{
    return reply.kind == due.kind && memcmp(&reply.value, &due.value, sizeof due.value) == 0;
}

/* The slot of a row and code. */
static inline void test_slot(const struct held *held, size_t row, uint32_t code, pistrovelle_slot_reply due)
{
    pistrovelle_slot_reply reply = pistrovelle_slot_from(&held->reply.head, &held->reply.counts, &held->tables, row, code);
    expect(is_slot(reply, due), "%s: code %x of row %zu: %u, not %u", tried, code, row, reply.kind, due.kind);
}

/* The column of a code, with room for so many rows: it comes to this number, and its row `row` to this. */
static inline void test_column(
    const struct held *held, size_t system, uint32_t code, size_t room, size_t number, size_t row, pistrovelle_slot_reply due, enum side side)
{
    size_t count = number == PISTROVELLE_ACCEPTED ? held->reply.counts.rows : 0;
    struct fenced kinds = lend(room, side), floats = lend(room * sizeof(double), side);
    double *values = (double *)(void *)floats.bytes;
    pistrovelle_column_reply reply = pistrovelle_column_from(
        &held->reply.head, &held->reply.counts, &held->tables, system, code, kinds.bytes, values, room);
    expect(reply.number == number && reply.count == count, "%s: the column of %x: %zu", tried, code, reply.number);
    expect(fence_kept_but(&kinds, 0, count) && fence_kept_but(&floats, 0, count * sizeof(double)), "%s: around the column of %x", tried, code);
    if (count > 0) {
        pistrovelle_slot_reply in_column = {kinds.bytes[row], values[row]};
        expect(is_slot(in_column, due), "%s: in the column of %x", tried, code);
    }
    fence_free(&kinds);
    fence_free(&floats);
}

#endif
