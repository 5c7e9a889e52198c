/*
 * The C surface over the archive: each operation, each refusal, and every entry that must stay. Called with the folder of the examples.
 * The last line is 'N passed, M failed'.
 */
#include <inttypes.h>
#include <ucontext.h>

#include "expect.h"
#include "fence.h"
#include "pistrovelle.h"
#include "texts.h"

/* ---------------------------------------------------------------- the thirteen buffers */

enum { CODES, TIMES, TIME_STATES, FLAGS, TALLIES, CLOCKS, CLOCK_STATES, SATELLITES, NUMBERS, STATES, LOSSES, STRENGTHS, CARRIED, BUFFERS };

static const size_t entry_size[BUFFERS] = {4, 8, 1, 1, 2, 8, 1, 2, 8, 1, 1, 1, 1};

/* How many entries each buffer has. */
struct lengths {
    size_t of[BUFFERS];
};

static struct lengths lengths_of(pistrovelle_room r)
{
    struct lengths l = {{r.codes, r.epochs, r.epochs, r.epochs, r.epochs, r.epochs, r.epochs, r.rows, r.slots, r.slots, r.slots, r.slots,
        r.carried}};
    return l;
}

struct lent {
    struct lengths lengths;
    struct fenced buffer[BUFFERS];
    bool nulls; /* a buffer without entries is lent as NULL */
};

static struct lent lend(struct lengths lengths, enum side side)
{
    struct lent lent;
    int i;
    lent.lengths = lengths;
    lent.nulls = side == AT_START;
    for (i = 0; i < BUFFERS; i++) {
        lent.buffer[i] = fence(lengths.of[i] * entry_size[i], side);
        fence_fill(&lent.buffer[i], (uint8_t)i);
        fence_remember(&lent.buffer[i]);
    }
    return lent;
}

static void lent_free(struct lent *lent)
{
    int i;
    for (i = 0; i < BUFFERS; i++)
        fence_free(&lent->buffer[i]);
}

static void *entries(const struct lent *lent, int i)
{
    return lent->nulls && lent->lengths.of[i] == 0 ? NULL : lent->buffer[i].bytes;
}

static bool all_kept(const struct lent *lent)
{
    int i;
    for (i = 0; i < BUFFERS; i++) {
        if (!fence_kept(&lent->buffer[i]))
            return false;
    }
    return true;
}

/* Which of the four counts a buffer goes by. */
static size_t used_of(pistrovelle_counts counts, int i)
{
    if (i < SATELLITES)
        return counts.epochs;
    if (i == SATELLITES)
        return counts.rows;
    return i < CARRIED ? counts.slots : counts.carried;
}

/* Code places that no list uses are as they were. */
static bool codes_kept(const struct lent *lent, pistrovelle_head head)
{
    const uint32_t *now = (const uint32_t *)(const void *)lent->buffer[CODES].bytes;
    const uint32_t *was = (const uint32_t *)(const void *)fence_was(&lent->buffer[CODES]);
    size_t i;
    for (i = 0; i < lent->lengths.of[CODES]; i++) {
        bool used = i / 64 < 7 && i % 64 < head.lengths[i / 64];
        if (!used && now[i] != was[i])
            return false;
    }
    return true;
}

/* Entries past the counts are as they were, and all around. */
static bool rest_kept(const struct lent *lent, const pistrovelle_read_reply *reply)
{
    int i;
    for (i = TIMES; i < BUFFERS; i++) {
        if (!fence_kept_but(&lent->buffer[i], 0, used_of(reply->counts, i) * entry_size[i]))
            return false;
    }
    return codes_kept(lent, reply->head) && fence_kept_but(&lent->buffer[CODES], 0, lent->buffer[CODES].size);
}

static pistrovelle_read_reply read_lent(const uint8_t *text, size_t length, const struct lent *l)
{
    const size_t *n = l->lengths.of;
    return pistrovelle_read(text, length, entries(l, CODES), n[CODES], entries(l, TIMES), n[TIMES], entries(l, TIME_STATES),
        n[TIME_STATES], entries(l, FLAGS), n[FLAGS], entries(l, TALLIES), n[TALLIES], entries(l, CLOCKS), n[CLOCKS],
        entries(l, CLOCK_STATES), n[CLOCK_STATES], entries(l, SATELLITES), n[SATELLITES], entries(l, NUMBERS), n[NUMBERS],
        entries(l, STATES), n[STATES], entries(l, LOSSES), n[LOSSES], entries(l, STRENGTHS), n[STRENGTHS], entries(l, CARRIED),
        n[CARRIED]);
}

static pistrovelle_write_reply write_lent(
    pistrovelle_head head, pistrovelle_counts counts, const struct lent *l, uint8_t *out, size_t length, size_t at)
{
    const size_t *n = l->lengths.of;
    return pistrovelle_write(head, counts, entries(l, CODES), n[CODES], entries(l, TIMES), n[TIMES], entries(l, TIME_STATES),
        n[TIME_STATES], entries(l, FLAGS), n[FLAGS], entries(l, TALLIES), n[TALLIES], entries(l, CLOCKS), n[CLOCKS],
        entries(l, CLOCK_STATES), n[CLOCK_STATES], entries(l, SATELLITES), n[SATELLITES], entries(l, NUMBERS), n[NUMBERS],
        entries(l, STATES), n[STATES], entries(l, LOSSES), n[LOSSES], entries(l, STRENGTHS), n[STRENGTHS], entries(l, CARRIED),
        n[CARRIED], out, length, at);
}

static pistrovelle_slot_reply slot_lent(
    pistrovelle_head head, pistrovelle_counts counts, const struct lent *l, size_t row, uint32_t code)
{
    const size_t *n = l->lengths.of;
    return pistrovelle_slot(head, counts, entries(l, CODES), n[CODES], entries(l, TIMES), n[TIMES], entries(l, TIME_STATES),
        n[TIME_STATES], entries(l, FLAGS), n[FLAGS], entries(l, TALLIES), n[TALLIES], entries(l, CLOCKS), n[CLOCKS],
        entries(l, CLOCK_STATES), n[CLOCK_STATES], entries(l, SATELLITES), n[SATELLITES], entries(l, NUMBERS), n[NUMBERS],
        entries(l, STATES), n[STATES], entries(l, LOSSES), n[LOSSES], entries(l, STRENGTHS), n[STRENGTHS], entries(l, CARRIED),
        n[CARRIED], row, code);
}

/* What is lent for the answers of all rows. */
struct column {
    struct fenced kinds, floats;
    size_t kinds_length, floats_length;
    bool nulls; /* a buffer without entries is lent as NULL */
};

static struct column lend_column(size_t kinds, size_t floats, enum side side)
{
    struct column c;
    c.kinds = fence(kinds, side);
    c.floats = fence(floats * sizeof(double), side);
    c.kinds_length = kinds;
    c.floats_length = floats;
    c.nulls = side == AT_START;
    fence_fill(&c.kinds, 21);
    fence_fill(&c.floats, 22);
    fence_remember(&c.kinds);
    fence_remember(&c.floats);
    return c;
}

static void column_free(struct column *c)
{
    fence_free(&c->kinds);
    fence_free(&c->floats);
}

/* Nothing is changed but the first entries. */
static bool column_kept_but(const struct column *c, size_t count)
{
    return fence_kept_but(&c->kinds, 0, count) && fence_kept_but(&c->floats, 0, count * sizeof(double));
}

static pistrovelle_column_reply column_lent(
    pistrovelle_head head, pistrovelle_counts counts, const struct lent *l, size_t system, uint32_t code, const struct column *c)
{
    const size_t *n = l->lengths.of;
    return pistrovelle_column(head, counts, entries(l, CODES), n[CODES], entries(l, TIMES), n[TIMES], entries(l, TIME_STATES),
        n[TIME_STATES], entries(l, FLAGS), n[FLAGS], entries(l, TALLIES), n[TALLIES], entries(l, CLOCKS), n[CLOCKS],
        entries(l, CLOCK_STATES), n[CLOCK_STATES], entries(l, SATELLITES), n[SATELLITES], entries(l, NUMBERS), n[NUMBERS],
        entries(l, STATES), n[STATES], entries(l, LOSSES), n[LOSSES], entries(l, STRENGTHS), n[STRENGTHS], entries(l, CARRIED),
        n[CARRIED], system, code, c->nulls && c->kinds_length == 0 ? NULL : c->kinds.bytes, c->kinds_length,
        c->nulls && c->floats_length == 0 ? NULL : (double *)(void *)c->floats.bytes, c->floats_length);
}

/* ---------------------------------------------------------------- replies */

/* A refusal says its number and line, and all else is 0. */
static bool is_refusal(const pistrovelle_read_reply *reply, size_t number, size_t line)
{
    size_t i, sum = 0;
    for (i = 0; i < 7; i++)
        sum += reply->head.lengths[i];
    return reply->number == number && reply->line == line && sum == 0 && reply->head.letter == 0 && reply->head.first == 0
        && reply->head.time_system == 0 && reply->head.interval_state == 0 && reply->head.interval == 0 && reply->head.lines == 0
        && reply->counts.epochs == 0 && reply->counts.rows == 0 && reply->counts.slots == 0 && reply->counts.carried == 0;
}

static bool is_write_refusal(pistrovelle_write_reply reply, size_t number)
{
    return reply.number == number && reply.line == 0 && reply.count == 0;
}

static bool is_column_refusal(pistrovelle_column_reply reply, size_t number)
{
    return reply.number == number && reply.count == 0;
}

static uint64_t bits_of(double value)
{
    uint64_t bits;
    memcpy(&bits, &value, sizeof bits);
    return bits;
}

/* Bit for bit: the value of so many thousandths, or +0.0. */
static bool is_slot(pistrovelle_slot_reply reply, unsigned kind, int64_t number)
{
    return reply.kind == kind && bits_of(reply.value) == bits_of((double)number / 1000.0);
}

static bool same_head(const pistrovelle_head *a, const pistrovelle_head *b)
{
    return a->letter == b->letter && memcmp(a->lengths, b->lengths, sizeof a->lengths) == 0 && a->first == b->first
        && a->time_system == b->time_system && a->interval_state == b->interval_state && a->interval == b->interval
        && a->lines == b->lines;
}

static bool same_reply(const pistrovelle_read_reply *a, const pistrovelle_read_reply *b)
{
    return a->number == b->number && a->line == b->line && same_head(&a->head, &b->head)
        && memcmp(&a->counts, &b->counts, sizeof a->counts) == 0;
}

/* ---------------------------------------------------------------- room */

static const pistrovelle_room ample = {448, 64, 128, 2048, 8192};

/* The room that exactly holds what was read. */
static pistrovelle_room exact_room(const pistrovelle_read_reply *reply)
{
    pistrovelle_room room = {0, reply->counts.epochs, reply->counts.rows, reply->counts.slots, reply->counts.carried};
    size_t s;
    for (s = 0; s < 7; s++) {
        if (reply->head.lengths[s] > 0)
            room.codes = 64 * s + reply->head.lengths[s];
    }
    return room;
}

/* Reads a text with some room, and sees that nothing is touched that must stay. */
static pistrovelle_read_reply read_checked(const void *bytes, size_t length, struct lengths lengths, enum side side, const char *name)
{
    struct fenced text = fence_text(bytes, length, side);
    struct lent lent = lend(lengths, side);
    pistrovelle_read_reply reply = read_lent(length == 0 && side == AT_START ? NULL : text.bytes, length, &lent);
    expect(fence_kept(&text), "%s: the text is changed", name);
    if (reply.number != 0)
        expect(all_kept(&lent), "%s: a refusal changes an entry", name);
    else
        expect(rest_kept(&lent, &reply), "%s: an entry past the counts is changed", name);
    lent_free(&lent);
    fence_free(&text);
    return reply;
}

/* ---------------------------------------------------------------- the paper's worked example */

static const char worked[] = H AT_30("0", "  2") ROW "R12\n";

static void test_worked(enum side side)
{
    pistrovelle_room room = {65, 1, 2, 3, 0};
    struct lent l = lend(lengths_of(room), side);
    struct fenced text = fence_text(worked, sizeof worked - 1, side);
    pistrovelle_read_reply reply = read_lent(text.bytes, text.size, &l);
    const uint32_t *codes = entries(&l, CODES);
    const uint64_t *times = entries(&l, TIMES);
    const uint16_t *tallies = entries(&l, TALLIES), *satellites = entries(&l, SATELLITES);
    const int64_t *clocks = entries(&l, CLOCKS), *numbers = entries(&l, NUMBERS);
    const uint8_t *states = entries(&l, STATES), *losses = entries(&l, LOSSES), *strengths = entries(&l, STRENGTHS);
    expect(reply.number == 0 && reply.line == 0, "worked: accepted");
    expect(reply.head.letter == 'M' && reply.head.lengths[0] == 2 && reply.head.lengths[1] == 1, "worked: letter and lists");
    expect(reply.head.lengths[2] + reply.head.lengths[3] + reply.head.lengths[4] + reply.head.lengths[5] + reply.head.lengths[6] == 0,
        "worked: the other lists");
    expect(reply.head.first == UINT64_C(14201567700000000) && reply.head.time_system == 0, "worked: first time");
    expect(reply.head.interval_state == 0 && reply.head.interval == 0 && reply.head.lines == 0, "worked: interval, lines");
    expect(reply.counts.epochs == 1 && reply.counts.rows == 2 && reply.counts.slots == 3 && reply.counts.carried == 0, "worked: counts");
    expect(codes[0] == 0x433143 && codes[1] == 0x4C3143 && codes[64] == 0x433143, "worked: codes");
    expect(times[0] == UINT64_C(14201567700000000) && *(uint8_t *)entries(&l, TIME_STATES) == 1, "worked: time");
    expect(*(uint8_t *)entries(&l, FLAGS) == 0 && tallies[0] == 2, "worked: flag and tally");
    expect(clocks[0] == 0 && *(uint8_t *)entries(&l, CLOCK_STATES) == 0, "worked: no clock");
    expect(satellites[0] == 5 && satellites[1] == 112, "worked: satellites");
    expect(numbers[0] == 20000000125 && states[0] == 1 && losses[0] == 255 && strengths[0] == 7, "worked: slot 1");
    expect(numbers[1] == -500 && states[1] == 1 && losses[1] == 1 && strengths[1] == 255, "worked: slot 2");
    expect(numbers[2] == 0 && states[2] == 0 && losses[2] == 255 && strengths[2] == 255, "worked: slot 3 is blank");
    expect(rest_kept(&l, &reply) && fence_kept(&text), "worked: all else is kept");
    lent_free(&l);
    fence_free(&text);
}

/* One entry short in each buffer, by hand: the line at which room is lacking. */
static void test_worked_short(void)
{
    static const size_t line[BUFFERS] = {3, 6, 6, 6, 6, 6, 6, 8, 8, 8, 8, 8, 0};
    pistrovelle_room room = {65, 1, 2, 3, 0};
    int i;
    for (i = 0; i < CARRIED; i++) {
        struct lengths lengths = lengths_of(room);
        pistrovelle_read_reply reply;
        lengths.of[i]--;
        reply = read_checked(worked, sizeof worked - 1, lengths, AT_END, "worked, one short");
        expect(is_refusal(&reply, 16, line[i]), "worked: buffer %d one short gives %zu at line %zu", i, reply.number, reply.line);
    }
}

/* ---------------------------------------------------------------- each refusal */

static size_t case_length(const struct case_text *c)
{
    return c->length > 0 ? c->length : strlen(c->text);
}

static void test_case(const struct case_text *c, enum side side)
{
    char name[64];
    pistrovelle_read_reply reply;
    snprintf(name, sizeof name, "text %zu", (size_t)(c - case_texts));
    reply = read_checked(c->text, case_length(c), lengths_of(ample), side, name);
    if (c->number == 0)
        expect(reply.number == 0 && reply.line == 0, "%s gives %zu at line %zu and is to be accepted", name, reply.number, reply.line);
    else
        expect(is_refusal(&reply, c->number, c->line), "%s gives %zu at line %zu, not %zu at line %zu", name, reply.number, reply.line,
            c->number, c->line);
}

static void test_cases(void)
{
    bool has[18] = {false};
    size_t i;
    for (i = 0; i < CASE_TEXTS; i++) {
        test_case(&case_texts[i], AT_END);
        test_case(&case_texts[i], AT_START);
        has[case_texts[i].number] = true;
    }
    for (i = 0; i <= 15; i++)
        expect(has[i], "no text is answered with %zu", i);
}

/* 16 where room is lacking at a line that has no other fault; a carried line needs its cut length and its LF. */
static void test_no_room(void)
{
    static const char carried[] = VERSION LIST_G MARKER FIRST COMMENT END UNTIMED("4", "  1") COMMENT;
    static const char both[] = H UNTIMED("3", "  1") COMMENT, unlisted[] = VERSION ONE("G", "C9Q") FIRST END;
    pistrovelle_room room = {2, 1, 0, 0, 72 + 68 + 68};
    pistrovelle_read_reply reply = read_checked(carried, sizeof carried - 1, lengths_of(room), AT_END, "carried");
    expect(reply.number == 0 && reply.counts.carried == 208 && reply.head.lines == 2, "carried bytes: %zu", reply.counts.carried);
    room.carried--;
    reply = read_checked(carried, sizeof carried - 1, lengths_of(room), AT_END, "carried, one short");
    expect(is_refusal(&reply, 16, 8), "carried one short: %zu at line %zu", reply.number, reply.line);
    room.carried = 72;
    reply = read_checked(carried, sizeof carried - 1, lengths_of(room), AT_START, "carried, of the header");
    expect(is_refusal(&reply, 16, 5), "carried of the header short: %zu at line %zu", reply.number, reply.line);
    room.carried = 0;
    reply = read_checked(carried, sizeof carried - 1, lengths_of(room), AT_START, "carried, none");
    expect(is_refusal(&reply, 16, 3), "nothing carried: %zu at line %zu", reply.number, reply.line);
    room.codes = 65;
    reply = read_checked(both, sizeof both - 1, lengths_of(room), AT_END, "15 and 16");
    expect(is_refusal(&reply, 15, 7), "15 wins over 16: %zu at line %zu", reply.number, reply.line);
    room.codes = 0;
    reply = read_checked(unlisted, sizeof unlisted - 1, lengths_of(room), AT_END, "6 and 16");
    expect(is_refusal(&reply, 6, 2), "6, for a code, wins over 16: %zu at line %zu", reply.number, reply.line);
}

/* 17 for a byte too many, at once; with exactly 1,073,741,824 bytes, here all 0, the first line is judged. */
static void test_too_long(void)
{
    size_t longest = PISTROVELLE_LONGEST;
    struct lent lent = lend(lengths_of(ample), AT_END);
    const uint8_t *text = mmap(NULL, longest + 1, PROT_READ, MAP_PRIVATE | MAP_ANONYMOUS | MAP_NORESERVE, -1, 0);
    pistrovelle_read_reply reply;
    if (text == MAP_FAILED) {
        printf("left out: no mapping of more than 1 GiB is to be had, so 17 is not tried\n");
        return;
    }
    reply = read_lent(text, longest + 1, &lent);
    expect(is_refusal(&reply, 17, 0) && all_kept(&lent), "one byte too long: %zu at line %zu", reply.number, reply.line);
    reply = read_lent(text, longest, &lent);
    expect(is_refusal(&reply, 1, 1) && all_kept(&lent), "not too long: %zu at line %zu", reply.number, reply.line);
    munmap((void *)text, longest + 1);
    lent_free(&lent);
}

/* ---------------------------------------------------------------- cut off, and other bytes */

/* The worked example cut after each byte: 1 within a line; at a line's end 14, but after the header and at the end. */
static void test_cuts(enum side side)
{
    static const size_t at_end[9] = {3, 14, 14, 14, 14, 0, 14, 14, 0};
    size_t cut, lines = 0;
    for (cut = 0; cut < sizeof worked; cut++) {
        bool whole = cut == 0 || worked[cut - 1] == '\n';
        size_t number, line;
        pistrovelle_read_reply reply = read_checked(worked, cut, lengths_of(ample), side, "cut");
        lines += cut > 0 && whole;
        number = whole ? at_end[lines] : 1;
        line = number == 0 ? 0 : lines + 1;
        expect(reply.number == number && reply.line == line, "cut at %zu: %zu at line %zu", cut, reply.number, reply.line);
    }
}

/* Each byte of the worked example replaced by one that no line has. */
static void test_other_bytes(void)
{
    static const uint8_t other[] = {0, 9, 13, 31, 127, 128, 255};
    struct lent lent = lend(lengths_of(ample), AT_END);
    struct fenced text = fence_text(worked, sizeof worked - 1, AT_END);
    size_t i, k, line = 1;
    for (i = 0; i < text.size; i++) {
        for (k = 0; k < sizeof other; k++) {
            pistrovelle_read_reply reply;
            text.bytes[i] = other[k];
            reply = read_lent(text.bytes, text.size, &lent);
            expect(is_refusal(&reply, 1, line) && all_kept(&lent), "byte %u at %zu: %zu at line %zu", other[k], i, reply.number, reply.line);
        }
        text.bytes[i] = (uint8_t)worked[i];
        line += worked[i] == '\n';
    }
    lent_free(&lent);
    fence_free(&text);
}

/* ---------------------------------------------------------------- nothing lent */

static void test_nothing_lent(void)
{
    static const char header[] = H;
    pistrovelle_tables none;
    pistrovelle_read_reply reply;
    pistrovelle_column_reply column;
    pistrovelle_head head;
    pistrovelle_counts counts = {0, 0, 0, 0};
    pistrovelle_lengths lengths = {{0, 0, 0, 0, 0, 0, 0}};
    pistrovelle_epoch epoch = {0, 0, 4, 0, 0, 0};
    uint32_t codes[65];
    memset(&none, 0, sizeof none);
    memset(&head, 0, sizeof head);
    reply = pistrovelle_read_into(NULL, 0, &none);
    expect(is_refusal(&reply, 3, 1), "nothing at all: %zu at line %zu", reply.number, reply.line);
    reply = pistrovelle_read_into(worked, sizeof worked - 1, &none);
    expect(is_refusal(&reply, 16, 2), "no tables: %zu at line %zu", reply.number, reply.line);
    none.codes = codes;
    none.room.codes = 65;
    reply = pistrovelle_read_into(header, sizeof header - 1, &none);
    expect(reply.number == 0, "a header needs codes alone: %zu at line %zu", reply.number, reply.line);
    expect(is_write_refusal(pistrovelle_write_from(&reply.head, &reply.counts, &none, NULL, 0, 0), 21), "a header into nothing");
    expect(is_write_refusal(pistrovelle_write_from(&reply.head, &reply.counts, &none, NULL, 0, 1), 21), "a header past nothing");
    expect(is_slot(pistrovelle_slot_from(&reply.head, &reply.counts, &none, 0, 0x433143), 7, 0), "a header has no row");
    column = pistrovelle_column_from(&reply.head, &reply.counts, &none, 0, 0x433143, NULL, NULL, 0);
    expect(column.number == 0 && column.count == 0, "the column of no rows: %zu", column.number);
    memset(&none, 0, sizeof none);
    expect(is_slot(pistrovelle_slot_from(&head, &counts, &none, 0, 0), 20, 0), "a slot of nothing");
    expect(is_column_refusal(pistrovelle_column_from(&head, &counts, &none, 0, 0, NULL, NULL, 0), 20), "a column of nothing");
    expect(is_write_refusal(pistrovelle_write_from(&head, &counts, &none, NULL, 0, 0), 20), "writing nothing");
    expect(is_write_refusal(pistrovelle_write_epoch(lengths, epoch, NULL, 0, NULL, 0, NULL, 0, NULL, 0, NULL, 0, NULL, 0, NULL, 0, NULL,
               0, 0), 20), "writing an epoch of nothing");
}

/* ---------------------------------------------------------------- the example files */

static const char *folder;

struct file {
    char name[512];
    uint8_t *bytes;
    size_t length;
};

static struct file load(const char *name)
{
    struct file file;
    FILE *in;
    snprintf(file.name, sizeof file.name, "%s/%s", folder, name);
    file.bytes = test_memory(1 << 20);
    in = fopen(file.name, "rb");
    if (in == NULL)
        give_up(file.name);
    file.length = fread(file.bytes, 1, 1 << 20, in);
    fclose(in);
    return file;
}

/* Numbers, lines and counts as examples/README.md has them. */
struct example {
    const char *name;
    size_t number, line, epochs, rows, slots, carried;
};

static const struct example examples[] = {
    {"worked.rnx", 0, 0, 1, 2, 3, 0},
    {"day.rnx", 0, 0, 10, 43, 418, 2723},
    {"table-13-14.rnx", 0, 0, 1, 7, 23, 0},
    {"table-27.rnx", 0, 0, 1, 5, 19, 0},
    {"a4-example-1.rnx", 0, 0, 11, 24, 102, 2702},
    {"a4-example-2.rnx", 0, 0, 1, 0, 0, 2569},
    {"a4-example-3.rnx", 0, 0, 1, 0, 0, 2918},
    {"table-13-14.as-printed.rnx", 3, 1, 0, 0, 0, 0},
    {"table-27.as-printed.rnx", 3, 1, 0, 0, 0, 0},
    {"a4-example-1.as-printed.rnx", 7, 78, 0, 0, 0, 0},
    {"a4-example-2.as-printed.rnx", 10, 46, 0, 0, 0, 0},
    {"a4-example-3.as-printed.rnx", 10, 51, 0, 0, 0, 0},
};

enum { EXAMPLES = sizeof examples / sizeof *examples, ACCEPTED_EXAMPLES = 7 };

/* Each buffer one short gives 16 at a line, and more room changes nothing. */
static void test_rooms(const struct file *file, const pistrovelle_read_reply *reply)
{
    pistrovelle_room exact = exact_room(reply);
    pistrovelle_read_reply again;
    int i;
    for (i = 0; i < BUFFERS; i++) {
        struct lengths lengths = lengths_of(exact);
        if (lengths.of[i] > 0) {
            lengths.of[i]--;
            again = read_checked(file->bytes, file->length, lengths, i % 2 == 0 ? AT_END : AT_START, file->name);
            expect(again.number == 16 && is_refusal(&again, 16, again.line) && again.line > 1, "%s: buffer %d one short gives %zu",
                file->name, i, again.number);
        }
        lengths.of[i] += 1 + 3 * (size_t)i;
        again = read_checked(file->bytes, file->length, lengths, i % 2 == 0 ? AT_START : AT_END, file->name);
        expect(same_reply(&again, reply), "%s: buffer %d longer gives another reply", file->name, i);
    }
}

static void test_example(const struct example *example)
{
    struct file file = load(example->name);
    pistrovelle_read_reply reply = read_checked(file.bytes, file.length, lengths_of(ample), AT_END, file.name);
    pistrovelle_read_reply again;
    if (example->number != 0) {
        expect(is_refusal(&reply, example->number, example->line), "%s: %zu at line %zu", file.name, reply.number, reply.line);
    } else {
        expect(reply.number == 0 && reply.counts.epochs == example->epochs && reply.counts.rows == example->rows
            && reply.counts.slots == example->slots && reply.counts.carried == example->carried, "%s: counts", file.name);
        again = read_checked(file.bytes, file.length, lengths_of(exact_room(&reply)), AT_END, file.name);
        expect(same_reply(&again, &reply), "%s: exact room", file.name);
        again = read_checked(file.bytes, file.length, lengths_of(exact_room(&reply)), AT_START, file.name);
        expect(same_reply(&again, &reply), "%s: exact room, other side", file.name);
        test_rooms(&file, &reply);
    }
    free(file.bytes);
}

/* ---------------------------------------------------------------- writing */

/* Tables that were read, in exact room. */
struct filed {
    struct file file;
    pistrovelle_read_reply reply;
    struct lent lent;
    uint8_t *normal;
    size_t normal_length;
};

static struct filed read_example(const char *name, enum side side)
{
    struct filed f;
    pistrovelle_room room;
    struct lent first = lend(lengths_of(ample), AT_END);
    f.file = load(name);
    f.reply = read_lent(f.file.bytes, f.file.length, &first);
    room = exact_room(&f.reply);
    lent_free(&first);
    f.lent = lend(lengths_of(room), side);
    f.reply = read_lent(f.file.bytes, f.file.length, &f.lent);
    expect(f.reply.number == 0, "%s is accepted", name);
    f.normal = test_memory(f.file.length);
    f.normal_length = write_lent(f.reply.head, f.reply.counts, &f.lent, f.normal, f.file.length, 0).count;
    return f;
}

static void filed_free(struct filed *f)
{
    lent_free(&f->lent);
    free(f->file.bytes);
    free(f->normal);
}

/* Writes into fenced memory of some size from a place on, and sees that only the text's bytes are changed. */
static void test_write(const struct filed *f, size_t size, size_t at, enum side side, size_t number)
{
    struct fenced out = fence(size, side);
    pistrovelle_write_reply reply;
    fence_fill(&out, 99);
    fence_remember(&out);
    reply = write_lent(f->reply.head, f->reply.counts, &f->lent, out.bytes, size, at);
    if (number != 0) {
        expect(is_write_refusal(reply, number), "%s: %zu at %zu of %zu, not %zu", f->file.name, reply.number, at, size, number);
        expect(fence_kept(&out), "%s: a refusal changes the buffer", f->file.name);
    } else {
        expect(reply.number == 0 && reply.line == 0 && reply.count == f->normal_length, "%s: %zu bytes at %zu of %zu", f->file.name,
            reply.count, at, size);
        expect(memcmp(out.bytes + at, f->normal, f->normal_length) == 0, "%s: the text at %zu", f->file.name, at);
        expect(fence_kept_but(&out, at, at + f->normal_length), "%s: other bytes stay", f->file.name);
    }
    fence_free(&out);
}

/* The normal text reads back as the same tables and is its own normal text. */
static void test_back(const struct filed *f)
{
    struct fenced text = fence_text(f->normal, f->normal_length, AT_END);
    struct lent lent = lend(f->lent.lengths, AT_END);
    uint8_t *again = test_memory(f->normal_length);
    pistrovelle_read_reply reply = read_lent(text.bytes, text.size, &lent);
    pistrovelle_write_reply count;
    int i;
    expect(same_reply(&reply, &f->reply), "%s: the normal text has another reply: %zu at line %zu", f->file.name, reply.number, reply.line);
    for (i = TIMES; i < BUFFERS; i++)
        expect(memcmp(lent.buffer[i].bytes, f->lent.buffer[i].bytes, lent.buffer[i].size) == 0, "%s: table %d", f->file.name, i);
    count = write_lent(reply.head, reply.counts, &lent, again, f->normal_length, 0);
    expect(count.count == f->normal_length && memcmp(again, f->normal, f->normal_length) == 0, "%s: normal of normal", f->file.name);
    free(again);
    lent_free(&lent);
    fence_free(&text);
}

static void test_writing(const char *name)
{
    struct filed f = read_example(name, AT_END);
    size_t n = f.normal_length;
    test_write(&f, n, 0, AT_END, 0);
    test_write(&f, n, 0, AT_START, 0);
    test_write(&f, n + 100, 37, AT_END, 0);
    test_write(&f, n + 37, 37, AT_END, 0);
    test_write(&f, n - 1, 0, AT_END, 21);
    test_write(&f, n + 37, 38, AT_END, 21);
    test_write(&f, n, n, AT_END, 21);
    test_write(&f, n, n + 1, AT_END, 21);
    test_write(&f, n, SIZE_MAX, AT_END, 21);
    test_write(&f, n, SIZE_MAX - n + 1, AT_START, 21);
    test_write(&f, 0, 0, AT_END, 21);
    test_back(&f);
    filed_free(&f);
}

/* The normal text itself, once by hand: lists in the normal order, free columns and needless digits and blanks gone, and a zero's too. */
static void test_normal_by_hand(void)
{
    static const char text[] =
        "     3.03           OBS!                M (MIXED)           RINEX VERSION / TYPE   \n" COMMENT
        "R  001 C1C                                                  SYS / # / OBS TYPES \n"
        "  2024    02    09    03    09    5.0000000     GPS         TIME OF FIRST OBS\n"
        "      .500                                                  INTERVAL\n" LIST_G END
        "> 2024  2  9  3  9  5.0000000  0  1       -.000000000000\n"
        "R07         -.00079   \n" UNTIMED("4", "  1") "x                                                           COMMENT             \n";
    static const char normal[] = VERSION LIST_G LIST_R
        "  2024     2     9     3     9    5.0000000     GPS         TIME OF FIRST OBS\n"
        "     0.500                                                  INTERVAL\n" COMMENT END
        "> 2024 02 09 03 09  5.0000000  0  1       0.000000000000\n"
        "R07              79\n" UNTIMED("4", "  1") "x                                                           COMMENT\n";
    pistrovelle_room room = pistrovelle_room_for(text, sizeof text - 1);
    pistrovelle_tables tables = pistrovelle_lay(test_memory(pistrovelle_bytes(room)), room);
    pistrovelle_read_reply reply = pistrovelle_read_into(text, sizeof text - 1, &tables);
    char out[sizeof text];
    pistrovelle_write_reply written = pistrovelle_write_from(&reply.head, &reply.counts, &tables, out, sizeof out, 0);
    expect(reply.number == 0, "by hand: %zu at line %zu", reply.number, reply.line);
    expect(written.count == sizeof normal - 1 && memcmp(out, normal, sizeof normal - 1) == 0, "by hand: the normal text:\n%.*s",
        (int)written.count, out);
    free(tables.times);
}

/* ---------------------------------------------------------------- tables that no text spells */

/* A change to tables, and its number: 20, or 0 where it is fit. */
struct marring {
    int buffer; /* or HEAD and COUNTS */
    size_t entry;
    int64_t value;
    size_t number;
};

enum { LETTER = BUFFERS, LENGTHS, FIRST_TIME, TIME_SYSTEM, INTERVAL_STATE, INTERVAL_VALUE, LINES, EPOCHS, ROWS, SLOTS, CARRIED_BYTES };

/* A code as the table has it. */
#define CODE(type, band, attribute) ((type) << 16 | (band) << 8 | (attribute))

/* On the tables of this text: an epoch of two rows, G05 (two slots, the second blank) and R12; an event of one line. */
static const char fit_text[] = VERSION LIST_G LIST_R FIRST INTERVAL COMMENT END
    "> 2024 12 31 23 59 30.0000000  0  2       0.000000000001\n"
    "G05  20000000.125 7\n"
    "R12        -0.50019\n" UNTIMED("3", "  1") MARKER;

static const struct marring marrings[] = {
    {LETTER, 0, 'M', 0}, {LETTER, 0, 'G', 20}, {LETTER, 0, 'R', 20}, {LETTER, 0, 'X', 20}, {LETTER, 0, 0, 20},
    {LENGTHS, 0, 1, 20}, {LENGTHS, 0, 0, 20}, {LENGTHS, 0, 65, 20}, {LENGTHS, 1, 0, 20}, {LENGTHS, 2, 1, 20}, {LENGTHS, 6, -1, 20},
    {FIRST_TIME, 0, 0, 0}, {FIRST_TIME, 0, 43830 * INT64_C(864000000000) - 1, 0}, {FIRST_TIME, 0, 43830 * INT64_C(864000000000), 20},
    {FIRST_TIME, 0, -1, 20}, {TIME_SYSTEM, 0, 5, 0}, {TIME_SYSTEM, 0, 6, 20}, {TIME_SYSTEM, 0, -1, 20},
    {INTERVAL_STATE, 0, 0, 20}, {INTERVAL_STATE, 0, 2, 20}, {INTERVAL_VALUE, 0, 0, 20}, {INTERVAL_VALUE, 0, 1, 0},
    {INTERVAL_VALUE, 0, 999999999, 0}, {INTERVAL_VALUE, 0, 1000000000, 20}, {INTERVAL_VALUE, 0, -1, 20},
    {LINES, 0, 0, 20}, {LINES, 0, 2, 20}, {LINES, 0, -1, 20},
    {EPOCHS, 0, 1, 20}, {EPOCHS, 0, 3, 20}, {EPOCHS, 0, -1, 20}, {ROWS, 0, 1, 20}, {ROWS, 0, 3, 20}, {ROWS, 0, -1, 20},
    {SLOTS, 0, 2, 20}, {SLOTS, 0, 4, 20}, {SLOTS, 0, -1, 20}, {CARRIED_BYTES, 0, 0, 20}, {CARRIED_BYTES, 0, 139, 20},
    {CARRIED_BYTES, 0, 141, 20}, {CARRIED_BYTES, 0, -1, 20},
    {CODES, 0, CODE('C', '2', 'W'), 0}, {CODES, 0, CODE('C', '1', ' '), 0}, {CODES, 0, CODE('C', '9', 'C'), 20},
    {CODES, 0, CODE('C', '9', ' '), 20}, {CODES, 0, CODE('C', '1', 'N'), 20}, {CODES, 0, CODE('L', '2', 'N'), 0},
    {CODES, 0, CODE('C', '5', 'A'), 20}, {CODES, 1, CODE('L', '1', 'Q'), 20}, {CODES, 1, CODE('L', '5', 'I'), 0},
    {CODES, 64, CODE('C', '3', 'X'), 0}, {CODES, 64, CODE('C', '5', 'X'), 20}, {CODES, 64, CODE('C', '4', 'A'), 20},
    {CODES, 2, CODE('C', '9', 'Q'), 0}, {CODES, 0, 0x4C3143, 20}, {CODES, 0, 0x583143, 20}, {CODES, 0, 0x433043, 20},
    {CODES, 0, 0x433161, 20}, {CODES, 0, 0, 20}, {CODES, 0, -1, 20}, {CODES, 0, 0x1433143, 20}, {CODES, 2, 0, 0}, {CODES, 64, 0, 20},
    {TIMES, 0, 0, 0}, {TIMES, 0, 43830 * INT64_C(864000000000), 20}, {TIMES, 1, 1, 20}, {TIME_STATES, 0, 0, 20}, {TIME_STATES, 0, 2, 20},
    {TIME_STATES, 1, 1, 0}, {TIME_STATES, 1, 2, 20}, {FLAGS, 0, 1, 0}, {FLAGS, 0, 2, 20}, {FLAGS, 1, 4, 0}, {FLAGS, 1, 2, 0},
    {FLAGS, 1, 5, 20}, {FLAGS, 1, 6, 20}, {FLAGS, 1, 0, 20}, {FLAGS, 1, 255, 20}, {TALLIES, 0, 1, 20}, {TALLIES, 0, 3, 20},
    {TALLIES, 0, 1000, 20}, {TALLIES, 1, 0, 20}, {TALLIES, 1, 2, 20}, {TALLIES, 1, 65535, 20},
    {CLOCKS, 0, 0, 0}, {CLOCKS, 0, INT64_C(99999999999999), 0}, {CLOCKS, 0, INT64_C(100000000000000), 20},
    {CLOCKS, 0, INT64_C(-9999999999999), 0}, {CLOCKS, 0, INT64_C(-10000000000000), 20}, {CLOCKS, 0, INT64_MIN, 20}, {CLOCKS, 1, 1, 20},
    {CLOCK_STATES, 0, 0, 20}, {CLOCK_STATES, 0, 2, 20}, {CLOCK_STATES, 1, 1, 20},
    {SATELLITES, 0, 99, 0}, {SATELLITES, 0, 100, 20}, {SATELLITES, 0, 0, 20}, {SATELLITES, 1, 5, 20}, {SATELLITES, 1, 199, 0},
    {SATELLITES, 1, 212, 20}, {SATELLITES, 0, 112, 20}, {SATELLITES, 0, 700, 20}, {SATELLITES, 0, 701, 20}, {SATELLITES, 0, 65535, 20},
    {NUMBERS, 0, INT64_C(9999999999999), 0}, {NUMBERS, 0, INT64_C(10000000000000), 20}, {NUMBERS, 0, INT64_C(-999999999999), 0},
    {NUMBERS, 0, INT64_C(-1000000000000), 20}, {NUMBERS, 0, INT64_MIN, 20}, {NUMBERS, 0, INT64_MAX, 20}, {NUMBERS, 0, 0, 20},
    {NUMBERS, 0, 1, 0}, {NUMBERS, 0, -1, 0}, {NUMBERS, 1, 1, 20}, {NUMBERS, 1, -1, 20}, {NUMBERS, 2, 0, 20}, {NUMBERS, 2, 1, 0},
    {NUMBERS, 2, -1, 0}, {NUMBERS, 3, 0, 0}, {STATES, 0, 0, 20}, {STATES, 0, 2, 20}, {STATES, 1, 1, 20}, {STATES, 1, 255, 20},
    {STATES, 2, 0, 20}, {STATES, 3, 1, 0},
    {LOSSES, 0, 0, 0}, {LOSSES, 0, 7, 0}, {LOSSES, 0, 8, 20}, {LOSSES, 0, 254, 20}, {LOSSES, 1, 3, 0}, {STRENGTHS, 0, 9, 0},
    {STRENGTHS, 0, 10, 20}, {STRENGTHS, 2, 255, 0}, {STRENGTHS, 2, 48, 20},
    {CARRIED, 0, 'B', 0}, {CARRIED, 0, 31, 20}, {CARRIED, 0, 127, 20}, {CARRIED, 0, 10, 20}, {CARRIED, 60, 'X', 20}, {CARRIED, 67, 32, 20},
    {CARRIED, 66, 32, 20}, {CARRIED, 128, 'X', 20}, {CARRIED, 139, 32, 20},
};

static void set_entry(struct lent *lent, const struct marring *m)
{
    uint8_t *at = lent->buffer[m->buffer].bytes + m->entry * entry_size[m->buffer];
    memcpy(at, &m->value, entry_size[m->buffer]);
}

static void set_value(pistrovelle_head *head, pistrovelle_counts *counts, const struct marring *m)
{
    size_t value = (size_t)m->value;
    switch (m->buffer) {
    case LETTER: head->letter = (uint8_t)value; break;
    case LENGTHS: head->lengths[m->entry] = value; break;
    case FIRST_TIME: head->first = value; break;
    case TIME_SYSTEM: head->time_system = value; break;
    case INTERVAL_STATE: head->interval_state = (uint8_t)value; break;
    case INTERVAL_VALUE: head->interval = value; break;
    case LINES: head->lines = value; break;
    case EPOCHS: counts->epochs = value; break;
    case ROWS: counts->rows = value; break;
    case SLOTS: counts->slots = value; break;
    default: counts->carried = value; break;
    }
}

/* Slot questions have 20 for the same tables, before a row that isn't there and before buffers that are too short. */
static void test_marred_slots(const struct marring *m, const struct lent *lent, const pistrovelle_head *head, const pistrovelle_counts *counts)
{
    size_t which = (size_t)(m - marrings);
    struct column exact = lend_column(2, 2, AT_END), small = lend_column(1, 1, AT_END);
    pistrovelle_column_reply reply = column_lent(*head, *counts, lent, 0, 0x4C3143, &exact);
    pistrovelle_slot_reply slot = slot_lent(*head, *counts, lent, 0, 0x4C3143);
    expect(m->number == 0 ? slot.kind > 0 && slot.kind < 7 : is_slot(slot, 20, 0), "marring %zu: slot %u", which, slot.kind);
    expect(is_slot(slot_lent(*head, *counts, lent, SIZE_MAX, 0), m->number == 0 ? 7 : 20, 0), "marring %zu: no such row", which);
    expect(m->number == 0 ? reply.number == 0 && reply.count == 2 : is_column_refusal(reply, 20), "marring %zu: column %zu", which,
        reply.number);
    expect(column_kept_but(&exact, reply.count), "marring %zu: the column's buffers", which);
    reply = column_lent(*head, *counts, lent, 0, 0x4C3143, &small);
    expect(is_column_refusal(reply, m->number == 0 ? 16 : 20) && column_kept_but(&small, 0), "marring %zu: column with no room: %zu", which,
        reply.number);
    column_free(&exact);
    column_free(&small);
}

/* With the buffer long enough the number is as told; with none, 20 stays and a fit text is 21. */
static void test_marring(const struct marring *m, struct lent *lent, const pistrovelle_read_reply *reply, struct fenced *out)
{
    pistrovelle_head head = reply->head;
    pistrovelle_counts counts = reply->counts;
    pistrovelle_write_reply written;
    size_t which = (size_t)(m - marrings);
    if (m->buffer < BUFFERS)
        set_entry(lent, m);
    else
        set_value(&head, &counts, m);
    written = write_lent(head, counts, lent, out->bytes, out->size, 0);
    expect(written.number == m->number && written.line == 0, "marring %zu (%d, entry %zu, %" PRId64 "): %zu", which, m->buffer, m->entry,
        m->value, written.number);
    expect(m->number == 0 ? fence_kept_but(out, 0, written.count) : fence_kept(out), "marring %zu: the buffer", which);
    written = write_lent(head, counts, lent, out->bytes, out->size, out->size);
    expect(is_write_refusal(written, m->number == 0 ? 21 : 20), "marring %zu with no room: %zu", which, written.number);
    memcpy(out->inner, out->before, out->inner_size);
    test_marred_slots(m, lent, &head, &counts);
}

static void test_marrings(void)
{
    pistrovelle_room room = {66, 3, 3, 4, 141};
    struct lent lent = lend(lengths_of(room), AT_END);
    pistrovelle_read_reply reply = read_lent((const uint8_t *)fit_text, sizeof fit_text - 1, &lent);
    struct fenced out = fence(2 * sizeof fit_text, AT_END);
    int i;
    size_t k;
    fence_fill(&out, 7);
    fence_remember(&out);
    expect(reply.number == 0 && reply.counts.carried == 140, "the fit text: %zu at line %zu", reply.number, reply.line);
    for (i = 0; i < BUFFERS; i++)
        fence_remember(&lent.buffer[i]);
    for (k = 0; k < sizeof marrings / sizeof *marrings; k++) {
        test_marring(&marrings[k], &lent, &reply, &out);
        for (i = 0; i < BUFFERS; i++)
            memcpy(lent.buffer[i].inner, lent.buffer[i].before, lent.buffer[i].inner_size);
    }
    fence_free(&out);
    lent_free(&lent);
}

/* Counts past the lent lengths are 20, whichever buffer is the short one. */
static void test_short_tables(void)
{
    struct filed f = read_example("day.rnx", AT_END);
    struct column column = lend_column(f.reply.counts.rows, f.reply.counts.rows, AT_END);
    uint8_t *out = test_memory(f.normal_length);
    int i;
    for (i = 0; i < BUFFERS; i++) {
        f.lent.lengths.of[i]--;
        expect(is_write_refusal(write_lent(f.reply.head, f.reply.counts, &f.lent, out, f.normal_length, 0), 20), "short buffer %d", i);
        expect(is_slot(slot_lent(f.reply.head, f.reply.counts, &f.lent, 0, 0x433143), 20, 0), "short buffer %d: slot", i);
        expect(is_column_refusal(column_lent(f.reply.head, f.reply.counts, &f.lent, 0, 0x433143, &column), 20)
            && column_kept_but(&column, 0), "short buffer %d: column", i);
        f.lent.lengths.of[i]++;
    }
    expect(write_lent(f.reply.head, f.reply.counts, &f.lent, out, f.normal_length, 0).number == 0, "no short buffer");
    expect(slot_lent(f.reply.head, f.reply.counts, &f.lent, 0, 0x433143).kind == 1, "no short buffer: slot");
    column_free(&column);
    free(out);
    filed_free(&f);
}

/* ---------------------------------------------------------------- one epoch alone */

static pistrovelle_tables tables_of(const struct lent *l, pistrovelle_room room)
{
    pistrovelle_tables t;
    t.room = room;
    t.codes = entries(l, CODES);
    t.times = entries(l, TIMES);
    t.time_states = entries(l, TIME_STATES);
    t.flags = entries(l, FLAGS);
    t.tallies = entries(l, TALLIES);
    t.clocks = entries(l, CLOCKS);
    t.clock_states = entries(l, CLOCK_STATES);
    t.satellites = entries(l, SATELLITES);
    t.numbers = entries(l, NUMBERS);
    t.states = entries(l, STATES);
    t.losses = entries(l, LOSSES);
    t.strengths = entries(l, STRENGTHS);
    t.carried = entries(l, CARRIED);
    return t;
}

/* Where the first epoch of a normal text begins. */
static size_t data_of(const uint8_t *text, size_t length)
{
    size_t at = 0;
    while (at < length) {
        size_t line = at;
        while (text[at] != '\n')
            at++;
        at++;
        if (at - line > 73 && memcmp(text + line + 60, "END OF HEADER", 13) == 0)
            break;
    }
    return at;
}

/* An epoch put at its place of the normal text; before it and behind it all stays. */
static size_t test_epoch(const struct filed *f, const pistrovelle_tables *t, pistrovelle_place place, size_t at)
{
    struct fenced out = fence(f->normal_length, AT_END);
    pistrovelle_write_reply reply, short_by_one;
    fence_fill(&out, 3);
    fence_remember(&out);
    reply = pistrovelle_write_epoch_from(&f->reply.head, t, place, out.bytes, out.size, at);
    expect(reply.number == 0 && reply.line == 0 && at + reply.count <= f->normal_length, "%s: epoch %zu: %zu", f->file.name, place.epoch,
        reply.number);
    expect(memcmp(out.bytes + at, f->normal + at, reply.count) == 0, "%s: epoch %zu: its text", f->file.name, place.epoch);
    expect(fence_kept_but(&out, at, at + reply.count), "%s: epoch %zu: the frame", f->file.name, place.epoch);
    fence_fill(&out, 3);
    short_by_one = pistrovelle_write_epoch_from(&f->reply.head, t, place, out.bytes, at + reply.count - 1, at);
    expect(is_write_refusal(short_by_one, 21) && fence_kept(&out), "%s: epoch %zu, one short", f->file.name, place.epoch);
    short_by_one = pistrovelle_write_epoch_from(&f->reply.head, t, place, out.bytes, out.size, out.size + 1);
    expect(is_write_refusal(short_by_one, 21) && fence_kept(&out), "%s: epoch %zu, past the end", f->file.name, place.epoch);
    fence_free(&out);
    return at + reply.count;
}

/* The epochs one after the other are the text behind the header. */
static void test_epochs(const char *name)
{
    struct filed f = read_example(name, AT_END);
    pistrovelle_tables t = tables_of(&f.lent, exact_room(&f.reply));
    pistrovelle_place place = pistrovelle_first_epoch(&f.reply.head, &f.reply.counts, &t);
    size_t at = data_of(f.normal, f.normal_length);
    while (place.epoch < f.reply.counts.epochs) {
        at = test_epoch(&f, &t, place, at);
        place = pistrovelle_next_epoch(&f.reply.head, &f.reply.counts, &t, place);
    }
    expect(at == f.normal_length && place.row == f.reply.counts.rows && place.slot == f.reply.counts.slots
        && place.carried == f.reply.counts.carried, "%s: the epochs end where the tables do", name);
    filed_free(&f);
}

/* One epoch with a change, and its number. */
static size_t alone(const pistrovelle_read_reply *reply, pistrovelle_tables t, pistrovelle_epoch epoch, size_t system, size_t length)
{
    uint8_t out[512];
    pistrovelle_lengths lengths;
    pistrovelle_write_reply written;
    memcpy(lengths.of, reply->head.lengths, sizeof lengths.of);
    if (system < 7)
        lengths.of[system] = length;
    memset(out, 0xEE, sizeof out);
    written = pistrovelle_write_epoch(lengths, epoch, t.codes, t.room.codes, t.satellites, t.room.rows, t.numbers, t.room.slots, t.states,
        t.room.slots, t.losses, t.room.slots, t.strengths, t.room.slots, t.carried, t.room.carried, out, sizeof out, 100);
    expect(written.line == 0 && out[99] == 0xEE && out[100 + written.count] == 0xEE && (written.count > 0) == (out[100] != 0xEE),
        "one epoch: the frame");
    return written.number;
}

/* The tables of the fit text, whose memory begins with the times. */
static pistrovelle_tables read_fit(pistrovelle_read_reply *reply)
{
    pistrovelle_room room = pistrovelle_room_for(fit_text, sizeof fit_text - 1);
    pistrovelle_tables t = pistrovelle_lay(test_memory(pistrovelle_bytes(room)), room);
    *reply = pistrovelle_read_into(fit_text, sizeof fit_text - 1, &t);
    return t;
}

static void test_epoch_unspelled(void)
{
    pistrovelle_read_reply reply;
    pistrovelle_tables t = read_fit(&reply);
    pistrovelle_place place = pistrovelle_first_epoch(&reply.head, &reply.counts, &t);
    pistrovelle_epoch fit = pistrovelle_epoch_at(&t, place), e;
    pistrovelle_tables less;
    expect(alone(&reply, t, fit, 7, 0) == 0, "a fit epoch");
    expect(alone(&reply, t, fit, 0, 1) == 0, "a shorter list, whose slots come one after the other");
    expect(alone(&reply, t, fit, 1, 0) == 20, "a row without a list");
    expect(alone(&reply, t, fit, 0, 65) == 20, "65 codes");
    expect(alone(&reply, t, fit, 6, 1) == 20, "a list past the codes");
    e = fit, e.flag = 6;
    expect(alone(&reply, t, e, 7, 0) == 20, "flag 6");
    e = fit, e.time_state = 0;
    expect(alone(&reply, t, e, 7, 0) == 20, "no time, and a number beside it");
    e = fit, e.tally = 3;
    expect(alone(&reply, t, e, 7, 0) == 20, "a row too many");
    e = fit, e.tally = 0;
    expect(alone(&reply, t, e, 7, 0) == 0, "no rows");
    e = fit, e.clock = INT64_C(100000000000000);
    expect(alone(&reply, t, e, 7, 0) == 20, "a clock out of range");
    e = fit, e.clock = 0;
    expect(alone(&reply, t, e, 7, 0) == 0, "a clock of 0 that is given");
    e = fit, e.flag = 4, e.clock = 0, e.clock_state = 0, e.tally = 1;
    expect(alone(&reply, t, e, 7, 0) == 0, "an event with the header's line");
    e.tally = 3;
    expect(alone(&reply, t, e, 7, 0) == 20, "an event with a line too many");
    e.flag = 3, e.tally = 1;
    expect(alone(&reply, t, e, 7, 0) == 20, "flag 3 without MARKER NAME");
    less = t, less.room.rows = 1;
    expect(alone(&reply, less, fit, 7, 0) == 20, "too few rows lent");
    less = t, less.room.slots = 2;
    expect(alone(&reply, less, fit, 7, 0) == 20, "too few slots lent");
    t.numbers[0] = 0;
    expect(alone(&reply, t, fit, 7, 0) == 20, "a value of 0 that is given");
    free(t.times);
}

/* Codes of the lists, also where no row is of their system. */
static void test_epoch_codes(void)
{
    pistrovelle_read_reply reply;
    pistrovelle_tables t = read_fit(&reply);
    pistrovelle_epoch fit = pistrovelle_epoch_at(&t, pistrovelle_first_epoch(&reply.head, &reply.counts, &t)), without_rows = fit;
    without_rows.tally = 0;
    t.codes[PISTROVELLE_LIST] = pistrovelle_code("C5X");
    expect(alone(&reply, t, fit, 7, 0) == 20, "a code of GPS in GLONASS's list");
    expect(alone(&reply, t, without_rows, 7, 0) == 20, "the same, where no row is of GLONASS");
    t.codes[PISTROVELLE_LIST] = pistrovelle_code("C3X");
    expect(alone(&reply, t, fit, 7, 0) == 0, "a code of GLONASS there");
    t.codes[1] = pistrovelle_code("C9Q");
    expect(alone(&reply, t, fit, 7, 0) == 20, "a code that no table has");
    expect(alone(&reply, t, without_rows, 7, 0) == 20, "the same, where no row is of GPS");
    t.codes[1] = pistrovelle_code("L1");
    expect(alone(&reply, t, fit, 7, 0) == 0, "a blank attribute");
    free(t.times);
}

/* Tables that hold anything: the walk over them stays within the room, and each epoch is answered. */
static void test_any_epochs(void)
{
    pistrovelle_room room = {448, 5, 9, 20, 50};
    struct lent lent = lend(lengths_of(room), AT_END);
    pistrovelle_tables t = tables_of(&lent, room);
    pistrovelle_counts counts = {SIZE_MAX, SIZE_MAX, SIZE_MAX, SIZE_MAX};
    pistrovelle_head head;
    pistrovelle_place place;
    uint8_t out[64];
    memset(&head, 0xFF, sizeof head);
    place = pistrovelle_first_epoch(&head, &counts, &t);
    expect(place.carried <= room.carried, "any tables: the header's lines");
    while (place.epoch < 8) {
        t.flags[place.epoch % 5] = place.epoch % 2 == 0 ? 0 : 4;
        expect(is_write_refusal(pistrovelle_write_epoch_from(&head, &t, place, out, sizeof out, 0), 20), "any tables: epoch %zu", place.epoch);
        place = pistrovelle_next_epoch(&head, &counts, &t, place);
        expect(place.row <= room.rows && place.carried <= room.carried, "any tables: place %zu", place.epoch);
    }
    lent_free(&lent);
}

/* ---------------------------------------------------------------- slot questions */

/* Every kind, both ends of the range, a printed zero with each sign, which is blank too, the least numbers on both sides of it, a code
   with a blank attribute, and the same codes in another order in another system. Rows: 0 G05, 1 R12, 2 G07, then after an event 3 R12;
   E is declared and has no row. */
static const char slot_text[] = VERSION
    "E    1 C1C                                                  SYS / # / OBS TYPES\n"
    "G    6 C1C L1C D1C S1C C2  C5Q                              SYS / # / OBS TYPES\n"
    "R    2 L1C C1C                                              SYS / # / OBS TYPES\n" FIRST END
    AT_30("0", "  3")
    "G05" "9999999999.999  " "-999999999.99917" "        -0.000  " "        45.125  " "  20000000.125  " "               8\n"
    "R12" "         -.500  " "              3\n"
    "G07" "         0.000  " "        -0.001  " "      -500.125  " "                " "         0.001\n"
    UNTIMED("4", "  1") COMMENT AT_31("0", "  1")
    "R12" "                " "         0.001\n";

struct slot_case {
    size_t row;
    const char *code;
    unsigned kind;
    int64_t number;
    double value;
};

static const struct slot_case slot_cases[] = {
    {0, "C1C", 1, INT64_C(9999999999999), 9999999999.999},
    {0, "L1C", 2, INT64_C(-999999999999), -999999999.999},
    {0, "D1C", 5, 0, 0.0},
    {0, "S1C", 4, 45125, 45.125},
    {0, "C2 ", 1, INT64_C(20000000125), 20000000.125},
    {0, "C2", 1, INT64_C(20000000125), 20000000.125},
    {0, "C5Q", 5, 0, 0.0},
    {0, "C2C", 6, 0, 0.0},
    {0, "c1c", 6, 0, 0.0},
    {0, "C9Q", 6, 0, 0.0},
    {0, "C9", 6, 0, 0.0},
    {0, "C2I", 6, 0, 0.0},
    {0, "C1", 6, 0, 0.0},
    {0, "", 6, 0, 0.0},
    {1, "L1C", 2, -500, -0.5},
    {1, "C1C", 5, 0, 0.0},
    {1, "D1C", 6, 0, 0.0},
    {2, "C1C", 5, 0, 0.0},
    {2, "L1C", 2, -1, -0.001},
    {2, "D1C", 3, -500125, -500.125},
    {2, "S1C", 5, 0, 0.0},
    {2, "C2", 1, 1, 0.001},
    {2, "C5Q", 5, 0, 0.0},
    {3, "L1C", 5, 0, 0.0},
    {3, "C1C", 1, 1, 0.001},
    {4, "C1C", 7, 0, 0.0},
    {4, "C2C", 7, 0, 0.0},
    {4, "C9Q", 7, 0, 0.0},
    {5, "C1C", 7, 0, 0.0},
    {SIZE_MAX, "C1C", 7, 0, 0.0},
};

/* The kinds of C1C by system: another system's rows are not declared, though their own lists have the code. */
static const struct {
    size_t system;
    uint8_t kinds[4];
} column_cases[] = {
    {0, {1, 6, 5, 6}}, {1, {6, 5, 6, 1}}, {2, {6, 6, 6, 6}}, {3, {6, 6, 6, 6}}, {6, {6, 6, 6, 6}}, {7, {6, 6, 6, 6}},
    {SIZE_MAX, {6, 6, 6, 6}},
};

static void test_slots_by_hand(enum side side)
{
    pistrovelle_room room = {2 * 64 + 1, 3, 4, 16, 68};
    struct lent l = lend(lengths_of(room), side);
    pistrovelle_read_reply reply = read_lent((const uint8_t *)slot_text, sizeof slot_text - 1, &l);
    size_t i;
    int b;
    expect(reply.number == 0 && reply.counts.rows == 4 && reply.counts.slots == 16, "slots: %zu at line %zu", reply.number, reply.line);
    for (b = 0; b < BUFFERS; b++)
        fence_remember(&l.buffer[b]);
    for (i = 0; i < sizeof slot_cases / sizeof *slot_cases; i++) {
        const struct slot_case *c = &slot_cases[i];
        pistrovelle_slot_reply slot = slot_lent(reply.head, reply.counts, &l, c->row, pistrovelle_code(c->code));
        expect(is_slot(slot, c->kind, c->number) && bits_of(slot.value) == bits_of(c->value), "slot %zu of '%s': %u, %.17g", c->row, c->code,
            slot.kind, slot.value);
    }
    for (i = 0; i < sizeof column_cases / sizeof *column_cases; i++) {
        struct column c = lend_column(4, 4, side);
        pistrovelle_column_reply column = column_lent(reply.head, reply.counts, &l, column_cases[i].system, 0x433143, &c);
        expect(column.number == 0 && column.count == 4 && memcmp(c.kinds.bytes, column_cases[i].kinds, 4) == 0,
            "the column of system %zu: %zu", column_cases[i].system, column.number);
        expect(column_kept_but(&c, 4), "the column of system %zu: what is around", column_cases[i].system);
        column_free(&c);
    }
    expect(all_kept(&l), "slot questions change no table");
    lent_free(&l);
}

/* What a slot holds, found once more from the tables. */
static pistrovelle_slot_reply slot_due(const pistrovelle_head *head, const struct lent *l, size_t row, uint32_t code)
{
    static const char first[] = " CLDS";
    const uint16_t *satellites = entries(l, SATELLITES);
    const uint32_t *codes = entries(l, CODES);
    const int64_t *numbers = entries(l, NUMBERS);
    const uint8_t *states = entries(l, STATES);
    pistrovelle_slot_reply due = {PISTROVELLE_NOT_DECLARED, 0.0};
    size_t i, place = 0, system = satellites[row] / 100u;
    for (i = 0; i < row; i++)
        place += head->lengths[satellites[i] / 100u];
    for (i = 0; i < head->lengths[system]; i++, place++) {
        if (codes[64 * system + i] != code)
            continue;
        due.kind = PISTROVELLE_BLANK;
        if (states[place] == 0)
            return due;
        due.kind = (uint8_t)(strchr(first, (int)(code >> 16)) - first);
        due.value = (double)numbers[place] / 1000.0;
    }
    return due;
}

static bool same_slot(pistrovelle_slot_reply a, pistrovelle_slot_reply b)
{
    return a.kind == b.kind && bits_of(a.value) == bits_of(b.value);
}

static pistrovelle_slot_reply slot_in(const struct column *c, size_t row)
{
    pistrovelle_slot_reply slot;
    slot.kind = c->kinds.bytes[row];
    memcpy(&slot.value, c->floats.bytes + row * sizeof slot.value, sizeof slot.value);
    return slot;
}

/* The column in exact room and in more; each row as it is due, and as pistrovelle_slot has it where the row is of the system. */
static void test_column(const struct filed *f, size_t system, uint32_t code, size_t more, enum side side)
{
    size_t row, rows = f->reply.counts.rows;
    const uint16_t *satellites = entries(&f->lent, SATELLITES);
    struct column c = lend_column(rows + more, rows + 2 * more, side);
    pistrovelle_column_reply reply = column_lent(f->reply.head, f->reply.counts, &f->lent, system, code, &c);
    expect(reply.number == 0 && reply.count == rows, "%s: column %zu, %x: %zu", f->file.name, system, code, reply.number);
    expect(column_kept_but(&c, rows), "%s: column %zu, %x: entries past the rows", f->file.name, system, code);
    for (row = 0; row < rows; row++) {
        pistrovelle_slot_reply none = {PISTROVELLE_NOT_DECLARED, 0.0};
        bool is_of = satellites[row] / 100u == system;
        pistrovelle_slot_reply due = is_of ? slot_due(&f->reply.head, &f->lent, row, code) : none;
        expect(same_slot(slot_in(&c, row), due), "%s: column %zu, %x, row %zu", f->file.name, system, code, row);
        if (is_of)
            expect(same_slot(slot_lent(f->reply.head, f->reply.counts, &f->lent, row, code), due), "%s: slot %zu, %x", f->file.name, row, code);
    }
    column_free(&c);
}

/* Room for one row less, of either buffer or both, and none at all. */
static void test_column_short(const struct filed *f, size_t kinds, size_t floats, enum side side)
{
    struct column c = lend_column(kinds, floats, side);
    pistrovelle_column_reply reply = column_lent(f->reply.head, f->reply.counts, &f->lent, 0, 0x433143, &c);
    expect(is_column_refusal(reply, 16) && column_kept_but(&c, 0), "%s: room for %zu and %zu of %zu: %zu", f->file.name, kinds, floats,
        f->reply.counts.rows, reply.number);
    column_free(&c);
}

static void test_slots(const char *name)
{
    struct filed f = read_example(name, AT_END);
    size_t system, i, rows = f.reply.counts.rows;
    int b;
    for (b = 0; b < BUFFERS; b++)
        fence_remember(&f.lent.buffer[b]);
    for (system = 0; system < 7; system++) {
        const uint32_t *codes = (const uint32_t *)entries(&f.lent, CODES) + 64 * system;
        for (i = 0; i < f.reply.head.lengths[system]; i++) {
            test_column(&f, system, codes[i], i, i % 2 == 0 ? AT_END : AT_START);
            test_column(&f, (system + 1) % 8, codes[i], 0, AT_END);
        }
    }
    test_column(&f, 0, pistrovelle_code("D9Z"), 0, AT_END);
    test_column(&f, 0, 0, 3, AT_START);
    test_column(&f, 0, UINT32_MAX, 0, AT_END);
    test_column(&f, SIZE_MAX, 0x433143, 0, AT_END);
    if (rows > 0) {
        test_column_short(&f, rows - 1, rows, AT_END);
        test_column_short(&f, rows, rows - 1, AT_END);
        test_column_short(&f, rows - 1, rows - 1, AT_START);
        test_column_short(&f, 0, 0, AT_START);
        test_column_short(&f, 0, 0, AT_END);
        test_column_short(&f, 0, rows + 9, AT_START);
        test_column_short(&f, rows + 9, 0, AT_START);
    }
    expect(is_slot(slot_lent(f.reply.head, f.reply.counts, &f.lent, rows, 0x433143), 7, 0), "%s: one row past the last", name);
    expect(all_kept(&f.lent), "%s: slot questions change no table", name);
    filed_free(&f);
}

/* The helpers over pistrovelle_tables ask the same. */
static void test_slot_helpers(void)
{
    struct filed f = read_example("worked.rnx", AT_END);
    pistrovelle_tables t = tables_of(&f.lent, exact_room(&f.reply));
    uint8_t kinds[3] = {77, 77, 77};
    double floats[3] = {7.5, 7.5, 7.5};
    pistrovelle_column_reply reply =
        pistrovelle_column_from(&f.reply.head, &f.reply.counts, &t, 0, pistrovelle_code("L1C"), kinds, floats, 1);
    expect(is_column_refusal(reply, 16) && kinds[0] == 77 && floats[0] == 7.5, "a column by the helper, one short");
    reply = pistrovelle_column_from(&f.reply.head, &f.reply.counts, &t, 0, pistrovelle_code("L1C"), kinds, floats, 2);
    expect(reply.number == 0 && reply.count == 2 && kinds[0] == 2 && kinds[1] == 6 && kinds[2] == 77, "a column by the helper: kinds");
    expect(floats[0] == -0.5 && bits_of(floats[1]) == 0 && floats[2] == 7.5, "a column by the helper: values");
    expect(is_slot(pistrovelle_slot_from(&f.reply.head, &f.reply.counts, &t, 0, pistrovelle_code("C1C")), 1, INT64_C(20000000125)),
        "a slot by the helper");
    expect(is_slot(pistrovelle_slot_from(&f.reply.head, &f.reply.counts, &t, 1, pistrovelle_code("C1C")), 5, 0), "a blank by the helper");
    expect(is_slot(pistrovelle_slot_from(&f.reply.head, &f.reply.counts, &t, 2, pistrovelle_code("C1C")), 7, 0), "no row by the helper");
    filed_free(&f);
}

static void test_kind_words(void)
{
    size_t n, has = 0;
    for (n = 0; n < 300; n++)
        has += pistrovelle_kind_words(n) != NULL;
    expect(has == 8 && pistrovelle_kind_words(0) == NULL, "8 kinds have words");
    expect(strcmp(pistrovelle_kind_words(PISTROVELLE_METRES), "metres") == 0, "words of kind 1");
    expect(strcmp(pistrovelle_kind_words(PISTROVELLE_NO_ROW), "no such row") == 0, "words of kind 7");
    expect(strcmp(pistrovelle_kind_words(20), pistrovelle_words(20)) == 0, "words of kind 20");
    expect(pistrovelle_code("C1C") == 0x433143 && pistrovelle_code("C1") == 0x433120 && pistrovelle_code("C1 ") == 0x433120, "codes");
    expect(pistrovelle_code("") == 0 && pistrovelle_code("C") == 0 && pistrovelle_code("C1CC") == 0, "what is no code");
    expect(pistrovelle_code("\xFF\xFE\xFD") == 0xFFFEFD, "letters are bytes");
}

static void test_all_slots(void)
{
    size_t i;
    test_slots_by_hand(AT_END);
    test_slots_by_hand(AT_START);
    for (i = 0; i < ACCEPTED_EXAMPLES; i++)
        test_slots(examples[i].name);
    test_slot_helpers();
    test_kind_words();
}

/* ---------------------------------------------------------------- the helpers */

static void test_words(void)
{
    size_t n, has = 0;
    for (n = 0; n < 300; n++)
        has += pistrovelle_words(n) != NULL;
    expect(has == 19, "19 numbers have words");
    for (n = 1; n <= 17; n++)
        expect(pistrovelle_words(n) != NULL && strlen(pistrovelle_words(n)) > 20, "words of %zu", n);
    expect(pistrovelle_words(20) != NULL && pistrovelle_words(21) != NULL && pistrovelle_words(0) == NULL, "words of 20, 21 and 0");
    expect(strcmp(pistrovelle_words(11), "the row's system has no list in the header") == 0, "words of 11");
}

static void test_lay(void)
{
    pistrovelle_room room = {448, 3, 5, 7, 11};
    size_t size = pistrovelle_bytes(room);
    uint8_t *memory = test_memory(size);
    pistrovelle_tables t = pistrovelle_lay(memory, room);
    expect(t.carried + room.carried == memory + size, "the buffers fill the memory");
    expect((uintptr_t)t.codes % 4 == 0 && (uintptr_t)t.tallies % 2 == 0 && (uintptr_t)t.satellites % 2 == 0
        && (uintptr_t)t.clocks % 8 == 0 && (uintptr_t)t.numbers % 8 == 0, "the buffers are aligned");
    expect(pistrovelle_system('G') == 0 && pistrovelle_system('S') == 6 && pistrovelle_system('M') == 7 && pistrovelle_system(0) == 7,
        "systems");
    free(memory);
}

/* The answer with the room that is counted for a text is the answer with ample room, in exact memory. */
static void test_counted_room(const uint8_t *text, size_t length, const char *name)
{
    struct lent lent = lend(lengths_of(ample), AT_END);
    pistrovelle_read_reply with_ample = read_lent(text, length, &lent);
    pistrovelle_room room = pistrovelle_room_for(text, length);
    pistrovelle_tables t = pistrovelle_lay(test_memory(pistrovelle_bytes(room)), room);
    pistrovelle_read_reply reply = pistrovelle_read_into(text, length, &t);
    expect(same_reply(&reply, &with_ample), "%s: counted room gives %zu at line %zu", name, reply.number, reply.line);
    free(t.times);
    lent_free(&lent);
}

static void test_counted_rooms(void)
{
    size_t i;
    for (i = 0; i < CASE_TEXTS; i++) {
        struct fenced text = fence_text(case_texts[i].text, case_length(&case_texts[i]), AT_END);
        test_counted_room(text.bytes, text.size, "a small text");
        fence_free(&text);
    }
    for (i = 0; i < EXAMPLES; i++) {
        struct file file = load(examples[i].name);
        test_counted_room(file.bytes, file.length, file.name);
        free(file.bytes);
    }
}

/* ---------------------------------------------------------------- a small stack */

/* The address sanitizer knows one stack only. */
#ifdef __SANITIZE_ADDRESS__
enum { CHANGES_STACKS = 0 };
#else
enum { CHANGES_STACKS = 1 };
#endif

static struct filed on_small_stack;
static size_t small_stack_bytes;
static uint8_t small_stack_kinds[64];
static double small_stack_floats[64];

static void each_call(void)
{
    struct filed *f = &on_small_stack;
    pistrovelle_tables t = tables_of(&f->lent, exact_room(&f->reply));
    pistrovelle_read_reply reply = pistrovelle_read_into(f->file.bytes, f->file.length, &t);
    pistrovelle_place place = pistrovelle_first_epoch(&reply.head, &reply.counts, &t);
    size_t whole = pistrovelle_write_from(&reply.head, &reply.counts, &t, f->normal, f->normal_length, 0).count;
    size_t epoch = pistrovelle_write_epoch_from(&reply.head, &t, place, f->normal, f->normal_length, 0).count;
    uint8_t kind = pistrovelle_slot_from(&reply.head, &reply.counts, &t, 0, 0x433143).kind;
    small_stack_bytes = whole + (epoch > 0) + (kind == PISTROVELLE_METRES) + pistrovelle_is_taken(0, 0x433143)
        + pistrovelle_column_from(&reply.head, &reply.counts, &t, 0, 0x433143, small_stack_kinds, small_stack_floats, 64).count;
}

/* Each call on a stack of 64 KiB that ends at a forbidden page. */
static void test_small_stack(void)
{
    struct fenced stack = fence(65536, AT_START);
    ucontext_t here, there;
    on_small_stack = read_example("day.rnx", AT_END);
    getcontext(&there);
    there.uc_stack.ss_sp = stack.bytes;
    there.uc_stack.ss_size = stack.size;
    there.uc_link = &here;
    makecontext(&there, each_call, 0);
    swapcontext(&here, &there);
    expect(small_stack_bytes == on_small_stack.normal_length + 3 + on_small_stack.reply.counts.rows, "calls on a small stack");
    filed_free(&on_small_stack);
    fence_free(&stack);
}

/* ---------------------------------------------------------------- damage by chance */

static uint64_t chance = 88172645463325252u;

static size_t below(size_t bound)
{
    chance ^= chance << 13;
    chance ^= chance >> 7;
    chance ^= chance << 17;
    return (size_t)(chance % bound);
}

/* A few bytes replaced, most of them by bytes that stand in such files; or a part taken out, or doubled. */
static size_t damage(uint8_t *text, size_t length, size_t room)
{
    static const char usual[] = "  0123456789.->GREJCIS\nCLDSX";
    size_t edits = 1 + below(3);
    for (; edits > 0 && length > 200; edits--) {
        size_t at = below(length - 100), size = 1 + below(90);
        if (below(4) > 0) {
            text[at] = (uint8_t)usual[below(sizeof usual - 1)];
        } else if (below(2) == 0) {
            memmove(text + at, text + at + size, length - at - size);
            length -= size;
        } else if (length + size <= room) {
            memmove(text + at + size, text + at, length - at);
            length += size;
        }
    }
    return length;
}

/* What was accepted is written and read again, to the same reply. */
static void test_again(const pistrovelle_read_reply *reply, const pistrovelle_tables *t, size_t length)
{
    uint8_t *out = test_memory(length);
    pistrovelle_write_reply written = pistrovelle_write_from(&reply->head, &reply->counts, t, out, length, 0);
    pistrovelle_tables again = pistrovelle_lay(test_memory(pistrovelle_bytes(t->room)), t->room);
    pistrovelle_read_reply second = pistrovelle_read_into(out, written.count, &again);
    expect(written.number == 0 && same_reply(reply, &second), "by chance: %zu, then %zu at line %zu", written.number, second.number,
        second.line);
    free(out);
    free(again.times);
}

static void test_damaged(const char *name, size_t rounds)
{
    struct file file = load(name);
    uint8_t *text = test_memory(2 * file.length);
    struct lent lent = lend(lengths_of(ample), AT_END);
    size_t accepted = 0;
    for (; rounds > 0; rounds--) {
        size_t length = damage(memcpy(text, file.bytes, file.length), file.length, 2 * file.length);
        pistrovelle_room room = pistrovelle_room_for(text, length);
        pistrovelle_tables t = pistrovelle_lay(test_memory(pistrovelle_bytes(room)), room);
        pistrovelle_read_reply reply = pistrovelle_read_into(text, length, &t);
        pistrovelle_read_reply with_ample = read_lent(text, length, &lent);
        int i;
        expect(same_reply(&reply, &with_ample), "by chance: %zu at line %zu, and %zu at line %zu", reply.number, reply.line,
            with_ample.number, with_ample.line);
        expect(reply.number == 0 ? rest_kept(&lent, &reply) : all_kept(&lent), "by chance: entries change");
        if (reply.number == 0) {
            accepted++;
            test_again(&reply, &t, length);
            for (i = 0; i < BUFFERS; i++)
                memcpy(lent.buffer[i].inner, lent.buffer[i].before, lent.buffer[i].inner_size);
        }
        free(t.times);
    }
    expect(accepted > 0, "by chance: none of %s is accepted", name);
    lent_free(&lent);
    free(text);
    free(file.bytes);
}

/* ---------------------------------------------------------------- all of them */

static void test_reading(void)
{
    size_t i;
    test_worked(AT_END);
    test_worked(AT_START);
    test_worked_short();
    test_cases();
    test_no_room();
    test_too_long();
    test_cuts(AT_END);
    test_cuts(AT_START);
    test_other_bytes();
    test_nothing_lent();
    for (i = 0; i < EXAMPLES; i++)
        test_example(&examples[i]);
}

static void test_all_writing(void)
{
    size_t i;
    test_normal_by_hand();
    for (i = 0; i < ACCEPTED_EXAMPLES; i++) {
        test_writing(examples[i].name);
        test_epochs(examples[i].name);
    }
    test_marrings();
    test_short_tables();
    test_epoch_unspelled();
    test_epoch_codes();
    test_any_epochs();
}

int main(int count, char **words)
{
    if (count != 2) {
        fprintf(stderr, "which folder of examples?\n");
        return 2;
    }
    folder = words[1];
    test_reading();
    test_all_writing();
    test_all_slots();
    test_words();
    test_lay();
    test_counted_rooms();
    if (CHANGES_STACKS)
        test_small_stack();
    test_damaged("day.rnx", 600);
    test_damaged("a4-example-1.rnx", 600);
    return told_counts();
}
