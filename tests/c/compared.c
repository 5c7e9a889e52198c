/*
 * Compares the archive with the independent implementation. Standard input is a stream of records (tests/reference/src/compared/stream.rs): texts,
 * tables and questions, each with everything that is due, and rooms to read a text in, whose answers are held to each other. Every difference is
 * told; status 1 if there was one, 2 for a stream that is broken, 3 where a call touched forbidden memory.
 *
 *   compared         compare, then tell how often each call came to which number
 *   compared -p      and tell the progress on standard error
 *   compared -e      tell every difference, and after each record how many it had
 *   compared -a      answer each record with one byte, '.' if all was as due, '!' if not, and tell the rest on standard error
 */
#include <signal.h>

#include "answers.h"

/* The text that is loaded, or a long run of zeros. */
static const uint8_t *loaded;
static size_t loaded_length;
static bool loaded_zeros;

/* The normal text that is due. */
static const uint8_t *normal;
static size_t normal_length;

static size_t records;

/* ---------------------------------------------------------------- reading */

/* T: a text. */
static void take_text(struct record *r)
{
    loaded_length = take_number(r);
    loaded = take_bytes(r, loaded_length);
    loaded_zeros = false;
}

/* Z: a text of so many zeros, which takes no memory. */
static void take_zeros(struct record *r)
{
    static const uint8_t *zeros;
    static size_t mapped;
    loaded_length = take_number(r);
    if (loaded_length > mapped) {
        zeros = mmap(NULL, loaded_length, PROT_READ, MAP_PRIVATE | MAP_ANONYMOUS | MAP_NORESERVE, -1, 0);
        if (zeros == MAP_FAILED)
            give_up("a long text");
        mapped = loaded_length;
    }
    loaded = zeros;
    loaded_zeros = true;
}

static void take_head(struct record *r, pistrovelle_head *head)
{
    size_t i;
    memset(head, 0, sizeof *head);
    head->letter = (uint8_t)take_number(r);
    for (i = 0; i < 7; i++)
        head->lengths[i] = take_number(r);
    head->first = take_number(r);
    head->time_system = take_number(r);
    head->interval_state = (uint8_t)take_number(r);
    head->interval = take_number(r);
    head->lines = take_number(r);
}

static void take_counts(struct record *r, pistrovelle_counts *counts)
{
    counts->epochs = take_number(r);
    counts->rows = take_number(r);
    counts->slots = take_number(r);
    counts->carried = take_number(r);
}

static void take_reply(struct record *r, pistrovelle_read_reply *reply)
{
    memset(reply, 0, sizeof *reply);
    reply->number = take_number(r);
    reply->line = take_number(r);
    take_head(r, &reply->head);
    take_counts(r, &reply->counts);
}

/* The text as it is lent: so many bytes of the one that is loaded, at a forbidden page. */
static const uint8_t *lend_text(size_t length, bool at_start)
{
    if (length > loaded_length)
        stream_broken("more text than is loaded");
    return loaded_zeros ? loaded : lend_bytes(loaded, length, at_start);
}

/* The last lent memory of a reading. */
static size_t last_lent(void)
{
    return loaded_zeros ? BUFFERS - 1 : TEXT;
}

/* R: reading, and every entry afterwards. */
static void take_read(struct record *r)
{
    pistrovelle_read_reply due, came;
    size_t length = take_number(r);
    const uint8_t *text;
    size_t i;
    compared_call = "read";
    take_lengths(r);
    text = lend_text(length, lent[0].at_start);
    take_reply(r, &due);
    if (take_number(r) == 1) {
        for (i = 0; i < PISTROVELLE_SYSTEMS; i++)
            take_due_entries(r, CODES, PISTROVELLE_LIST * i);
        for (i = TIMES; i < BUFFERS; i++)
            take_due_entries(r, i, 0);
    }
    came = call_read(text, length);
    answered = 0;
    keep_answer(&came);
    due_reply(&due, &came);
    due_lent(CODES, last_lent());
    tally_number(READ, came.number);
    lent_head = came.head;
    lent_counts = came.counts;
}

/* A change of a reply, by bits: 0, but where a complaint is to be tried. */
static void take_change(struct record *r, pistrovelle_read_reply *reply)
{
    pistrovelle_read_reply change;
    size_t i;
    take_reply(r, &change);
    for (i = 0; i < sizeof change; i++)
        ((uint8_t *)reply)[i] ^= ((const uint8_t *)&change)[i];
}

/* M: reading in another room than R before it. The answers in rooms that are nowhere longer stand last, by their places among those since R;
   where this is one entry less than R's, none does, and then the line of 16. */
static void take_more(struct record *r)
{
    pistrovelle_read_reply came;
    size_t firsts, place;
    compared_call = "more room";
    take_lengths(r);
    came = call_read(lend_text(loaded_length, lent[0].at_start), loaded_length);
    take_change(r, &came);
    firsts = take_number(r);
    if (firsts == 0) {
        compared_call = "more room: one less";
        due_no_room(take_number(r), &came);
    }
    for (; firsts > 0; firsts--) {
        place = take_number(r);
        if (place >= answered)
            stream_broken("an answer that is not kept");
        due_more_room(&answers[place], &came);
    }
    keep_answer(&came);
    due_lent(CODES, last_lent());
}

/* L: tables as they are, every entry of them. */
static void take_tables(struct record *r)
{
    size_t i;
    take_lengths(r);
    take_head(r, &lent_head);
    take_counts(r, &lent_counts);
    for (i = 0; i < BUFFERS; i++) {
        take_due_entries(r, i, 0);
        region_settle(&lent[i]);
    }
}

/* ---------------------------------------------------------------- writing */

/* N: the normal text that writing must give. */
static void take_normal(struct record *r)
{
    normal_length = take_number(r);
    normal = take_bytes(r, normal_length);
}

/* What is due of a call that writes. */
struct written {
    size_t at;
    pistrovelle_write_reply reply;
};

/* Lends the buffer, and puts the bytes that are due into what is due of it. A change of the first one stands last: 0, but where a
   complaint is to be tried. */
static struct written take_written(struct record *r)
{
    struct written w;
    struct place place = take_place(r);
    size_t count, from;
    lend_entries(OUT, take_number(r), place);
    w.at = take_number(r);
    w.reply.number = take_number(r);
    w.reply.line = take_number(r);
    w.reply.count = take_number(r);
    count = take_number(r);
    from = take_number(r);
    if (count == 0)
        return w;
    if (w.at > lent[OUT].map.size || count > lent[OUT].map.size - w.at || from > normal_length || count > normal_length - from)
        stream_broken("more bytes are due than there is room for");
    memcpy(region_due(&lent[OUT]) + w.at, normal + from, count);
    region_due(&lent[OUT])[w.at] ^= (uint8_t)take_number(r);
    return w;
}

static void due_write(const pistrovelle_write_reply *due, const pistrovelle_write_reply *came)
{
    due_number("number", due->number, came->number);
    due_number("line", due->line, came->line);
    due_number("count", due->count, came->count);
    due_lent(CODES, BUFFERS - 1);
    due_region(&lent[OUT]);
}

/* W: writing whole tables. */
static void take_write(struct record *r)
{
    struct written w = take_written(r);
    pistrovelle_write_reply came;
    compared_call = "write";
    came = call_write(w.at);
    due_write(&w.reply, &came);
    tally_number(WRITE, came.number);
}

static pistrovelle_epoch take_entry(struct record *r)
{
    pistrovelle_epoch epoch;
    epoch.time_state = (uint8_t)take_number(r);
    epoch.time = take_number(r);
    epoch.flag = (uint8_t)take_number(r);
    epoch.tally = (uint16_t)take_number(r);
    epoch.clock_state = (uint8_t)take_number(r);
    epoch.clock = take_signed(r);
    return epoch;
}

static struct parts take_parts(struct record *r)
{
    struct parts p;
    size_t i;
    p.row = take_number(r);
    p.rows = take_number(r);
    p.slot = take_number(r);
    for (i = 0; i < 4; i++)
        p.slots[i] = take_number(r);
    p.carried_at = take_number(r);
    p.carried = take_number(r);
    return p;
}

/* E: writing one epoch alone. */
static void take_epoch(struct record *r)
{
    pistrovelle_epoch epoch = take_entry(r);
    struct parts parts = take_parts(r);
    struct written w = take_written(r);
    pistrovelle_write_reply came;
    compared_call = "epoch";
    came = call_write_epoch(epoch, &parts, w.at);
    due_write(&w.reply, &came);
    tally_number(EPOCH, came.number);
}

/* ---------------------------------------------------------------- questions */

/* S: one slot. */
static void take_slot(struct record *r)
{
    size_t row = take_number(r);
    uint32_t code = (uint32_t)take_number(r);
    pistrovelle_slot_reply came;
    compared_call = "slot";
    came = call_slot(row, code);
    due_number("kind", take_number(r), came.kind);
    due_bits("value", take_number(r), came.value);
    due_lent(CODES, BUFFERS - 1);
    tally_number(SLOT, came.kind);
}

/* C: a code for all rows. */
static void take_column(struct record *r)
{
    size_t system = take_number(r);
    uint32_t code = (uint32_t)take_number(r);
    struct place place = take_place(r);
    pistrovelle_column_reply due, came;
    size_t count, i;
    compared_call = "column";
    lend_entries(KINDS, take_number(r), place);
    lend_entries(FLOATS, take_number(r), place);
    due.number = take_number(r);
    due.count = take_number(r);
    count = take_number(r);
    if (count > region_length(&lent[KINDS]) || count > region_length(&lent[FLOATS]))
        stream_broken("more answers are due than there is room for");
    memcpy(region_due(&lent[KINDS]), take_bytes(r, count), count);
    for (i = 0; i < count; i++) {
        uint64_t bits = take_number(r);
        memcpy(region_due(&lent[FLOATS]) + 8 * i, &bits, sizeof bits);
    }
    came = call_column(system, code);
    due_number("number", due.number, came.number);
    due_number("count", due.count, came.count);
    due_lent(CODES, BUFFERS - 1);
    due_region(&lent[KINDS]);
    due_region(&lent[FLOATS]);
    tally_number(COLUMN, came.number);
}

/* ---------------------------------------------------------------- the stream */

static void take_operation(struct record *r)
{
    switch (take_byte(r)) {
    case 'T': take_text(r); break;
    case 'Z': take_zeros(r); break;
    case 'R': take_read(r); break;
    case 'M': take_more(r); break;
    case 'L': take_tables(r); break;
    case 'N': take_normal(r); break;
    case 'W': take_write(r); break;
    case 'E': take_epoch(r); break;
    case 'S': take_slot(r); break;
    case 'C': take_column(r); break;
    case 'X': take_stray(r); break;
    default: stream_broken("an operation");
    }
}

static void take_record(struct record *r)
{
    compared_seed = take_number(r);
    while (record_more(r))
        take_operation(r);
    records++;
}

/* What is told after each record. */
static void after_record(char option, size_t before)
{
    if (option == 'p' && records % 10000 == 0)
        fprintf(stderr, "%zu texts, %zu comparisons, %zu differences\n", records, comparisons, differences);
    if (option == 'e')
        printf("seed %" PRIu64 ": %zu differences\n", compared_seed, differences - before);
    if (option == 'a') {
        fputc(differences == before ? '.' : '!', stdout);
        fflush(stdout);
    }
}

static void tell_all(FILE *to)
{
    tally_tell(to);
    fprintf(to, "%zu records, %zu texts read, %zu comparisons, %zu differences\n", records, tally_of(READ), comparisons, differences);
}

/* A forbidden page was touched, which ends the comparison. */
static void forbidden(int number)
{
    (void)number;
    printf("seed %" PRIu64 ": %s: forbidden memory\n", compared_seed, compared_call);
    fflush(stdout);
    _exit(3);
}

int main(int words, char **word)
{
    char option = words > 1 && word[1][0] == '-' ? word[1][1] : 0;
    struct record r = {NULL, 0, 0, 0};
    signal(SIGSEGV, forbidden);
    signal(SIGBUS, forbidden);
    if (option == 'e')
        most_told = SIZE_MAX;
    while (record_next(&r)) {
        size_t before = differences;
        take_record(&r);
        after_record(option, before);
    }
    due_far();
    tell_all(option == 'a' ? stderr : stdout);
    return differences > 0;
}
