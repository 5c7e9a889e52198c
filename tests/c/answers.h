/* Answers of reading: compared with what is due, kept with the room they came in, and held to each other: more room must not change them. */
#ifndef ANSWERS_H
#define ANSWERS_H

#include "calls.h"
#include "tally.h"

static inline void due_reply(const pistrovelle_read_reply *due, const pistrovelle_read_reply *came)
{
    size_t i;
    due_number("number", due->number, came->number);
    due_number("line", due->line, came->line);
    due_number("letter", due->head.letter, came->head.letter);
    for (i = 0; i < PISTROVELLE_SYSTEMS; i++)
        due_number("lengths", due->head.lengths[i], came->head.lengths[i]);
    due_number("first", due->head.first, came->head.first);
    due_number("time system", due->head.time_system, came->head.time_system);
    due_number("interval state", due->head.interval_state, came->head.interval_state);
    due_number("interval", due->head.interval, came->head.interval);
    due_number("lines", due->head.lines, came->head.lines);
    due_number("epochs", due->counts.epochs, came->counts.epochs);
    due_number("rows", due->counts.rows, came->counts.rows);
    due_number("slots", due->counts.slots, came->counts.slots);
    due_number("carried bytes", due->counts.carried, came->counts.carried);
}

/* ---------------------------------------------------------------- what is in use */

/* Entries in use: so many bytes of a buffer, from one on. */
struct use {
    size_t region, from, size;
};

/* A list of codes for each system, and the other twelve buffers. */
enum { USES = PISTROVELLE_SYSTEMS + BUFFERS - 1 };

static inline size_t count_of(const pistrovelle_counts *counts, size_t region)
{
    if (region < SATELLITES)
        return counts->epochs;
    if (region == SATELLITES)
        return counts->rows;
    return region < CARRIED ? counts->slots : counts->carried;
}

/* ---------------------------------------------------------------- answers that are kept */

/* A reply, the lengths that were lent, and a copy of the entries in use, one behind the other. */
struct answer {
    pistrovelle_read_reply reply;
    size_t lengths[BUFFERS];
    uint8_t *entries;
    size_t room;
};

/* In exact room, in one less of each table, in exact room again, in one more of each, and in more of all. */
enum { TABLES = 5, MOST_ANSWERS = 3 + 2 * TABLES };

static struct answer answers[MOST_ANSWERS];
static size_t answered;

/* Nothing where less was lent than the reply says, which is complained of elsewhere. */
static inline struct use use_of(const struct answer *answer, size_t number)
{
    bool is_list = number < PISTROVELLE_SYSTEMS;
    size_t region = is_list ? CODES : number - PISTROVELLE_SYSTEMS + TIMES;
    size_t from = is_list ? PISTROVELLE_LIST * number : 0;
    size_t count = is_list ? answer->reply.head.lengths[number] : count_of(&answer->reply.counts, region);
    size_t length = answer->lengths[region], entry = lent[region].entry;
    struct use use = {region, from * entry, count * entry};
    if (from > length || count > length - from)
        use.from = use.size = 0;
    return use;
}

static inline void answer_room(struct answer *answer)
{
    size_t i, size = 0;
    for (i = 0; i < USES; i++)
        size += use_of(answer, i).size;
    if (answer->entries != NULL && size <= answer->room)
        return;
    free(answer->entries);
    answer->room = 2 * size;
    answer->entries = test_memory(answer->room);
}

/* Keeps the answer of the last reading. */
static inline void keep_answer(const pistrovelle_read_reply *reply)
{
    struct answer *answer = &answers[answered];
    size_t done = 0, i;
    if (answered == MOST_ANSWERS)
        stream_broken("more answers than are kept");
    answered++;
    answer->reply = *reply;
    for (i = 0; i < BUFFERS; i++)
        answer->lengths[i] = region_length(&lent[i]);
    answer_room(answer);
    for (i = 0; i < USES; i++) {
        struct use use = use_of(answer, i);
        memcpy(answer->entries + done, lent[use.region].map.bytes + use.from, use.size);
        done += use.size;
    }
}

/* Puts the entries in use of an answer into what is due of the buffers that are lent now, none of them shorter. */
static inline void due_in_use(const struct answer *answer)
{
    size_t done = 0, i;
    for (i = 0; i < USES; i++) {
        struct use use = use_of(answer, i);
        memcpy(region_due(&lent[use.region]) + use.from, answer->entries + done, use.size);
        done += use.size;
    }
}

/* ---------------------------------------------------------------- more room */

static inline void see_nowhere_shorter(const struct answer *first)
{
    size_t i;
    for (i = 0; i < BUFFERS; i++) {
        if (region_length(&lent[i]) < first->lengths[i])
            stream_broken("a second room that is shorter");
    }
}

/* The buffer that is lent now with one entry less than in the first answer's room. */
static inline size_t shortened(void)
{
    size_t i = 0;
    while (i < BUFFERS && region_length(&lent[i]) + 1 != answers[0].lengths[i])
        i++;
    if (answered == 0 || i == BUFFERS)
        stream_broken("a room that is not shorter");
    return i;
}

/* More room must not change the verdict, nor what is in use. The second answer is the one whose buffers are lent now; what is due of them
   afterwards is put there, and not yet compared. */
static inline void due_more_room(const struct answer *first, const pistrovelle_read_reply *second)
{
    see_nowhere_shorter(first);
    tally_number(FIRST_ROOM, first->reply.number);
    if (first->reply.number != PISTROVELLE_NO_ROOM) {
        due_reply(&first->reply, second);
        due_in_use(first);
        return;
    }
    tally_number(SECOND_ROOM, second->number);
    if (second->number != PISTROVELLE_ACCEPTED)
        due_at_least("earlier line", first->reply.line, second->line);
}

/* One entry less than exact room: 16 at the line that needs more, and nothing else. */
static inline void due_no_room(size_t line, const pistrovelle_read_reply *came)
{
    pistrovelle_read_reply due;
    memset(&due, 0, sizeof due);
    due.number = PISTROVELLE_NO_ROOM;
    due.line = line;
    due_reply(&due, came);
    tally_number(SHORT_BUFFER, shortened());
}

#endif
