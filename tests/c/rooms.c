/*
 * More room must not change an answer: texts in the room that is exact for them, in one entry less of each of the thirteen buffers, in one
 * more, in much more and in none; then texts with a fault before, behind and in the line that lacks room. The last line is 'N passed, M
 * failed'.
 */
#include "answers.h"
#include "held.h"
#include "texts.h"

/* ---------------------------------------------------------------- rooms */

enum table { OF_CODES, OF_EPOCHS, OF_ROWS, OF_SLOTS, OF_CARRIED };

/* The table of each buffer. */
static const enum table table_of[BUFFERS] = {OF_CODES, OF_EPOCHS, OF_EPOCHS, OF_EPOCHS, OF_EPOCHS, OF_EPOCHS, OF_EPOCHS, OF_ROWS, OF_SLOTS,
    OF_SLOTS, OF_SLOTS, OF_SLOTS, OF_CARRIED};

/* The entries of each buffer. */
struct room {
    size_t lengths[BUFFERS];
};

/* Each buffer with the entries of its table, and so many more. */
static struct room room_of(const size_t *entries, size_t more)
{
    struct room room;
    size_t i;
    for (i = 0; i < BUFFERS; i++)
        room.lengths[i] = entries[table_of[i]] + more;
    return room;
}

/* Reads a text in a room; the pattern is another one each time. */
static pistrovelle_read_reply read_in(const struct room *room, const char *text, enum side side)
{
    static struct place place;
    const uint8_t *bytes;
    size_t i;
    place.at_start = side == AT_START;
    place.fill++;
    for (i = 0; i < BUFFERS; i++)
        lend_entries(i, room->lengths[i], place);
    bytes = lend_bytes(text, strlen(text), place.at_start);
    return call_read(bytes, strlen(text));
}

/* A refusal with this number at this line and nothing else, and no lent byte is changed. */
static void test_refusal(const struct room *room, const char *text, size_t number, size_t line, enum side side)
{
    pistrovelle_read_reply due, came = read_in(room, text, side);
    memset(&due, 0, sizeof due);
    due.number = number;
    due.line = line;
    compared_call = tried;
    due_reply(&due, &came);
    due_lent(CODES, TEXT);
}

/* ---------------------------------------------------------------- exact room, more, and less */

/* A text with its answer in enough room; the entries that this takes; the line that one entry less of a table is too few for, or 0 where it
   takes none; and the line that needs the first entry of all. */
struct worked {
    const char *name, *text;
    size_t number, line;
    size_t exact[TABLES], short_line[TABLES], first_line;
};

#define EXAMPLE H AT_30("0", "  2") ROW "R12\n"
#define WITH_EVENT VERSION COMMENT LIST_G LIST_R FIRST INTERVAL MARKER END AT_30("0", "  2") ROW "R12\n" AT_31("3", "  2") MARKER COMMENT

static const struct worked worked[] = {
    {"the example", EXAMPLE, 0, 0, {65, 1, 2, 3, 0}, {3, 6, 8, 8, 0}, 2},
    {"its header", H, 0, 0, {65, 0, 0, 0, 0}, {3, 0, 0, 0, 0}, 2},
    {"an unfit slot in line 8", H AT_30("0", "  2") ROW "R12        +1.000\n", 13, 8, {65, 1, 1, 2, 0}, {3, 6, 7, 7, 0}, 2},
    {"an unfit slot in line 7", H AT_30("0", "  2") "G05        +1.000\n" "R12\n", 13, 7, {65, 1, 0, 0, 0}, {3, 6, 0, 0, 0}, 2},
    {"no line 8", H AT_30("0", "  2") ROW, 14, 8, {65, 1, 1, 2, 0}, {3, 6, 7, 7, 0}, 2},
    {"an epoch that is not later", EXAMPLE AT_30("0", "  0"), 9, 9, {65, 1, 2, 3, 0}, {3, 6, 8, 8, 0}, 2},
    {"carried lines", WITH_EVENT, 0, 0, {65, 2, 2, 3, 280}, {4, 12, 11, 11, 14}, 2},
    {"an event that is cut off", WITH_EVENT AT_31("3", "  2") MARKER, 14, 17, {65, 3, 2, 3, 352}, {4, 15, 11, 11, 16}, 2},
    {"an event without a marker", H UNTIMED("3", "  2") COMMENT COMMENT, 15, 8, {65, 1, 0, 0, 68}, {3, 6, 0, 0, 7}, 2},
    {"a list of two lines", VERSION LIST_14 NEXT_14 FIRST END, 0, 0, {14, 0, 0, 0, 0}, {3, 0, 0, 0, 0}, 2},
    {"a list without its second line", VERSION LIST_14 FIRST, 5, 3, {13, 0, 0, 0, 0}, {2, 0, 0, 0, 0}, 2},
    {"a longer list last", VERSION LIST_R LIST_14 NEXT_14 FIRST END, 0, 0, {65, 0, 0, 0, 0}, {2, 0, 0, 0, 0}, 2},
    {"a list that comes again", VERSION FIRST LIST_G LIST_G, 5, 4, {2, 0, 0, 0, 0}, {3, 0, 0, 0, 0}, 3},
    {"an unfit list behind a comment", VERSION COMMENT ONE("G", "C9Q"), 6, 3, {0, 0, 0, 0, 68}, {0, 0, 0, 0, 2}, 2},
    {"a comment past column 80", VERSION B60 "COMMENT             x\n", 4, 2, {0, 0, 0, 0, 0}, {0, 0, 0, 0, 0}, 0},
    {"no text", "", 3, 1, {0, 0, 0, 0, 0}, {0, 0, 0, 0, 0}, 0},
    {"a byte that is none of a text", "\x7F\n", 1, 1, {0, 0, 0, 0, 0}, {0, 0, 0, 0, 0}, 0},
    {"another version", "     3.02           OBSERVATION DATA    M                   RINEX VERSION / TYPE\n" LIST_G, 3, 1, {0, 0, 0, 0, 0},
        {0, 0, 0, 0, 0}, 0},
    {"no label in line 2", VERSION "\n" LIST_G, 4, 2, {0, 0, 0, 0, 0}, {0, 0, 0, 0, 0}, 0},
    {"a list of no codes", VERSION "G    0                                                      SYS / # / OBS TYPES\n", 6, 2, {0, 0, 0, 0, 0},
        {0, 0, 0, 0, 0}, 0},
};

enum { MUCH = 1000 };

/* In exact room the answer is as the paper has it, and is the first that is kept. */
static void test_exact(const struct worked *w, enum side side)
{
    struct room room = room_of(w->exact, 0);
    pistrovelle_read_reply came = read_in(&room, w->text, side);
    const pistrovelle_counts *counts = &came.counts;
    snprintf(tried, sizeof tried, "%s in exact room", w->name);
    compared_call = tried;
    expect(came.number == w->number && came.line == w->line, "%s: %zu at line %zu", tried, came.number, came.line);
    expect(came.number > 0 || (counts->epochs == w->exact[OF_EPOCHS] && counts->rows == w->exact[OF_ROWS]
        && counts->slots == w->exact[OF_SLOTS] && counts->carried == w->exact[OF_CARRIED]), "%s: counts", tried);
    answered = 0;
    keep_answer(&came);
    due_in_use(&answers[0]);
    due_lent(CODES, TEXT);
}

/* The answer in a room that is nowhere shorter than those of the answers that are kept. */
static void test_more(const struct worked *w, const struct room *room, enum side side)
{
    pistrovelle_read_reply came = read_in(room, w->text, side);
    size_t i;
    compared_call = tried;
    for (i = 0; i < answered; i++)
        due_more_room(&answers[i], &came);
    due_lent(CODES, TEXT);
}

/* One entry less in one buffer, however long the others are; and then exact room again, behind that answer. */
static void test_one_less(const struct worked *w, size_t buffer, size_t others, enum side side)
{
    struct room exact = room_of(w->exact, others), room = exact;
    size_t line = w->short_line[table_of[buffer]];
    room.lengths[buffer] = w->exact[table_of[buffer]] - 1;
    snprintf(tried, sizeof tried, "%s in one less of %s, %zu more of the others", w->name, lent[buffer].name, others);
    test_refusal(&room, w->text, PISTROVELLE_NO_ROOM, line, side);
    answered = 1;
    keep_answer(&(pistrovelle_read_reply){.number = PISTROVELLE_NO_ROOM, .line = line});
    test_more(w, &exact, side);
    answered = 1;
}

static void test_buffer(const struct worked *w, size_t buffer, enum side side)
{
    struct room room = room_of(w->exact, 0);
    room.lengths[buffer]++;
    snprintf(tried, sizeof tried, "%s in one more of %s", w->name, lent[buffer].name);
    test_more(w, &room, side);
    if (w->exact[table_of[buffer]] > 0) {
        test_one_less(w, buffer, 0, side);
        test_one_less(w, buffer, MUCH, side);
    }
}

static void test_worked(const struct worked *w, enum side side)
{
    static const size_t nothing[TABLES];
    struct room none = room_of(nothing, 0), larger = room_of(w->exact, MUCH);
    size_t i;
    test_exact(w, side);
    for (i = 0; i < BUFFERS; i++)
        test_buffer(w, i, side);
    snprintf(tried, sizeof tried, "%s in much more of all", w->name);
    test_more(w, &larger, side);
    snprintf(tried, sizeof tried, "%s in no room", w->name);
    test_refusal(&none, w->text, w->first_line > 0 ? PISTROVELLE_NO_ROOM : w->number, w->first_line > 0 ? w->first_line : w->line, side);
}

/* ---------------------------------------------------------------- a fault, and too little room */

/* The example with a fault: its lines before the fault stand. */
static const struct case_text faults[] = {
    {3, 1, "     3.03           NAVIGATION DATA     M                   RINEX VERSION / TYPE\n" LIST_G, 0},
    {4, 2, VERSION B60 "COMMENTS\n", 0},
    {6, 2, VERSION ONE("G", "C9Q") LIST_R, 0},
    {14, 3, VERSION LIST_G, 0},
    {5, 3, VERSION LIST_G LIST_G, 0},
    {6, 3, VERSION LIST_G ONE("R", "C9Q"), 0},
    {6, 4, VERSION LIST_G LIST_R "  2024    12    31    23    59   60.0000000     GPS         TIME OF FIRST OBS\n", 0},
    {5, 4, VERSION LIST_G LIST_R END, 0},
    {6, 5, VERSION LIST_G LIST_R FIRST "                                                           xEND OF HEADER\n", 0},
    {7, 6, H AT_30("0", "   "), 0},
    {8, 6, H AT_30("6", "  2"), 0},
    {15, 6, H AT_30("3", "  0"), 0},
    {10, 7, H AT_30("0", "  2") "X05\n", 0},
    {11, 7, H AT_30("0", "  2") "E05\n", 0},
    {13, 7, H AT_30("0", "  2") "G05        +1.000\n", 0},
    {1, 8, H AT_30("0", "  2") ROW "R12", 0},
    {12, 8, H AT_30("0", "  2") ROW ROW, 0},
    {13, 8, H AT_30("0", "  2") ROW "R12        +1.000\n", 0},
    {14, 8, H AT_30("0", "  2") ROW, 0},
    {7, 9, EXAMPLE "R13\n", 0},
    {9, 9, EXAMPLE AT_30("1", "  1"), 0},
};

/* So many entries of a table, and the line of the example that needs more. */
struct lack {
    enum table table;
    size_t left, line;
};

static const struct lack lacks[] = {
    {OF_CODES, 64, 3}, {OF_CODES, 2, 3}, {OF_CODES, 1, 2}, {OF_CODES, 0, 2}, {OF_EPOCHS, 0, 6}, {OF_ROWS, 1, 8}, {OF_ROWS, 0, 7},
    {OF_SLOTS, 2, 8}, {OF_SLOTS, 1, 7}, {OF_SLOTS, 0, 7},
};

/* The earliest faulty line is told, and in it the lowest number: 16 only where the fault stands behind. */
static void test_fault(const struct case_text *fault, const struct lack *lack, size_t buffer, size_t others, enum side side)
{
    struct room room = room_of(worked[0].exact, others);
    bool is_earlier = fault->line <= lack->line;
    room.lengths[buffer] = lack->left;
    snprintf(tried, sizeof tried, "%zu at line %zu, with %zu of %s", fault->number, fault->line, lack->left, lent[buffer].name);
    test_refusal(&room, fault->text, is_earlier ? fault->number : PISTROVELLE_NO_ROOM, is_earlier ? fault->line : lack->line, side);
}

static void test_lack(const struct lack *lack, enum side side)
{
    size_t buffer, i;
    for (buffer = 0; buffer < BUFFERS; buffer++) {
        for (i = 0; i < COUNT(faults) && table_of[buffer] == lack->table; i++) {
            test_fault(&faults[i], lack, buffer, 0, side);
            test_fault(&faults[i], lack, buffer, MUCH, side);
        }
    }
}

/* ---------------------------------------------------------------- all of them */

static void test_side(enum side side)
{
    size_t i;
    for (i = 0; i < COUNT(worked); i++)
        test_worked(&worked[i], side);
    for (i = 0; i < COUNT(lacks); i++)
        test_lack(&lacks[i], side);
}

int main(void)
{
    test_side(AT_END);
    test_side(AT_START);
    due_far();
    passed += comparisons - differences;
    failed += differences;
    return told_counts();
}
