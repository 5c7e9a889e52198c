/*
 * A value of 0 is a missing observation: its spellings and their neighbours in each slot, with marks and without, through each call of the
 * archive; and tables that have it as a given value, which no text spells. The last line is 'N passed, M failed'.
 */
#include "held.h"
#include "texts.h"

/* ---------------------------------------------------------------- what is printed */

/* A value as it is printed, at the right of its 14 columns. */
struct spelling {
    const char *printed;
    bool is_fit;
    int64_t held;       /* in thousandths; 0 where it is held as blank */
    const char *normal; /* as the normal text has it; empty where it is blank */
};

#define MISSING(printed) {printed, true, 0, ""}
#define UNFIT(printed) {printed, false, 0, ""}

static const struct spelling spellings[] = {
    MISSING(""), MISSING("0.000"), MISSING("-0.000"), MISSING(".000"), MISSING("-.000"), MISSING("00.000"), MISSING("-00.000"),
    MISSING("000000000.000"), MISSING("0000000000.000"), MISSING("-000000000.000"),
    {"0.001", true, 1, "0.001"}, {"-0.001", true, -1, "-0.001"}, {".001", true, 1, "0.001"}, {"-.001", true, -1, "-0.001"},
    {"0000000000.001", true, 1, "0.001"}, {"-000000000.001", true, -1, "-0.001"}, {"0.010", true, 10, "0.010"},
    {"-.100", true, -100, "-0.100"}, {"1.000", true, 1000, "1.000"}, {"1000000000.000", true, INT64_C(1000000000000), "1000000000.000"},
    {"-100000000.000", true, INT64_C(-100000000000), "-100000000.000"},
    UNFIT("0"), UNFIT("-0"), UNFIT("0."), UNFIT(".0"), UNFIT("0.0"), UNFIT("-0.0"), UNFIT("0.00"), UNFIT(".00"), UNFIT("0.0000"),
    UNFIT("00000000000000"), UNFIT("+0.000"), UNFIT("--0.000"), UNFIT("0-.000"), UNFIT("- 0.000"), UNFIT("0 .000"), UNFIT("0. 000"),
    UNFIT("0.000 "), UNFIT("0.00 "), UNFIT("0.0  "), UNFIT("0,000"), UNFIT("O.000"), UNFIT("0E000"), UNFIT("."), UNFIT("-"), UNFIT("-."),
};

/* The two marks of a slot as they are printed, and as they are held. */
struct marks {
    const char *printed;
    uint8_t loss, strength;
};

enum { NO_MARK = PISTROVELLE_BLANK_MARK };

static const struct marks all_marks[] = {
    {"  ", NO_MARK, NO_MARK}, {"19", 1, 9}, {"00", 0, 0}, {"0 ", 0, NO_MARK}, {" 0", NO_MARK, 0}, {"7 ", 7, NO_MARK}, {" 1", NO_MARK, 1},
};

/* A slot by its row, its system and its code, and the kind of a value there. */
struct slot {
    size_t row, system;
    const char *code;
    uint8_t kind;
};

enum { MOST_SLOTS = 3 };

/* The slots of an epoch, row after row: first, last and only ones of a row and of all. */
struct layout {
    size_t rows, slots;
    struct slot slot[MOST_SLOTS];
};

static const struct layout layouts[] = {
    {2, 3, {{0, 0, "C1C", PISTROVELLE_METRES}, {0, 0, "L1C", PISTROVELLE_CYCLES}, {1, 1, "C1C", PISTROVELLE_METRES}}},
    {1, 1, {{0, 1, "C1C", PISTROVELLE_METRES}}},
};

/* What the other slots have. */
#define OTHER_PRINTED "20000000.125"
#define OTHER_HELD INT64_C(20000000125)

enum { HEADER_LINES = 5 };

static void end_line(struct text *text, bool is_cut)
{
    while (is_cut && text->bytes[text->length - 1] == ' ')
        text->length--;
    put(text, "\n");
}

static void put_slot(struct text *text, const char *value, const char *marks)
{
    char columns[17];
    snprintf(columns, sizeof columns, "%14s%s", value, marks);
    put(text, columns);
}

/* A text of one epoch, whose clock is a zero. One slot has this value and these marks; lines are cut behind their last filled column, or
   are filled with blanks to the end of their last slot. */
static struct text text_of(const struct layout *layout, size_t place, const char *value, const char *marks, bool is_cut)
{
    struct text text = {"", 0};
    size_t i;
    put(&text, H);
    put(&text, layout->rows == 1 ? "> 2024 12 31 23 59 30.0000000  0  1" : "> 2024 12 31 23 59 30.0000000  0  2");
    put(&text, "       0.000000000000");
    for (i = 0; i < layout->slots; i++) {
        if (i == 0 || layout->slot[i].row > layout->slot[i - 1].row) {
            end_line(&text, is_cut);
            put(&text, layout->slot[i].system == 0 ? "G05" : "R12");
        }
        put_slot(&text, i == place ? value : OTHER_PRINTED, i == place ? marks : "  ");
    }
    end_line(&text, is_cut);
    return text;
}

/* ---------------------------------------------------------------- what is held */

static bool is_held(const struct held *held, size_t slot, int64_t number, uint8_t loss, uint8_t strength)
{
    const pistrovelle_tables *t = &held->tables;
    return t->numbers[slot] == number && t->states[slot] == (number == 0 ? PISTROVELLE_NOT_GIVEN : PISTROVELLE_GIVEN)
        && t->losses[slot] == loss && t->strengths[slot] == strength;
}

/* ---------------------------------------------------------------- each call on tables */

/* What is due of a slot, in tables that a text spells. */
static pistrovelle_slot_reply slot_due(const struct held *held, const struct layout *layout, size_t slot)
{
    pistrovelle_slot_reply due = {PISTROVELLE_BLANK, 0.0};
    if (held->tables.states[slot] == PISTROVELLE_GIVEN) {
        due.kind = layout->slot[slot].kind;
        due.value = (double)held->tables.numbers[slot] / 1000.0;
    }
    return due;
}

/* The slot itself, and its code in a row that isn't there; then its column, with room for all rows and for one less. */
static void test_questions(const struct held *held, const struct layout *layout, size_t slot, bool is_spelled, enum side side)
{
    const pistrovelle_slot_reply unspelled = {PISTROVELLE_UNSPELLED, 0.0}, no_row = {PISTROVELLE_NO_ROW, 0.0};
    const struct slot *asked = &layout->slot[slot];
    uint32_t code = pistrovelle_code(asked->code);
    pistrovelle_slot_reply due = is_spelled ? slot_due(held, layout, slot) : unspelled;
    test_slot(held, asked->row, code, due);
    test_slot(held, layout->rows, code, is_spelled ? no_row : unspelled);
    test_column(held, asked->system, code, layout->rows, is_spelled ? PISTROVELLE_ACCEPTED : PISTROVELLE_UNSPELLED, asked->row, due, side);
    test_column(held, asked->system, code, layout->rows - 1, is_spelled ? PISTROVELLE_NO_ROOM : PISTROVELLE_UNSPELLED, asked->row, due, side);
}

/* Every slot question, on tables that a text spells or that none does; none of the calls has changed the tables. */
static void test_slots(const struct held *held, const struct layout *layout, bool is_spelled, enum side side)
{
    size_t slot;
    for (slot = 0; slot < layout->slots; slot++)
        test_questions(held, layout, slot, is_spelled, side);
    expect(fence_kept(&held->memory), "%s: a call changes the tables", tried);
}

/* Each call on tables whose normal text this is. */
static void test_spelled(struct held *held, const struct layout *layout, const struct text *normal, enum side side)
{
    fence_remember(&held->memory);
    test_written(held, normal, true, side);
    test_written(held, normal, false, side);
    test_slots(held, layout, true, side);
}

/* Each call on tables that no text spells: 20 before all else. */
static void test_unspelled(struct held *held, const struct layout *layout, enum side side)
{
    fence_remember(&held->memory);
    test_unwritten(held, true, side);
    test_unwritten(held, false, side);
    test_slots(held, layout, false, side);
}

/* ---------------------------------------------------------------- texts */

static void test_held(const struct held *held, const struct layout *layout, size_t place, int64_t number, const struct marks *marks)
{
    const pistrovelle_read_reply *read = &held->reply;
    size_t i;
    expect(read->number == PISTROVELLE_ACCEPTED && read->counts.rows == layout->rows && read->counts.slots == layout->slots,
        "%s: %zu at line %zu", tried, read->number, read->line);
    expect(is_held(held, place, number, marks->loss, marks->strength), "%s: what is held", tried);
    for (i = 0; i < layout->slots; i++)
        expect(i == place || is_held(held, i, OTHER_HELD, NO_MARK, NO_MARK), "%s: slot %zu", tried, i);
    expect(held->tables.clock_states[0] == PISTROVELLE_GIVEN && held->tables.clocks[0] == 0, "%s: the clock of 0 is given", tried);
}

/* The normal text has the same tables, bit for bit. */
static void test_back(const struct held *held, const struct text *normal, enum side side)
{
    struct held again = read_text(normal, side);
    expect(again.memory.size == held->memory.size && memcmp(again.memory.bytes, held->memory.bytes, held->memory.size) == 0,
        "%s: the tables of the normal text", tried);
    held_free(&again);
}

static void test_spelling(
    const struct layout *layout, size_t place, const struct spelling *spelling, const struct marks *marks, bool is_cut, enum side side)
{
    struct text text = text_of(layout, place, spelling->printed, marks->printed, is_cut);
    struct text normal = text_of(layout, place, spelling->normal, marks->printed, true);
    struct held held;
    snprintf(tried, sizeof tried, "'%s' with marks '%s' as slot %zu of %zu", spelling->printed, marks->printed, place, layout->slots);
    held = read_text(&text, side);
    if (spelling->is_fit) {
        test_held(&held, layout, place, spelling->held, marks);
        test_back(&held, &normal, side);
        test_spelled(&held, layout, &normal, side);
    } else {
        test_refused(&held, PISTROVELLE_UNFIT_SLOT, HEADER_LINES + 2 + layout->slot[place].row);
    }
    held_free(&held);
}

static void test_spellings(const struct layout *layout, size_t place, enum side side)
{
    size_t i, k;
    for (i = 0; i < COUNT(spellings); i++) {
        for (k = 0; k < COUNT(all_marks); k++) {
            test_spelling(layout, place, &spellings[i], &all_marks[k], true, side);
            test_spelling(layout, place, &spellings[i], &all_marks[k], false, side);
        }
    }
}

/* A row with nothing but zeros is its three columns in the normal text. */
static void test_all_zeros(enum side side)
{
    static const char zeros[] = H AT_30("0", "  2") "G05" "        -0.000  " "          .000  \n" "R12" "         0.000\n";
    static const char empty[] = H AT_30("0", "  2") "G05\n" "R12\n";
    struct text text = {"", 0}, normal = {"", 0};
    struct held held;
    size_t i;
    snprintf(tried, sizeof tried, "rows of zeros");
    put(&text, zeros);
    put(&normal, empty);
    held = read_text(&text, side);
    expect(held.reply.number == PISTROVELLE_ACCEPTED, "%s: %zu at line %zu", tried, held.reply.number, held.reply.line);
    for (i = 0; i < MOST_SLOTS; i++)
        expect(is_held(&held, i, 0, NO_MARK, NO_MARK), "%s: slot %zu", tried, i);
    test_back(&held, &normal, side);
    test_spelled(&held, &layouts[0], &normal, side);
    held_free(&held);
}

/* ---------------------------------------------------------------- tables */

/* What stands in a slot's entries; as the normal text has it, or NULL where no text spells it. */
struct entry {
    uint8_t state;
    int64_t number;
    const char *normal;
};

static const struct entry slot_entries[] = {
    {1, 0, NULL}, {1, 1, "0.001"}, {1, -1, "-0.001"}, {0, 0, ""}, {0, 1, NULL}, {0, -1, NULL}, {2, 0, NULL}, {2, 1, NULL}, {255, 0, NULL},
};

static void test_entry(const struct layout *layout, size_t place, const struct entry *entry, const struct marks *marks, enum side side)
{
    struct text fit = text_of(layout, place, OTHER_PRINTED, "  ", true);
    struct text normal = text_of(layout, place, entry->normal == NULL ? "none" : entry->normal, marks->printed, true);
    struct held held;
    snprintf(tried, sizeof tried, "state %u, number %d, marks '%s' as slot %zu of %zu", entry->state, (int)entry->number, marks->printed,
        place, layout->slots);
    held = read_text(&fit, side);
    held.tables.states[place] = entry->state;
    held.tables.numbers[place] = entry->number;
    held.tables.losses[place] = marks->loss;
    held.tables.strengths[place] = marks->strength;
    if (entry->normal == NULL)
        test_unspelled(&held, layout, side);
    else
        test_spelled(&held, layout, &normal, side);
    held_free(&held);
}

static void test_entries(const struct layout *layout, size_t place, enum side side)
{
    size_t i, k;
    for (i = 0; i < COUNT(slot_entries); i++) {
        for (k = 0; k < COUNT(all_marks); k++)
            test_entry(layout, place, &slot_entries[i], &all_marks[k], side);
    }
}

/* What comes of writing an epoch alone. */
static size_t epoch_number(const struct held *held, pistrovelle_place place)
{
    uint8_t out[LONGEST_TRIED];
    return pistrovelle_write_epoch_from(&held->reply.head, &held->tables, place, out, sizeof out, 0).number;
}

/* A given value of 0 in one of two epochs: the other epoch can be written alone, and nothing else. */
static void test_two_epochs(enum side side)
{
    static const char epochs[] = H AT_30("0", "  1") "R12  20000000.125\n" AT_31("0", "  1") "R12  20000000.125\n";
    struct text text = {"", 0};
    size_t slot;
    put(&text, epochs);
    for (slot = 0; slot < 2; slot++) {
        struct held held = read_text(&text, side);
        pistrovelle_place first = pistrovelle_first_epoch(&held.reply.head, &held.reply.counts, &held.tables);
        pistrovelle_place second = pistrovelle_next_epoch(&held.reply.head, &held.reply.counts, &held.tables, first);
        snprintf(tried, sizeof tried, "a given value of 0 in epoch %zu of two", slot);
        held.tables.numbers[slot] = 0;
        test_unwritten(&held, true, side);
        expect(epoch_number(&held, first) == (slot == 0 ? PISTROVELLE_UNSPELLED : PISTROVELLE_ACCEPTED), "%s: the first", tried);
        expect(epoch_number(&held, second) == (slot == 1 ? PISTROVELLE_UNSPELLED : PISTROVELLE_ACCEPTED), "%s: the second", tried);
        held_free(&held);
    }
}

/* Past the counts a given value of 0 doesn't matter: an epoch is taken away, whose slot has it. */
static void test_past_the_counts(enum side side)
{
    struct text both = text_of(&layouts[0], 0, OTHER_PRINTED, "  ", true), normal = both;
    struct held held;
    snprintf(tried, sizeof tried, "a given value of 0 past the counts");
    put(&both, AT_31("0", "  1") "R12  20000000.125\n");
    held = read_text(&both, side);
    held.tables.numbers[MOST_SLOTS] = 0;
    held.reply.counts.epochs--;
    held.reply.counts.rows--;
    held.reply.counts.slots--;
    test_spelled(&held, &layouts[0], &normal, side);
    held_free(&held);
}

/* ---------------------------------------------------------------- all of them */

static void test_side(enum side side)
{
    size_t i, place;
    for (i = 0; i < COUNT(layouts); i++) {
        for (place = 0; place < layouts[i].slots; place++) {
            test_spellings(&layouts[i], place, side);
            test_entries(&layouts[i], place, side);
        }
    }
    test_all_zeros(side);
    test_two_epochs(side);
    test_past_the_counts(side);
}

int main(void)
{
    test_side(AT_END);
    test_side(AT_START);
    return told_counts();
}
