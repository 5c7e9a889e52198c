/*
 * Which codes are taken: those of Tables 4 to 10 of RINEX 3.03 under each system, and a blank attribute where type and band stand there. Asked
 * of the archive for every code and around it; then in lists that are read, and in tables that are written and asked for slots. The last
 * line is 'N passed, M failed'.
 */
#include "held.h"
#include "texts.h"

/* ---------------------------------------------------------------- the paper */

/* A band of Tables 4 to 10, with its attributes in the paper's order: those of pseudoranges, and those of phase, Doppler and strength. */
struct band {
    char system, number;
    const char *ranges, *others;
};

static const struct band bands[] = {
    {'G', '1', "CSLXPWYM", "CSLXPWYMN"}, {'G', '2', "CDSLXPWYM", "CDSLXPWYMN"}, {'G', '5', "IQX", "IQX"},
    {'R', '1', "CP", "CP"}, {'R', '2', "CP", "CP"}, {'R', '3', "IQX", "IQX"},
    {'E', '1', "ABCXZ", "ABCXZ"}, {'E', '5', "IQX", "IQX"}, {'E', '7', "IQX", "IQX"}, {'E', '8', "IQX", "IQX"}, {'E', '6', "ABCXZ", "ABCXZ"},
    {'S', '1', "C", "C"}, {'S', '5', "IQX", "IQX"},
    {'J', '1', "CSLXZ", "CSLXZ"}, {'J', '2', "SLX", "SLX"}, {'J', '5', "IQX", "IQX"}, {'J', '6', "SLX", "SLX"},
    {'C', '2', "IQX", "IQX"}, {'C', '7', "IQX", "IQX"}, {'C', '6', "IQX", "IQX"},
    {'I', '5', "ABCX", "ABCX"}, {'I', '9', "ABCX", "ABCX"},
};

/* How many codes each system has, in the order of their numbers. */
static const size_t sizes[PISTROVELLE_SYSTEMS] = {86, 28, 76, 56, 36, 32, 16};

static const char types[] = "CLDS", digits[] = "123456789", attributes[] = " ABCDEFGHIJKLMNOPQRSTUVWXYZ";

/* Those that are tried where not all are. */
#define SOME_ATTRIBUTES " CX"

/* A code, which has the paper's form or not. */
struct code {
    char letters[4];
};

static uint32_t packed(struct code code)
{
    return (uint32_t)(uint8_t)code.letters[0] << 16 | (uint32_t)(uint8_t)code.letters[1] << 8 | (uint32_t)(uint8_t)code.letters[2];
}

static bool is_one_of(char letter, const char *letters)
{
    return letter != '\0' && strchr(letters, letter) != NULL;
}

/* Whether the paper has it under a system. */
static bool is_due(size_t system, struct code code)
{
    size_t i;
    for (i = 0; i < COUNT(bands) && is_one_of(code.letters[0], types); i++) {
        if (bands[i].system == PISTROVELLE_LETTERS[system] && bands[i].number == code.letters[1])
            return code.letters[2] == ' ' || is_one_of(code.letters[2], code.letters[0] == 'C' ? bands[i].ranges : bands[i].others);
    }
    return false;
}

static bool is_due_somewhere(struct code code)
{
    size_t system = 0;
    while (system < PISTROVELLE_SYSTEMS && !is_due(system, code))
        system++;
    return system < PISTROVELLE_SYSTEMS;
}

/* Every code of the form, from the first on. */
enum { FORMS = (sizeof types - 1) * (sizeof digits - 1) * (sizeof attributes - 1) };

static struct code form_at(size_t place)
{
    struct code code = {""};
    code.letters[0] = types[place / ((sizeof digits - 1) * (sizeof attributes - 1))];
    code.letters[1] = digits[place / (sizeof attributes - 1) % (sizeof digits - 1)];
    code.letters[2] = attributes[place % (sizeof attributes - 1)];
    return code;
}

/* ---------------------------------------------------------------- each code */

static void test_taken(size_t system, struct code code)
{
    bool is_taken = pistrovelle_is_taken(system, packed(code));
    expect((int)is_taken == (int)is_due(system, code), "%x under %c: %d", packed(code), PISTROVELLE_LETTERS[system], (int)is_taken);
}

/* Any byte in the place of one letter of a code of the form. */
static void test_around(size_t system, struct code code)
{
    size_t letter;
    int byte;
    for (letter = 0; letter < 3; letter++) {
        struct code other = code;
        for (byte = 0; byte < 256; byte++) {
            other.letters[letter] = (char)byte;
            test_taken(system, other);
        }
    }
}

static void test_system(size_t system)
{
    size_t place, listed = 0;
    for (place = 0; place < FORMS; place++) {
        struct code code = form_at(place);
        test_taken(system, code);
        listed += code.letters[2] != ' ' && pistrovelle_is_taken(system, packed(code));
        if (is_one_of(code.letters[2], SOME_ATTRIBUTES))
            test_around(system, code);
    }
    expect(listed == sizes[system], "%c has %zu codes, not %zu", PISTROVELLE_LETTERS[system], listed, sizes[system]);
}

/* Numbers that are no code's. */
static void test_other_numbers(void)
{
    static const uint32_t codes[] = {0, 1, ' ', '1', 'C', '1' << 8 | 'C', 'C' << 8 | '1', 'C' << 16 | '1' << 8, 'C' << 16 | 'C', (1u << 24) - 1,
        1u << 24, (1u << 24) + 1, INT32_MAX, (uint32_t)INT32_MAX + 1, UINT32_MAX - 1, UINT32_MAX};
    size_t i, system;
    for (system = 0; system <= PISTROVELLE_SYSTEMS; system++) {
        for (i = 0; i < COUNT(codes); i++)
            expect(!pistrovelle_is_taken(system, codes[i]), "the number %x under system %zu", codes[i], system);
    }
}

/* A system's code under numbers that are no system's, and with a byte above its three: so it is no other system's code either. */
static void test_beyond(struct code code)
{
    static const size_t systems[] = {PISTROVELLE_SYSTEMS, 8, 63, 64, 255, 256, 65536, UINT32_MAX, (size_t)1 << 32, ((size_t)1 << 32) + 1,
        (size_t)1 << 40, (size_t)1 << 56, SIZE_MAX / 2, SIZE_MAX - 6, SIZE_MAX};
    static const uint32_t above[] = {1, 2, 3, 4, 5, 6, 7, 8, 16, 32, 64, 127, 128, 255};
    size_t i, system;
    for (i = 0; i < COUNT(systems); i++)
        expect(!pistrovelle_is_taken(systems[i], packed(code)), "'%s' under system %zu", code.letters, systems[i]);
    for (system = 0; system < PISTROVELLE_SYSTEMS; system++) {
        for (i = 0; i < COUNT(above); i++)
            expect(!pistrovelle_is_taken(system, above[i] << 24 | packed(code)), "'%s' below %u under system %zu", code.letters, above[i], system);
    }
}

static void test_numbers(void)
{
    size_t place;
    test_other_numbers();
    for (place = 0; place < FORMS; place++) {
        if (is_due_somewhere(form_at(place)))
            test_beyond(form_at(place));
    }
}

/* ---------------------------------------------------------------- lists that are read */

enum { LIST_LINE = 2, CODES_A_LINE = 13, LABEL_AT = 60 };

/* A line of a list: what stands in its first six columns, and its codes. */
static void put_list_line(struct text *text, const char *start, const struct code *codes, size_t count)
{
    size_t i, label = text->length + LABEL_AT;
    put(text, start);
    for (i = 0; i < count; i++) {
        put(text, " ");
        put(text, codes[i].letters);
    }
    while (text->length < label)
        put(text, " ");
    put(text, "SYS / # / OBS TYPES\n");
}

/* A system's list of so many codes. */
static void put_list(struct text *text, size_t system, const struct code *codes, size_t count)
{
    char start[16];
    size_t at;
    snprintf(start, sizeof start, "%c%5u", PISTROVELLE_LETTERS[system], (unsigned)count);
    for (at = 0; at < count; at += CODES_A_LINE)
        put_list_line(text, at == 0 ? start : "      ", codes + at, count - at < CODES_A_LINE ? count - at : CODES_A_LINE);
}

/* A text with this list alone, and a row that has one value, in the list's first slot. It is its own normal text. */
static struct text text_of(size_t system, const struct code *codes, size_t count)
{
    struct text text = {"", 0};
    char row[32];
    put(&text, VERSION);
    put_list(&text, system, codes, count);
    put(&text, FIRST END AT_30("0", "  1"));
    snprintf(row, sizeof row, "%c07%14s\n", PISTROVELLE_LETTERS[system], "-0.125");
    put(&text, row);
    return text;
}

enum { HELD_VALUE = -125 };

static const pistrovelle_slot_reply unspelled = {PISTROVELLE_UNSPELLED, 0.0}, not_declared = {PISTROVELLE_NOT_DECLARED, 0.0};

/* What the row's first slot holds. */
static pistrovelle_slot_reply value_of(struct code code)
{
    static const char units[] = " CLDS";
    pistrovelle_slot_reply due = {(uint8_t)(strchr(units, code.letters[0]) - units), HELD_VALUE / 1000.0};
    return due;
}

/* Each call on tables with a list of one code, which is the system's: asked for are that code, one that no system has, and another's. */
static void test_spelled(struct held *held, size_t system, struct code code, const struct text *normal, enum side side)
{
    uint32_t codes[] = {packed(code), pistrovelle_code("C9Q"), pistrovelle_code(system == 0 ? "C9X" : "C2W")};
    size_t i;
    fence_remember(&held->memory);
    test_written(held, normal, true, side);
    test_written(held, normal, false, side);
    for (i = 0; i < COUNT(codes); i++) {
        pistrovelle_slot_reply due = i == 0 ? value_of(code) : not_declared;
        test_slot(held, 0, codes[i], due);
        test_column(held, system, codes[i], 1, PISTROVELLE_ACCEPTED, 0, due, side);
    }
    expect(fence_kept(&held->memory), "%s: a call changes the tables", tried);
}

/* Each call on tables that no text spells: asked for is a code of the list. */
static void test_unspelled(struct held *held, size_t system, uint32_t code, enum side side)
{
    fence_remember(&held->memory);
    test_unwritten(held, true, side);
    test_unwritten(held, false, side);
    test_slot(held, 0, code, unspelled);
    test_column(held, system, code, 1, PISTROVELLE_UNSPELLED, 0, unspelled, side);
    expect(fence_kept(&held->memory), "%s: a call changes the tables", tried);
}

/* A list of one code is read, or refused at its line. */
static void test_list(size_t system, struct code code, enum side side)
{
    struct text text = text_of(system, &code, 1);
    struct held held;
    snprintf(tried, sizeof tried, "a list of %c with '%s'", PISTROVELLE_LETTERS[system], code.letters);
    held = read_text(&text, side);
    if (is_due(system, code)) {
        expect(held.reply.number == PISTROVELLE_ACCEPTED && held.tables.codes[PISTROVELLE_LIST * system] == packed(code), "%s: %zu at line %zu",
            tried, held.reply.number, held.reply.line);
        test_spelled(&held, system, code, &text, side);
    } else {
        test_refused(&held, PISTROVELLE_UNFIT_HEADER, LIST_LINE);
    }
    held_free(&held);
}

/* The first codes of a system that the paper has, by form. */
static size_t take_due(size_t system, struct code *codes, size_t most)
{
    size_t place, count = 0;
    for (place = 0; place < FORMS && count < most; place++) {
        if (is_due(system, form_at(place)))
            codes[count++] = form_at(place);
    }
    return count;
}

/* A code as the first of a continuation: it is refused at its own line where it isn't the system's, or stands in the line before. */
static void test_continued(size_t system, struct code code, enum side side)
{
    struct code codes[CODES_A_LINE + 1];
    size_t i, count = take_due(system, codes, CODES_A_LINE);
    bool is_new = true;
    struct text text;
    struct held held;
    for (i = 0; i < count; i++)
        is_new = is_new && packed(codes[i]) != packed(code);
    codes[count] = code;
    text = text_of(system, codes, count + 1);
    snprintf(tried, sizeof tried, "a list of %c continued with '%s'", PISTROVELLE_LETTERS[system], code.letters);
    held = read_text(&text, side);
    if (is_new && is_due(system, code))
        expect(held.reply.number == PISTROVELLE_ACCEPTED, "%s: %zu at line %zu", tried, held.reply.number, held.reply.line);
    else
        test_refused(&held, PISTROVELLE_UNFIT_HEADER, LIST_LINE + 1);
    held_free(&held);
}

/* ---------------------------------------------------------------- tables */

/* A code put into tables that a text spells. */
static void test_table(size_t system, struct code code, enum side side)
{
    struct text normal = text_of(system, &code, 1), fit;
    struct code first;
    struct held held;
    take_due(system, &first, 1);
    fit = text_of(system, &first, 1);
    snprintf(tried, sizeof tried, "tables of %c with %x", PISTROVELLE_LETTERS[system], packed(code));
    held = read_text(&fit, side);
    held.tables.codes[PISTROVELLE_LIST * system] = packed(code);
    if (is_due(system, code))
        test_spelled(&held, system, code, &normal, side);
    else
        test_unspelled(&held, system, packed(code), side);
    held_free(&held);
}

/* What has no form; and past the list's end a code that no system has, which doesn't matter. */
static void test_odd_tables(size_t system, enum side side)
{
    static const uint32_t odd[] = {0, 'C' << 16 | '1' << 8 | 'c', 'c' << 16 | '1' << 8 | 'C', 1u << 24, UINT32_MAX};
    struct code first;
    struct text fit;
    struct held held;
    size_t i;
    take_due(system, &first, 1);
    fit = text_of(system, &first, 1);
    snprintf(tried, sizeof tried, "odd tables of %c", PISTROVELLE_LETTERS[system]);
    held = read_text(&fit, side);
    held.tables.codes[PISTROVELLE_LIST * system + 1] = pistrovelle_code("C9Q");
    test_spelled(&held, system, first, &fit, side);
    for (i = 0; i < COUNT(odd); i++) {
        held.tables.codes[PISTROVELLE_LIST * system] = odd[i];
        test_unspelled(&held, system, odd[i], side);
    }
    held_free(&held);
}

/* ---------------------------------------------------------------- long lists */

/* In a list as long as can be, each code in turn is one that no system has: in the text, 6 at its line; in the tables, 20. */
static void test_each_place(size_t system, struct code *codes, size_t count, enum side side)
{
    static const struct code none = {"C9Q"};
    struct text fit = text_of(system, codes, count), unfit;
    struct held held;
    size_t i;
    for (i = 0; i < count; i++) {
        struct code kept = codes[i];
        snprintf(tried, sizeof tried, "%s as code %zu of %zu of %c", none.letters, i + 1, count, PISTROVELLE_LETTERS[system]);
        codes[i] = none;
        unfit = text_of(system, codes, count);
        codes[i] = kept;
        held = read_text(&unfit, side);
        test_refused(&held, PISTROVELLE_UNFIT_HEADER, LIST_LINE + i / CODES_A_LINE);
        held_free(&held);
        held = read_text(&fit, side);
        held.tables.codes[PISTROVELLE_LIST * system + i] = packed(none);
        test_unspelled(&held, system, packed(codes[0]), side);
        held_free(&held);
    }
}

static void test_long_list(size_t system, enum side side)
{
    struct code codes[PISTROVELLE_LIST];
    size_t count = take_due(system, codes, PISTROVELLE_LIST);
    struct text text = text_of(system, codes, count);
    struct held held;
    snprintf(tried, sizeof tried, "%zu codes of %c", count, PISTROVELLE_LETTERS[system]);
    held = read_text(&text, side);
    expect(held.reply.number == PISTROVELLE_ACCEPTED && held.reply.head.lengths[system] == count, "%s: %zu at line %zu", tried,
        held.reply.number, held.reply.line);
    test_written(&held, &text, true, side);
    test_written(&held, &text, false, side);
    held_free(&held);
    test_each_place(system, codes, count, side);
}

/* ---------------------------------------------------------------- all of them */

/* Every code of the form in a system's own bands and some of the others, in turn at the one end of lent memory and at the other. */
static void test_forms(size_t system)
{
    size_t place;
    for (place = 0; place < FORMS; place++) {
        enum side side = place % 2 == 0 ? AT_END : AT_START;
        struct code code = form_at(place), blank = code;
        blank.letters[2] = ' ';
        if (!is_due(system, blank) && !is_one_of(code.letters[2], SOME_ATTRIBUTES))
            continue;
        test_list(system, code, side);
        test_continued(system, code, side);
        test_table(system, code, side);
    }
}

int main(void)
{
    size_t system;
    test_numbers();
    for (system = 0; system < PISTROVELLE_SYSTEMS; system++) {
        test_system(system);
        test_forms(system);
        test_odd_tables(system, AT_END);
        test_odd_tables(system, AT_START);
        test_long_list(system, AT_END);
        test_long_list(system, AT_START);
    }
    return told_counts();
}
