/*
 * The 33 labels of columns 61 to 80: each as it is, with a letter altered, more or less, and made of two; in lines that end with the label
 * and in lines of 80 columns and more; in a header, in events and in tables that are written. Then headers of many comments. The last line
 * is 'N passed, M failed'.
 */
#include <ctype.h>
#include <stdlib.h>

#include "held.h"
#include "texts.h"

/* ---------------------------------------------------------------- the paper */

enum { LABEL_AT = 60, LABEL_WIDTH = 20, WIDTH = LABEL_AT + LABEL_WIDTH };

/* What a label is to a line. */
enum kind { UNKNOWN, OF_VERSION, OF_LIST, OF_FIRST, OF_INTERVAL, OF_END, OF_SCALE, OF_MARKER, OF_ANOTHER, KINDS };

struct label {
    char letters[LABEL_WIDTH + 1];
    enum kind kind;
};

static const struct label labels[] = {
    {"RINEX VERSION / TYPE", OF_VERSION}, {"PGM / RUN BY / DATE", OF_ANOTHER}, {"COMMENT", OF_ANOTHER}, {"MARKER NAME", OF_MARKER},
    {"MARKER NUMBER", OF_ANOTHER}, {"MARKER TYPE", OF_ANOTHER}, {"OBSERVER / AGENCY", OF_ANOTHER}, {"REC # / TYPE / VERS", OF_ANOTHER},
    {"ANT # / TYPE", OF_ANOTHER}, {"APPROX POSITION XYZ", OF_ANOTHER}, {"ANTENNA: DELTA H/E/N", OF_ANOTHER},
    {"ANTENNA: DELTA X/Y/Z", OF_ANOTHER}, {"ANTENNA: PHASECENTER", OF_ANOTHER}, {"ANTENNA: B.SIGHT XYZ", OF_ANOTHER},
    {"ANTENNA: ZERODIR AZI", OF_ANOTHER}, {"ANTENNA: ZERODIR XYZ", OF_ANOTHER}, {"CENTER OF MASS: XYZ", OF_ANOTHER},
    {"SYS / # / OBS TYPES", OF_LIST}, {"SIGNAL STRENGTH UNIT", OF_ANOTHER}, {"INTERVAL", OF_INTERVAL}, {"TIME OF FIRST OBS", OF_FIRST},
    {"TIME OF LAST OBS", OF_ANOTHER}, {"RCV CLOCK OFFS APPL", OF_ANOTHER}, {"SYS / DCBS APPLIED", OF_ANOTHER},
    {"SYS / PCVS APPLIED", OF_ANOTHER}, {"SYS / SCALE FACTOR", OF_SCALE}, {"SYS / PHASE SHIFT", OF_ANOTHER},
    {"GLONASS SLOT / FRQ #", OF_ANOTHER}, {"GLONASS COD/PHS/BIS", OF_ANOTHER}, {"LEAP SECONDS", OF_ANOTHER}, {"# OF SATELLITES", OF_ANOTHER},
    {"PRN / # OF OBS", OF_ANOTHER}, {"END OF HEADER", OF_END},
};

/* Where a line with nothing but a label stands, and the number that is due by its label. */
struct place {
    const char *name, *before, *after;
    size_t line, dues[KINDS];
};

static const struct place read_places[] = {
    {"in the header", VERSION LIST_G, FIRST END, 3, {4, 5, 6, 6, 6, 5, 4, 0, 0}},
    {"in an event", VERSION LIST_G FIRST END AT_30("4", "  1"), "", 6, {4, 4, 4, 0, 0, 4, 4, 0, 0}},
    {"in an event of flag 3", VERSION LIST_G FIRST END AT_30("3", "  1"), "", 6, {4, 4, 4, 15, 15, 4, 4, 0, 15}},
};

/* The same in tables, whose normal text this is. */
static const struct place written_places[] = {
    {"in a table's header", VERSION LIST_G FIRST, END, 0, {20, 20, 20, 20, 20, 20, 20, 0, 0}},
    {"in a table's event", VERSION LIST_G FIRST END AT_30("4", "  1"), "", 0, {20, 20, 20, 0, 0, 20, 20, 0, 0}},
    {"in a table's event of flag 3", VERSION LIST_G FIRST END AT_30("3", "  1"), "", 0, {20, 20, 20, 20, 20, 20, 20, 0, 20}},
};

/* ---------------------------------------------------------------- lines */

/* Columns 61 to 80. */
struct columns {
    char letters[LABEL_WIDTH + 1];
};

/* Puts letters at a place, as many as there are columns left. */
static void put_letters(struct columns *columns, size_t at, const char *letters, size_t count)
{
    memcpy(columns->letters + at, letters, count < LABEL_WIDTH - at ? count : LABEL_WIDTH - at);
}

static struct columns columns_of(const char *letters)
{
    struct columns columns = {"                    "};
    put_letters(&columns, 0, letters, strlen(letters));
    return columns;
}

static bool is_label(const char *letters, const struct columns *columns)
{
    size_t length = strlen(letters);
    return memcmp(letters, columns->letters, length) == 0 && strspn(columns->letters + length, " ") == LABEL_WIDTH - length;
}

static enum kind kind_of(const struct columns *columns)
{
    size_t i = 0;
    while (i < COUNT(labels) && !is_label(labels[i].letters, columns))
        i++;
    return i < COUNT(labels) ? labels[i].kind : UNKNOWN;
}

/* The text with a line of blanks and these columns, filled with blanks up to this width or, where it is wider, ended with its last letter. */
static struct text text_at(const struct place *place, const struct columns *columns, size_t width)
{
    struct text text = {"", 0};
    size_t start;
    put(&text, place->before);
    start = text.length;
    put(&text, B60);
    put(&text, columns->letters);
    while (text.length > start + width && text.bytes[text.length - 1] == ' ')
        text.length--;
    while (text.length < start + width)
        text.bytes[text.length++] = ' ';
    text.bytes[text.length++] = '\n';
    put(&text, place->after);
    return text;
}

/* ---------------------------------------------------------------- reading and writing */

static const pistrovelle_room room = {PISTROVELLE_CODES, 2, 2, 4, 2 * (WIDTH + 1)};

static pistrovelle_tables tables_in(void)
{
    static uint64_t memory[1024];
    return pistrovelle_lay(memory, room);
}

static void test_read(const struct place *place, const struct columns *columns, size_t width)
{
    struct text text = text_at(place, columns, width), held = text_at(place, columns, 0);
    size_t start = strlen(place->before), due = place->dues[kind_of(columns)], line = due == 0 ? 0 : place->line;
    size_t carried = held.length - start - strlen(place->after);
    pistrovelle_tables tables = tables_in();
    pistrovelle_read_reply reply = pistrovelle_read_into(text.bytes, text.length, &tables);
    expect(reply.number == due && reply.line == line, "'%s' %s, %zu columns: %zu at line %zu", columns->letters, place->name, width, reply.number,
        reply.line);
    if (due == 0) {
        expect(reply.counts.carried == carried && memcmp(tables.carried, held.bytes + start, carried) == 0, "'%s' %s, %zu columns: carried",
            columns->letters, place->name, width);
    }
}

/* Tables that have this line carried, in the place of one that may stand there. */
static void test_write(const struct place *place, const struct columns *columns)
{
    static char out[LONGEST_TRIED];
    struct columns marker = columns_of("MARKER NAME");
    struct text fit = text_at(place, &marker, 0), text = text_at(place, columns, 0);
    size_t start = strlen(place->before), due = place->dues[kind_of(columns)];
    pistrovelle_tables tables = tables_in();
    pistrovelle_read_reply read = pistrovelle_read_into(fit.bytes, fit.length, &tables);
    pistrovelle_write_reply reply;
    read.counts.carried = text.length - start - strlen(place->after);
    memcpy(tables.carried, text.bytes + start, read.counts.carried);
    reply = pistrovelle_write_from(&read.head, &read.counts, &tables, (uint8_t *)out, sizeof out, 0);
    expect(read.number == 0 && reply.number == due && reply.count == (due == 0 ? text.length : 0) && memcmp(out, text.bytes, reply.count) == 0,
        "'%s' %s: %zu", columns->letters, place->name, reply.number);
}

/* A line with these columns everywhere, ended with its last letter and filled up to 80 columns; in the header past them too. */
static void test_columns(const struct columns *columns)
{
    size_t i;
    for (i = 0; i < COUNT(read_places); i++) {
        test_read(&read_places[i], columns, 0);
        test_read(&read_places[i], columns, WIDTH);
    }
    test_read(&read_places[0], columns, WIDTH + 7);
    for (i = 0; i < COUNT(written_places); i++)
        test_write(&written_places[i], columns);
}

/* ---------------------------------------------------------------- each label, and what is near it */

/* Each column altered: around the label's ends to every byte that a text may have, else to some. */
static void test_altered(const char *letters)
{
    struct columns columns = columns_of(letters);
    size_t at, last = strlen(letters) - 1;
    int byte;
    for (at = 0; at < LABEL_WIDTH; at++) {
        char kept = columns.letters[at];
        bool is_end = at == 0 || at == last || at == last + 1;
        for (byte = ' '; byte <= '~'; byte++) {
            columns.letters[at] = (char)byte;
            if (is_end || byte == ' ' || byte == kept - 1 || byte == kept + 1 || byte == (kept ^ ' '))
                test_columns(&columns);
        }
        columns.letters[at] = kept;
    }
}

/* A letter more in front of each column of the label and behind the last, and each letter left out. */
static void test_longer(const char *letters, size_t at)
{
    const char more[] = {' ', 'A', 'S', '/', letters[at == strlen(letters) ? at - 1 : at]};
    size_t i;
    for (i = 0; i < sizeof more; i++) {
        struct columns columns = columns_of(letters);
        columns.letters[at] = more[i];
        put_letters(&columns, at + 1, letters + at, strlen(letters) - at);
        test_columns(&columns);
    }
}

static void test_shorter(const char *letters, size_t at)
{
    struct columns columns = columns_of(letters);
    size_t left = strlen(letters) - at - 1;
    put_letters(&columns, at, letters + at + 1, left);
    columns.letters[at + left] = ' ';
    test_columns(&columns);
}

static void test_lengths(const char *letters)
{
    size_t at, length = strlen(letters);
    for (at = 0; at < length; at++) {
        test_longer(letters, at);
        test_shorter(letters, at);
    }
    if (length < LABEL_WIDTH)
        test_longer(letters, length);
}

/* The beginning of one label with the end of another. */
static void test_joined(const char *letters, const char *others)
{
    struct columns other = columns_of(others);
    size_t at;
    for (at = 1; at < LABEL_WIDTH; at++) {
        struct columns columns = columns_of(letters);
        put_letters(&columns, at, other.letters + at, LABEL_WIDTH - at);
        test_read(&read_places[0], &columns, 0);
    }
}

static void test_lower(const char *letters)
{
    struct columns columns = columns_of(letters);
    size_t i;
    for (i = 0; i < LABEL_WIDTH; i++)
        columns.letters[i] = (char)tolower(columns.letters[i]);
    test_columns(&columns);
}

/* ---------------------------------------------------------------- the line's width */

/* Up to column 80 and past it: blanks change nothing, and a letter past it is 4. */
static void test_widths(const struct label *label)
{
    static const size_t widths[] = {0, WIDTH - 1, WIDTH, WIDTH + 1, WIDTH + 2, 300};
    struct columns columns = columns_of(label->letters);
    size_t i, p;
    for (p = 0; p < COUNT(read_places); p++) {
        const struct place *place = &read_places[p];
        struct text text = text_at(place, &columns, WIDTH + 1);
        pistrovelle_tables tables = tables_in();
        pistrovelle_read_reply reply;
        for (i = 0; i < COUNT(widths); i++)
            test_read(place, &columns, widths[i]);
        text.bytes[strlen(place->before) + WIDTH] = 'x';
        reply = pistrovelle_read_into(text.bytes, text.length, &tables);
        expect(reply.number == 4 && reply.line == place->line, "'%s' %s, column 81 filled: %zu at line %zu", label->letters, place->name,
            reply.number, reply.line);
    }
}

/* A line without a label, whose last filled column is this one; ended there and filled up to 80 columns. */
static void test_unlabelled(size_t last)
{
    size_t i, filled;
    for (i = 0; i < COUNT(read_places); i++) {
        const struct place *place = &read_places[i];
        size_t start = strlen(place->before);
        for (filled = 0; filled < 2; filled++) {
            struct columns blank = columns_of("");
            struct text text = text_at(place, &blank, filled == 0 ? last : WIDTH);
            pistrovelle_tables tables = tables_in();
            pistrovelle_read_reply reply;
            text.bytes[start + last - 1] = 'x';
            reply = pistrovelle_read_into(text.bytes, text.length, &tables);
            expect(reply.number == 4 && reply.line == place->line, "column %zu the last %s: %zu at line %zu", last, place->name, reply.number,
                reply.line);
        }
    }
}

/* A line that ends in the midst of its label, down to its first letter and to none. */
static void test_cut_off(const struct label *label)
{
    struct columns columns = columns_of(label->letters);
    size_t at = strlen(label->letters);
    while (at-- > 0) {
        columns.letters[at] = ' ';
        test_columns(&columns);
    }
}

/* The label as it is, with fences around the text and all that is lent. */
static void test_fenced(const struct label *label, enum side side)
{
    struct columns columns = columns_of(label->letters);
    size_t i, width;
    for (i = 0; i < COUNT(read_places); i++) {
        const struct place *place = &read_places[i];
        for (width = 0; width <= WIDTH; width += WIDTH) {
            struct text text = text_at(place, &columns, width);
            struct held held;
            snprintf(tried, sizeof tried, "'%s' %s, fenced", columns.letters, place->name);
            held = read_text(&text, side);
            if (place->dues[label->kind] == 0)
                expect(held.reply.number == 0, "%s: %zu at line %zu", tried, held.reply.number, held.reply.line);
            else
                test_refused(&held, place->dues[label->kind], place->line);
            held_free(&held);
        }
    }
}

/* ---------------------------------------------------------------- many comments */

enum { BEFORE_COMMENTS = 3, COMMENT_CARRIED = LABEL_AT + sizeof "COMMENT\n" - 1 };

static void *taken(size_t size)
{
    void *memory = malloc(size);
    if (memory == NULL) {
        printf("no memory is left\n");
        exit(2);
    }
    return memory;
}

/* A header of so many comments, in turn ended with the label and filled up to 80 columns. The one at this place has a letter more. */
static void test_comments(size_t count, size_t altered)
{
    static const char before[] = VERSION LIST_G FIRST, after[] = END;
    char *text = taken(sizeof before + count * (WIDTH + 1) + sizeof after), *end = text;
    pistrovelle_room needed;
    pistrovelle_tables tables;
    pistrovelle_read_reply reply;
    void *memory;
    size_t i;
    end += sprintf(end, "%s", before);
    for (i = 0; i < count; i++)
        end += sprintf(end, "%-*zu%-*s\n", LABEL_AT, i, i % 2 == 0 ? 0 : LABEL_WIDTH, i == altered ? "COMMENTS" : "COMMENT");
    end += sprintf(end, "%s", after);
    needed = pistrovelle_room_for(text, (size_t)(end - text));
    memory = taken(pistrovelle_bytes(needed));
    tables = pistrovelle_lay(memory, needed);
    reply = pistrovelle_read_into(text, (size_t)(end - text), &tables);
    if (altered < count)
        expect(reply.number == 4 && reply.line == BEFORE_COMMENTS + altered + 1, "%zu comments: %zu at line %zu", count, reply.number, reply.line);
    else
        expect(reply.number == 0 && reply.head.lines == count && reply.counts.carried == count * COMMENT_CARRIED, "%zu comments: %zu at line %zu",
            count, reply.number, reply.line);
    free(memory);
    free(text);
}

static void test_many_comments(size_t count)
{
    test_comments(count, count);
    test_comments(count, 0);
    test_comments(count, count / 2 + 1);
    test_comments(count, count - 1);
}

int main(void)
{
    size_t i, k;
    test_many_comments(400);
    test_many_comments(100000);
    expect(COUNT(labels) == 33, "the paper has 33 labels");
    for (i = 1; i <= LABEL_AT + 1; i++)
        test_unlabelled(i);
    for (i = 0; i < COUNT(labels); i++) {
        test_altered(labels[i].letters);
        test_lengths(labels[i].letters);
        test_lower(labels[i].letters);
        test_widths(&labels[i]);
        test_cut_off(&labels[i]);
        test_fenced(&labels[i], AT_END);
        test_fenced(&labels[i], AT_START);
        for (k = 0; k < COUNT(labels); k++)
            test_joined(labels[i].letters, labels[k].letters);
    }
    return told_counts();
}
