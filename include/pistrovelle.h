/*
 * pistrovelle.h: observation files of RINEX 3.03, read and written by proved code.
 *
 * Any bytes may be given. Reading ends with tables or with one refusal by number and line; writing puts the one normal text of tables
 * into a lent buffer, or refuses; a slot is asked for by row and code, or a code for all rows at once. No caller has to check first:
 * whatever the bytes and the numbers are, each call ends, answers, and touches nothing but what it was lent. A refusal changes nothing
 * that is lent.
 *
 * In short:
 *
 *     pistrovelle_room room = pistrovelle_room_for(text, length);
 *     void *memory = malloc(pistrovelle_bytes(room));             NULL: no memory is left
 *     pistrovelle_tables tables = pistrovelle_lay(memory, room);
 *     pistrovelle_read_reply reply = pistrovelle_read_into(text, length, &tables);
 *     if (reply.number != PISTROVELLE_ACCEPTED)
 *         printf("refusal %zu at line %zu: %s\n", reply.number, reply.line, pistrovelle_words(reply.number));
 *
 * and, of an accepted text, a satellite's code over the day; kinds and floats have room for reply.counts.rows entries each:
 *
 *     uint16_t satellite = pistrovelle_satellite("G03");
 *     pistrovelle_place place = pistrovelle_first_epoch(&reply.head, &reply.counts, &tables);
 *     pistrovelle_column_reply column = pistrovelle_column_from(
 *         &reply.head, &reply.counts, &tables, satellite / 100, pistrovelle_code("C1C"), kinds, floats, reply.counts.rows);
 *     if (column.number != PISTROVELLE_ACCEPTED)
 *         printf("refusal %zu: %s\n", column.number, pistrovelle_words(column.number));
 *     for (; place.row < column.count; place = pistrovelle_next_epoch(&reply.head, &reply.counts, &tables, place)) {
 *         pistrovelle_date date = pistrovelle_date_of(tables.times[place.epoch]);
 *         size_t rows = tables.flags[place.epoch] <= 1 ? tables.tallies[place.epoch] : 0, row;
 *         for (row = place.row; row < place.row + rows; row++) {
 *             if (tables.satellites[row] != satellite)
 *                 continue;
 *             printf("%04u-%02u-%02u %02u:%02u:%02u ", date.year, date.month, date.day, date.hour, date.minute,
 *                 (unsigned)(date.ticks / 10000000));
 *             if (kinds[row] <= PISTROVELLE_STRENGTH)
 *                 printf("%.3f ", floats[row]);
 *             printf("%s\n", pistrovelle_kind_words(kinds[row]));    the unit; or blank, or not declared
 *         }
 *     }
 *     free(memory);
 *
 * What a caller owes, as for every C function that takes pointers:
 *   - a pointer and the length behind it name memory that is there, aligned for its type (NULL with length 0 is fine);
 *   - buffers that are written don't overlap each other or anything else that is lent to the same call;
 *   - nobody else changes lent memory during the call.
 *
 * The library keeps nothing between calls, takes no memory of its own but some of the stack (less than 64 KiB), and may be called from
 * several threads at once.
 * It is for x86-64, C99 or newer, or C++. Link with -lpistrovelle.
 */
#ifndef PISTROVELLE_H
#define PISTROVELLE_H

#ifndef __cplusplus
#include <stdbool.h>
#endif
#include <stddef.h>
#include <stdint.h>
#include <string.h>

#ifdef __cplusplus
extern "C" {
#endif

#define PISTROVELLE_VERSION "0.3.0"

/* ---------------------------------------------------------------- numbers */

/* The most bytes that a text has, and the most columns that a line has. */
#define PISTROVELLE_LONGEST 1073741824
#define PISTROVELLE_WIDEST 1027

/* The systems, in the order of their numbers 0 to 6; code i of system s stands at place 64 s + i of the code table, so that 448 places
   are enough for every file. */
#define PISTROVELLE_SYSTEMS 7
#define PISTROVELLE_LETTERS "GREJCIS"
#define PISTROVELLE_LIST 64
#define PISTROVELLE_CODES 448

/* The time systems, in the order of their numbers 0 to 5. */
#define PISTROVELLE_TIME_SYSTEMS 6
#define PISTROVELLE_TIME_SYSTEM_NAMES "GPSGLOGALQZSBDTIRN"

/* What may be missing has a state beside it: not given (the number is then 0), or given. A time and a clock may be given as 0. An interval
   never is, nor is the value of a slot: a printed zero is a missing observation. */
#define PISTROVELLE_NOT_GIVEN 0
#define PISTROVELLE_GIVEN 1

/* A blank loss-of-lock or strength mark. Of marks blank is kept apart from zero: a mark printed as 0 is the number 0. */
#define PISTROVELLE_BLANK_MARK 255

/* ---------------------------------------------------------------- refusals */

/* The number of a reply: 0, or why there is a refusal. pistrovelle_words has the rule's words for each. Reading judges lines from the
   first on; the earliest faulty line is reported and, in it, the lowest number. */
enum {
    PISTROVELLE_ACCEPTED = 0,
    /* reading */
    PISTROVELLE_OTHER_BYTE = 1,
    PISTROVELLE_TOO_WIDE = 2,
    PISTROVELLE_NO_VERSION = 3,
    PISTROVELLE_NO_LABEL = 4,
    PISTROVELLE_OUT_OF_PLACE = 5,
    PISTROVELLE_UNFIT_HEADER = 6,
    PISTROVELLE_NO_EPOCH = 7,
    PISTROVELLE_OTHER_FLAG = 8,
    PISTROVELLE_NOT_LATER = 9,
    PISTROVELLE_NO_SATELLITE = 10,
    PISTROVELLE_NO_LIST = 11,
    PISTROVELLE_SATELLITE_AGAIN = 12,
    PISTROVELLE_UNFIT_SLOT = 13,
    PISTROVELLE_CUT_OFF = 14,
    PISTROVELLE_NO_MARKER_NAME = 15,
    PISTROVELLE_NO_ROOM = 16,
    PISTROVELLE_TOO_LONG = 17,
    /* writing; 20 also slot questions, as is 16 */
    PISTROVELLE_UNSPELLED = 20,
    PISTROVELLE_NO_PLACE = 21
};

/* The rule's words for the number of a refusal; NULL for a number that no refusal has. */
static inline const char *pistrovelle_words(size_t number)
{
    switch (number) {
    case PISTROVELLE_OTHER_BYTE:
        return "it has another byte, or is the last and has no LF";
    case PISTROVELLE_TOO_WIDE:
        return "it is longer than 1,027 columns";
    case PISTROVELLE_NO_VERSION:
        return "it is line 1 and not a fit RINEX VERSION / TYPE record, columns past 80 included, or the text is empty (line 1)";
    case PISTROVELLE_NO_LABEL:
        return "header or event line: columns 61-80 hold no known label, a column past 80 isn't blank, or the record is "
               "SYS / SCALE FACTOR or one barred from events";
    case PISTROVELLE_OUT_OF_PLACE:
        return "the version line, TIME OF FIRST OBS, INTERVAL or a system's list comes again in the header, END OF HEADER comes too "
               "early, or where a continuation is due the label is another or columns 1-6 aren't blank";
    case PISTROVELLE_UNFIT_HEADER:
        return "a header record that is read has an unfit field";
    case PISTROVELLE_NO_EPOCH:
        return "it stands where an epoch record must and isn't a fit one";
    case PISTROVELLE_OTHER_FLAG:
        return "event flag 6, 7, 8 or 9 (rule 7 judges these as flag 0)";
    case PISTROVELLE_NOT_LATER:
        return "an epoch of flag 0 or 1 is not later than the one of flag 0 or 1 before it";
    case PISTROVELLE_NO_SATELLITE:
        return "a row's columns 1-3 aren't a letter of the seven and two digits 01 to 99";
    case PISTROVELLE_NO_LIST:
        return "the row's system has no list in the header";
    case PISTROVELLE_SATELLITE_AGAIN:
        return "the satellite already stands in this epoch";
    case PISTROVELLE_UNFIT_SLOT:
        return "a slot is unfit, or a column past the last declared slot isn't blank";
    case PISTROVELLE_CUT_OFF:
        return "the text ends before the header or an epoch's lines are complete; the line is the number of lines plus 1";
    case PISTROVELLE_NO_MARKER_NAME:
        return "it is the last line of a flag 3 event (the epoch line itself if 0 lines follow) and none was MARKER NAME";
    case PISTROVELLE_NO_ROOM:
        return "its entries need more room than is left";
    case PISTROVELLE_TOO_LONG:
        return "the text is too long; the line is 0";
    case PISTROVELLE_UNSPELLED:
        return "no text spells the given tables, counts past the lent lengths included";
    case PISTROVELLE_NO_PLACE:
        return "the normal text is longer than the buffer from the given place on, longer than 1,073,741,824 bytes, or the place lies "
               "past the buffer's end";
    default:
        return NULL;
    }
}

/* ---------------------------------------------------------------- kinds of slots */

/* The kind of an answer to a slot question: the unit of a value, by the code's first letter, or why there is no value. A value is never 0.
   Tables that no text spells have PISTROVELLE_UNSPELLED, 20, as in writing. */
enum {
    PISTROVELLE_METRES = 1,       /* C: pseudorange */
    PISTROVELLE_CYCLES = 2,       /* L: phase */
    PISTROVELLE_HERTZ = 3,        /* D: Doppler */
    PISTROVELLE_STRENGTH = 4,     /* S: strength as printed */
    PISTROVELLE_BLANK = 5,        /* the slot has no value: its columns are blank, or a zero is printed there */
    PISTROVELLE_NOT_DECLARED = 6, /* the list of the row's system lacks the code, as every list does one that isn't taken */
    PISTROVELLE_NO_ROW = 7
};

/* The words for a kind; NULL for a number that no kind has. */
static inline const char *pistrovelle_kind_words(size_t kind)
{
    switch (kind) {
    case PISTROVELLE_METRES:
        return "metres";
    case PISTROVELLE_CYCLES:
        return "cycles";
    case PISTROVELLE_HERTZ:
        return "hertz";
    case PISTROVELLE_STRENGTH:
        return "strength";
    case PISTROVELLE_BLANK:
        return "blank";
    case PISTROVELLE_NOT_DECLARED:
        return "not declared";
    case PISTROVELLE_NO_ROW:
        return "no such row";
    case PISTROVELLE_UNSPELLED:
        return pistrovelle_words(PISTROVELLE_UNSPELLED);
    default:
        return NULL;
    }
}

/* A code as one number, from its letters: "C1C", or "C1" with a blank attribute, which may be printed ("C1 "). 0, which is no code, where
   there are fewer letters than two or more than three. The letters themselves are not judged here: pistrovelle_is_taken does that, and
   what no system takes is in no list. */
static inline uint32_t pistrovelle_code(const char *letters)
{
    size_t count = strlen(letters);
    if (count != 2 && count != 3)
        return 0;
    return (uint32_t)(uint8_t)letters[0] << 16 | (uint32_t)(uint8_t)letters[1] << 8 | (uint32_t)(uint8_t)(count == 3 ? letters[2] : ' ');
}

/* ---------------------------------------------------------------- satellites and times */

/* In plain C, and not proved. */

/* The system of a letter, 0 to 6; 7 for any other byte. */
static inline size_t pistrovelle_system(uint8_t letter)
{
    const char *letters = PISTROVELLE_LETTERS;
    const char *found = letter == 0 ? NULL : strchr(letters, letter);
    return found == NULL ? PISTROVELLE_SYSTEMS : (size_t)(found - letters);
}

/* A satellite as the tables have it, 100 s + number, from its letter and two digits 01 to 99: "G05" is 5, "R12" is 112. 65535, which is no
   satellite, for anything else, "G00" too. */
static inline uint16_t pistrovelle_satellite(const char *name)
{
    size_t system = strlen(name) == 3 ? pistrovelle_system((uint8_t)name[0]) : PISTROVELLE_SYSTEMS;
    size_t number;
    if (system == PISTROVELLE_SYSTEMS || name[1] < '0' || name[1] > '9' || name[2] < '0' || name[2] > '9')
        return UINT16_MAX;
    number = 10 * (size_t)(name[1] - '0') + (size_t)(name[2] - '0');
    return number == 0 ? UINT16_MAX : (uint16_t)(100 * system + number);
}

/* A date of the calendar; ticks are 1e-7 s of the minute, 0 to 599,999,999. */
typedef struct pistrovelle_date {
    unsigned year, month, day, hour, minute;
    uint32_t ticks;
} pistrovelle_date;

/* The date of a time in 1e-7 s since 1980-01-01 00:00:00, every day having 86,400 s: right for the years 1980 to 2099, which tables have. */
static inline pistrovelle_date pistrovelle_date_of(uint64_t time)
{
    static const unsigned before[13] = {0, 31, 59, 90, 120, 151, 181, 212, 243, 273, 304, 334, 365};
    uint64_t minutes = time / 600000000u, days = minutes / 1440u, of_four = days % 1461u;
    unsigned year = of_four < 366u ? 0u : (unsigned)((of_four - 1u) / 365u), leap = year == 0u;
    unsigned day = (unsigned)(year == 0u ? of_four : (of_four - 1u) % 365u), month = 1;
    pistrovelle_date date;
    while (month < 12 && day >= before[month] + (month > 1 ? leap : 0u))
        month++;
    date.year = 1980u + 4u * (unsigned)(days / 1461u) + year;
    date.month = month;
    date.day = day - before[month - 1] - (month > 2 ? leap : 0u) + 1u;
    date.hour = (unsigned)(minutes / 60u % 24u);
    date.minute = (unsigned)(minutes % 60u);
    date.ticks = (uint32_t)(time % 600000000u);
    return date;
}

/* ---------------------------------------------------------------- by value */

/* What is said of a file by value. */
typedef struct pistrovelle_head {
    uint8_t letter;         /* the file letter, one of GREJCIS or M, as its byte */
    size_t lengths[7];      /* how many codes each system's list has, 0 to 64; 0 is a system without a list */
    uint64_t first;         /* TIME OF FIRST OBS, in 1e-7 s since 1980-01-01 00:00:00, every day having 86,400 s */
    size_t time_system;     /* 0 to 5: GPS GLO GAL QZS BDT IRN */
    uint8_t interval_state; /* 1 where the header has INTERVAL, else 0 */
    uint64_t interval;      /* INTERVAL in thousandths of a second; 0 where there is none */
    size_t lines;           /* how many of the carried lines stand in the header; the others are the events' */
} pistrovelle_head;

/* How many entries of each table are used. */
typedef struct pistrovelle_counts {
    size_t epochs;  /* epoch records, events too */
    size_t rows;    /* satellites under epochs of flag 0 and 1 */
    size_t slots;   /* one for each row and each code of its system */
    size_t carried; /* bytes */
} pistrovelle_counts;

/* The reply of reading. Number 0: head and counts are the file's, and the line is 0. Any other number: a refusal at this line (lines
   count from 1), and all else is 0. */
typedef struct pistrovelle_read_reply {
    size_t number;
    size_t line;
    pistrovelle_head head;
    pistrovelle_counts counts;
} pistrovelle_read_reply;

/* The reply of writing. Number 0: so many bytes were written. Number 20 or 21: a refusal; the count is 0. The line is always 0. */
typedef struct pistrovelle_write_reply {
    size_t number;
    size_t line;
    size_t count;
} pistrovelle_write_reply;

/* How many codes each system's list has, for pistrovelle_write_epoch. */
typedef struct pistrovelle_lengths {
    size_t of[7];
} pistrovelle_lengths;

/* An entry of the epoch table by value, for pistrovelle_write_epoch; the fields are those of the six buffers below. */
typedef struct pistrovelle_epoch {
    uint8_t time_state;
    uint64_t time;
    uint8_t flag;
    uint16_t tally;
    uint8_t clock_state;
    int64_t clock;
} pistrovelle_epoch;

/* The answer to one slot question. The value is the slot's whole number of thousandths, converted exactly and divided once by 1000; it is
   +0.0 where the kind is none of the first four, and only there. */
typedef struct pistrovelle_slot_reply {
    uint8_t kind;
    double value;
} pistrovelle_slot_reply;

/* The reply to a question for all rows. Number 0: so many rows were answered, which is all there are. Number 16 or 20: a refusal; the
   count is 0. */
typedef struct pistrovelle_column_reply {
    size_t number;
    size_t count;
} pistrovelle_column_reply;

/* The archive has these structs laid out for x86-64. */
#if defined(__cplusplus) && __cplusplus >= 201103L
#define PISTROVELLE_SIZE(type, size) static_assert(sizeof(type) == size, #type " is laid out for x86-64")
#elif defined(__STDC_VERSION__) && __STDC_VERSION__ >= 201112L
#define PISTROVELLE_SIZE(type, size) _Static_assert(sizeof(type) == size, #type " is laid out for x86-64")
#else
#define PISTROVELLE_SIZE(type, size) struct pistrovelle_no_assertion
#endif
PISTROVELLE_SIZE(size_t, 8);
PISTROVELLE_SIZE(pistrovelle_head, 104);
PISTROVELLE_SIZE(pistrovelle_counts, 32);
PISTROVELLE_SIZE(pistrovelle_read_reply, 152);
PISTROVELLE_SIZE(pistrovelle_write_reply, 24);
PISTROVELLE_SIZE(pistrovelle_lengths, 56);
PISTROVELLE_SIZE(pistrovelle_epoch, 32);
PISTROVELLE_SIZE(pistrovelle_slot_reply, 16);
PISTROVELLE_SIZE(pistrovelle_column_reply, 16);
#undef PISTROVELLE_SIZE

/* ---------------------------------------------------------------- the calls of the archive */

/*
 * The thirteen buffers of the five tables. In the calls each is a pointer and the count of entries behind it, in this order.
 * A table in several buffers has the room of the shortest one.
 *
 *   codes     codes         a code's three bytes as one number, the first highest ('C' << 16 | '1' << 8 | 'C'), a blank attribute as
 *                           32; code i of system s at place 64 s + i. Each is taken under its system (pistrovelle_is_taken)
 *   epochs    times         in 1e-7 s since 1980-01-01 00:00:00; 0 where an event has none
 *             time_states   1 given, 0 none
 *             flags         0 or 1 an epoch with rows, 2 to 5 an event with carried lines
 *             tallies       how many rows, or lines, follow: 0 to 999
 *             clocks        receiver clock offset in 1e-12 s; 0 where there is none
 *             clock_states  1 given, 0 none: a printed zero is number 0 with state 1
 *   rows      satellites    100 s + number: G05 is 5, R12 is 112
 *   slots     numbers       the value in thousandths; 0 where it is blank, and only there
 *             states        1 given, 0 blank: a printed zero is blank, however it is spelled (0.000, -.000)
 *             losses        loss-of-lock mark 0 to 7, or 255 where it is blank; beside a blank value too
 *             strengths     strength mark 0 to 9, or 255 where it is blank; likewise
 *   carried   carried       the records that are kept and not read: the header's, then the events', each with its trailing blanks cut
 *                           and one LF
 *
 * Rows stand in the order of the file, an epoch's after those of the epochs before it; a row's slots likewise, in its list's order.
 *
 * A caller who fills tables gives no value of 0: a missing observation has state 0 with number 0, and its marks as they are. No text
 * spells state 1 with number 0 in a slot, so that each call that is handed such tables answers 20. A clock of 0 is given, with state 1.
 * Nor does any text spell a list with a code that isn't taken under its system, one that another system has among them: 20 likewise.
 */

/*
 * Whether a code is taken under a system, 0 to 6: it stands in Tables 4 to 10 of RINEX 3.03 under that system, or its attribute is blank
 * and its type and band stand there. So GPS has C1C, and C1 with a blank attribute, but neither C9Q nor C9; and BeiDou has C2I, not C1I:
 * in 3.03 its B1 is band 2. pistrovelle_code packs a code. False where the system is above 6, and for every number that is no code, as 0.
 * What a system has is found by asking for each type (C, L, D, S), band (1 to 9) and attribute (A to Z, blank).
 */
bool pistrovelle_is_taken(size_t system, uint32_t code);

/*
 * Reads a text. Accepted exactly when some tables that the text spells fit the lent room; the tables are then in the buffers, and
 * entries past the counts, and code places that no list uses, are unchanged. Else a refusal 1 to 17, and every entry is unchanged.
 * A code that isn't taken under its list's system (pistrovelle_is_taken) is an unfit field: 6, at the line that has it.
 *
 * More room changes no answer but 16: with buffers of which none is shorter every other reply is the same, with the same entries in use;
 * and where it was 16, the text is accepted, or refused at that line or a later one. So after 16 lend more (pistrovelle_room_for tells how
 * much is enough) and read again.
 */
pistrovelle_read_reply pistrovelle_read(
    const uint8_t *text, size_t text_length,
    uint32_t *codes, size_t codes_length,
    uint64_t *times, size_t times_length,
    uint8_t *time_states, size_t time_states_length,
    uint8_t *flags, size_t flags_length,
    uint16_t *tallies, size_t tallies_length,
    int64_t *clocks, size_t clocks_length,
    uint8_t *clock_states, size_t clock_states_length,
    uint16_t *satellites, size_t satellites_length,
    int64_t *numbers, size_t numbers_length,
    uint8_t *states, size_t states_length,
    uint8_t *losses, size_t losses_length,
    uint8_t *strengths, size_t strengths_length,
    uint8_t *carried, size_t carried_length);

/*
 * Writes tables as their one normal text, from place `at` of the buffer `out` on. Entries past the counts don't matter. Reading the
 * text with room enough gives the same tables. 20 if no text spells the tables, counts past the lent lengths, a given value of 0 and a
 * code that isn't taken under its list's system included; else 21 if the text has no room from there on, passes PISTROVELLE_LONGEST, or
 * the place lies past the buffer's end. All bytes of the buffer other than those of the text stay as they are; on a refusal all do.
 *
 * How long the buffer must be: of tables that were read, the length of that text is room enough from the place on, since no line of a
 * normal text is longer than the line that was read. That is not proved; too little gives 21, and never half a text.
 */
pistrovelle_write_reply pistrovelle_write(
    pistrovelle_head head, pistrovelle_counts counts,
    const uint32_t *codes, size_t codes_length,
    const uint64_t *times, size_t times_length,
    const uint8_t *time_states, size_t time_states_length,
    const uint8_t *flags, size_t flags_length,
    const uint16_t *tallies, size_t tallies_length,
    const int64_t *clocks, size_t clocks_length,
    const uint8_t *clock_states, size_t clock_states_length,
    const uint16_t *satellites, size_t satellites_length,
    const int64_t *numbers, size_t numbers_length,
    const uint8_t *states, size_t states_length,
    const uint8_t *losses, size_t losses_length,
    const uint8_t *strengths, size_t strengths_length,
    const uint8_t *carried, size_t carried_length,
    uint8_t *out, size_t out_length, size_t at);

/*
 * Writes one epoch alone, from place `at` of the buffer `out` on. The buffers of rows, slots and carried lines begin with those of the
 * epoch, and what follows them doesn't matter. 20 if no text has that epoch under the given lists, a given value of 0 in its slots and, in
 * any of the seven lists, a code that isn't taken included; else 21 as above. Neither the file letter nor the order of times is judged.
 */
pistrovelle_write_reply pistrovelle_write_epoch(
    pistrovelle_lengths lengths, pistrovelle_epoch epoch,
    const uint32_t *codes, size_t codes_length,
    const uint16_t *satellites, size_t satellites_length,
    const int64_t *numbers, size_t numbers_length,
    const uint8_t *states, size_t states_length,
    const uint8_t *losses, size_t losses_length,
    const uint8_t *strengths, size_t strengths_length,
    const uint8_t *carried, size_t carried_length,
    uint8_t *out, size_t out_length, size_t at);

/* ---------------------------------------------------------------- slot questions */

/*
 * What the slot of a row and a code holds. Rows count from 0 in the order of the row table, and pistrovelle_code packs a code. The kind
 * says the unit of the value, or why there is none: blank, not declared, no such row. To ask for a code that isn't taken under the row's
 * system (pistrovelle_is_taken) is no fault: it is not declared. 20 if no text spells the tables, counts past the lent lengths, a given
 * value of 0 in any slot and, in any list, a code that isn't taken included, before all else: so a row that isn't there, in tables that no
 * text spells, is 20 too. Entries past the counts don't matter. Each call judges the whole tables; pistrovelle_column does so once for all
 * rows.
 */
pistrovelle_slot_reply pistrovelle_slot(
    pistrovelle_head head, pistrovelle_counts counts,
    const uint32_t *codes, size_t codes_length,
    const uint64_t *times, size_t times_length,
    const uint8_t *time_states, size_t time_states_length,
    const uint8_t *flags, size_t flags_length,
    const uint16_t *tallies, size_t tallies_length,
    const int64_t *clocks, size_t clocks_length,
    const uint8_t *clock_states, size_t clock_states_length,
    const uint16_t *satellites, size_t satellites_length,
    const int64_t *numbers, size_t numbers_length,
    const uint8_t *states, size_t states_length,
    const uint8_t *losses, size_t losses_length,
    const uint8_t *strengths, size_t strengths_length,
    const uint8_t *carried, size_t carried_length,
    size_t row, uint32_t code);

/*
 * What pistrovelle_slot answers for a code of one system, 0 to 6, for all rows at once: entry i of `kinds` and of `floats` has the kind and
 * the value of row i. A row of another system is not declared, whatever its own list has, and has the value +0.0; so has every row where
 * the system is above 6 or its list lacks the code, as it does every code that isn't taken. 20 if no text spells the tables, as above;
 * else 16 if one of the two buffers has fewer entries than there are rows. Entries past the count of rows stay as they are; on a refusal
 * all do.
 */
pistrovelle_column_reply pistrovelle_column(
    pistrovelle_head head, pistrovelle_counts counts,
    const uint32_t *codes, size_t codes_length,
    const uint64_t *times, size_t times_length,
    const uint8_t *time_states, size_t time_states_length,
    const uint8_t *flags, size_t flags_length,
    const uint16_t *tallies, size_t tallies_length,
    const int64_t *clocks, size_t clocks_length,
    const uint8_t *clock_states, size_t clock_states_length,
    const uint16_t *satellites, size_t satellites_length,
    const int64_t *numbers, size_t numbers_length,
    const uint8_t *states, size_t states_length,
    const uint8_t *losses, size_t losses_length,
    const uint8_t *strengths, size_t strengths_length,
    const uint8_t *carried, size_t carried_length,
    size_t system, uint32_t code,
    uint8_t *kinds, size_t kinds_length,
    double *floats, size_t floats_length);

/* ---------------------------------------------------------------- the tables as one thing */

/* The room of each table: how many entries its buffers have. */
typedef struct pistrovelle_room {
    size_t codes;
    size_t epochs;
    size_t rows;
    size_t slots;
    size_t carried;
} pistrovelle_room;

/* The lent buffers and their room; those of one table are equally long. What each holds is told above. */
typedef struct pistrovelle_tables {
    pistrovelle_room room;
    uint32_t *codes;
    uint64_t *times;
    uint8_t *time_states;
    uint8_t *flags;
    uint16_t *tallies;
    int64_t *clocks;
    uint8_t *clock_states;
    uint16_t *satellites;
    int64_t *numbers;
    uint8_t *states;
    uint8_t *losses;
    uint8_t *strengths;
    uint8_t *carried;
} pistrovelle_tables;

/* pistrovelle_read into these tables. */
static inline pistrovelle_read_reply pistrovelle_read_into(const void *text, size_t length, const pistrovelle_tables *t)
{
    return pistrovelle_read(
        (const uint8_t *)text, length,
        t->codes, t->room.codes,
        t->times, t->room.epochs,
        t->time_states, t->room.epochs,
        t->flags, t->room.epochs,
        t->tallies, t->room.epochs,
        t->clocks, t->room.epochs,
        t->clock_states, t->room.epochs,
        t->satellites, t->room.rows,
        t->numbers, t->room.slots,
        t->states, t->room.slots,
        t->losses, t->room.slots,
        t->strengths, t->room.slots,
        t->carried, t->room.carried);
}

/* pistrovelle_write from these tables. */
static inline pistrovelle_write_reply pistrovelle_write_from(
    const pistrovelle_head *head, const pistrovelle_counts *counts, const pistrovelle_tables *t, void *out, size_t length, size_t at)
{
    return pistrovelle_write(
        *head, *counts,
        t->codes, t->room.codes,
        t->times, t->room.epochs,
        t->time_states, t->room.epochs,
        t->flags, t->room.epochs,
        t->tallies, t->room.epochs,
        t->clocks, t->room.epochs,
        t->clock_states, t->room.epochs,
        t->satellites, t->room.rows,
        t->numbers, t->room.slots,
        t->states, t->room.slots,
        t->losses, t->room.slots,
        t->strengths, t->room.slots,
        t->carried, t->room.carried,
        (uint8_t *)out, length, at);
}

/* pistrovelle_slot of these tables. */
static inline pistrovelle_slot_reply pistrovelle_slot_from(
    const pistrovelle_head *head, const pistrovelle_counts *counts, const pistrovelle_tables *t, size_t row, uint32_t code)
{
    return pistrovelle_slot(
        *head, *counts,
        t->codes, t->room.codes,
        t->times, t->room.epochs,
        t->time_states, t->room.epochs,
        t->flags, t->room.epochs,
        t->tallies, t->room.epochs,
        t->clocks, t->room.epochs,
        t->clock_states, t->room.epochs,
        t->satellites, t->room.rows,
        t->numbers, t->room.slots,
        t->states, t->room.slots,
        t->losses, t->room.slots,
        t->strengths, t->room.slots,
        t->carried, t->room.carried,
        row, code);
}

/* pistrovelle_column of these tables; both buffers have room for so many rows. */
static inline pistrovelle_column_reply pistrovelle_column_from(
    const pistrovelle_head *head, const pistrovelle_counts *counts, const pistrovelle_tables *t, size_t system, uint32_t code,
    uint8_t *kinds, double *floats, size_t rows)
{
    return pistrovelle_column(
        *head, *counts,
        t->codes, t->room.codes,
        t->times, t->room.epochs,
        t->time_states, t->room.epochs,
        t->flags, t->room.epochs,
        t->tallies, t->room.epochs,
        t->clocks, t->room.epochs,
        t->clock_states, t->room.epochs,
        t->satellites, t->room.rows,
        t->numbers, t->room.slots,
        t->states, t->room.slots,
        t->losses, t->room.slots,
        t->strengths, t->room.slots,
        t->carried, t->room.carried,
        system, code,
        kinds, rows,
        floats, rows);
}

/* ---------------------------------------------------------------- one epoch after the other */

/* Where an epoch's entries begin in the tables: its own entry, its first row, its first slot, and the first byte of its carried lines.
   On tables that no text spells a place may be wrong; what lies past the room is never touched. */
typedef struct pistrovelle_place {
    size_t epoch;
    size_t row;
    size_t slot;
    size_t carried;
} pistrovelle_place;

static inline size_t pistrovelle_smaller(size_t a, size_t b)
{
    return a < b ? a : b;
}

/* The place behind so many carried lines, from a place on; `end` is where the carried bytes end. */
static inline size_t pistrovelle_behind_lines(const uint8_t *carried, size_t end, size_t at, size_t lines)
{
    for (; lines > 0 && at < end; lines--) {
        const void *found = memchr(carried + at, '\n', end - at);
        at = found == NULL ? end : (size_t)((const uint8_t *)found - carried) + 1;
    }
    return at;
}

/* The first epoch's place. It is there where counts->epochs is above 0. */
static inline pistrovelle_place pistrovelle_first_epoch(
    const pistrovelle_head *head, const pistrovelle_counts *counts, const pistrovelle_tables *t)
{
    size_t end = pistrovelle_smaller(counts->carried, t->room.carried);
    pistrovelle_place place = {0, 0, 0, 0};
    place.carried = pistrovelle_behind_lines(t->carried, end, 0, head->lines);
    return place;
}

/* How many slots a satellite's row has. */
static inline size_t pistrovelle_row_slots(const pistrovelle_head *head, uint16_t satellite)
{
    size_t system = satellite / 100u;
    return system < PISTROVELLE_SYSTEMS ? head->lengths[system] : 0;
}

/* The place of the epoch after the one at this place. It is there where its field `epoch` is below counts->epochs. */
static inline pistrovelle_place pistrovelle_next_epoch(
    const pistrovelle_head *head, const pistrovelle_counts *counts, const pistrovelle_tables *t, pistrovelle_place place)
{
    size_t rows = pistrovelle_smaller(counts->rows, t->room.rows);
    size_t end = pistrovelle_smaller(counts->carried, t->room.carried);
    size_t tally = place.epoch < t->room.epochs ? t->tallies[place.epoch] : 0;
    if (tally > 0 && t->flags[place.epoch] > 1) {
        place.carried = pistrovelle_behind_lines(t->carried, end, place.carried, tally);
        tally = 0;
    }
    for (; tally > 0 && place.row < rows; tally--)
        place.slot += pistrovelle_row_slots(head, t->satellites[place.row++]);
    place.epoch++;
    return place;
}

/* The entry of the epoch at this place, which is below the room, by value. */
static inline pistrovelle_epoch pistrovelle_epoch_at(const pistrovelle_tables *t, pistrovelle_place place)
{
    pistrovelle_epoch epoch;
    epoch.time_state = t->time_states[place.epoch];
    epoch.time = t->times[place.epoch];
    epoch.flag = t->flags[place.epoch];
    epoch.tally = t->tallies[place.epoch];
    epoch.clock_state = t->clock_states[place.epoch];
    epoch.clock = t->clocks[place.epoch];
    return epoch;
}

/* pistrovelle_write_epoch of the epoch at this place; 20 where the room has none. */
static inline pistrovelle_write_reply pistrovelle_write_epoch_from(
    const pistrovelle_head *head, const pistrovelle_tables *t, pistrovelle_place place, void *out, size_t length, size_t at)
{
    size_t row = pistrovelle_smaller(place.row, t->room.rows);
    size_t slot = pistrovelle_smaller(place.slot, t->room.slots);
    size_t carried = pistrovelle_smaller(place.carried, t->room.carried);
    pistrovelle_write_reply none = {PISTROVELLE_UNSPELLED, 0, 0};
    pistrovelle_lengths lengths;
    if (place.epoch >= t->room.epochs)
        return none;
    memcpy(lengths.of, head->lengths, sizeof lengths.of);
    return pistrovelle_write_epoch(
        lengths, pistrovelle_epoch_at(t, place),
        t->codes, t->room.codes,
        t->satellites + row, t->room.rows - row,
        t->numbers + slot, t->room.slots - slot,
        t->states + slot, t->room.slots - slot,
        t->losses + slot, t->room.slots - slot,
        t->strengths + slot, t->room.slots - slot,
        t->carried + carried, t->room.carried - carried,
        (uint8_t *)out, length, at);
}

/* ---------------------------------------------------------------- room for a text */

/*
 * These sizes are counted in plain C and are not proved. A room that is too small gives refusal 16 and never a wrong table.
 */

/* Whether columns 61 and on of a line begin with this label. */
static inline int pistrovelle_has_label(const uint8_t *line, size_t width, const char *label)
{
    size_t size = strlen(label);
    return width >= 60 + size && memcmp(line + 60, label, size) == 0;
}

/* The count that stands in columns 4 to 6 of a list's line; at most 64. */
static inline size_t pistrovelle_list_count(const uint8_t *line)
{
    size_t count = 0;
    size_t i;
    for (i = 3; i < 6; i++) {
        if (line[i] >= '0' && line[i] <= '9')
            count = count * 10 + (size_t)(line[i] - '0');
    }
    return count < PISTROVELLE_LIST ? count : PISTROVELLE_LIST;
}

/* What the lines of a header make known: how many codes the lists have, at the most. */
static inline void pistrovelle_note_list(size_t lengths[8], const uint8_t *line, size_t width)
{
    size_t system, count;
    if (!pistrovelle_has_label(line, width, "SYS / # / OBS TYPES"))
        return;
    system = pistrovelle_system(line[0]);
    count = pistrovelle_list_count(line);
    if (lengths[system] < count)
        lengths[system] = count;
}

/* The room that a line past the header may need: an epoch begins with >, a row with its system's letter. */
static inline void pistrovelle_note_data(pistrovelle_room *room, const size_t lengths[8], uint8_t first)
{
    size_t system = pistrovelle_system(first);
    room->epochs += first == '>';
    room->rows += system < PISTROVELLE_SYSTEMS;
    room->slots += system < PISTROVELLE_SYSTEMS ? lengths[system] : 0;
}

/* Room enough for a text, counted line by line, not below what it needs and in usual files hardly above. A carried line has a label,
   and labels begin with a capital letter or #, which no epoch record and no row has in column 61. */
static inline pistrovelle_room pistrovelle_room_for(const void *text, size_t length)
{
    pistrovelle_room room = {PISTROVELLE_CODES, 0, 0, 0, 0};
    size_t lengths[8] = {0, 0, 0, 0, 0, 0, 0, 0};
    const uint8_t *line = (const uint8_t *)text;
    size_t left = length <= PISTROVELLE_LONGEST ? length : 0;
    int in_header = 1;
    while (left > 0) {
        const uint8_t *end = (const uint8_t *)memchr(line, '\n', left);
        size_t width = end == NULL ? left : (size_t)(end - line);
        size_t step = end == NULL ? left : width + 1;
        if (width > 60 && (line[60] == '#' || (line[60] >= 'A' && line[60] <= 'Z')))
            room.carried += width + 1;
        if (!in_header) {
            pistrovelle_note_data(&room, lengths, line[0]);
        } else if (pistrovelle_has_label(line, width, "END OF HEADER")) {
            in_header = 0;
        } else {
            pistrovelle_note_list(lengths, line, width);
        }
        line += step;
        left -= step;
    }
    return room;
}

/* How many bytes of memory the buffers of this room take together. */
static inline size_t pistrovelle_bytes(pistrovelle_room room)
{
    return 4 * room.codes + 21 * room.epochs + 2 * room.rows + 11 * room.slots + room.carried;
}

/* Lays the buffers of this room into memory of pistrovelle_bytes(room) bytes that is aligned for uint64_t, as malloc's is. */
static inline pistrovelle_tables pistrovelle_lay(void *memory, pistrovelle_room room)
{
    pistrovelle_tables t;
    t.room = room;
    t.times = (uint64_t *)memory;
    t.clocks = (int64_t *)(t.times + room.epochs);
    t.numbers = t.clocks + room.epochs;
    t.codes = (uint32_t *)(t.numbers + room.slots);
    t.tallies = (uint16_t *)(t.codes + room.codes);
    t.satellites = t.tallies + room.epochs;
    t.time_states = (uint8_t *)(t.satellites + room.rows);
    t.flags = t.time_states + room.epochs;
    t.clock_states = t.flags + room.epochs;
    t.states = t.clock_states + room.epochs;
    t.losses = t.states + room.slots;
    t.strengths = t.losses + room.slots;
    t.carried = t.strengths + room.slots;
    return t;
}

#ifdef __cplusplus
}
#endif

#endif
