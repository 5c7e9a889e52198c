/* explain: what a refusal's number means. */
#include <errno.h>
#include <stdio.h>
#include <stdlib.h>
#include <string.h>

#include "command.h"
#include "labels.h"

struct note {
    size_t number;
    const char *words;
};

/* How the rule is read where its words leave room. */
static const struct note notes[] = {
    {1, "Bytes 32 to 126 stand in lines, and LF (byte 10) ends them; a CR or a tab is another byte. So a file whose lines end with CR LF\n"
        "is refused at line 1, and so is a compressed one (.gz, .Z). A file whose last line has no LF was probably cut off."},
    {2, "The widest row has 3 columns and 64 slots of 16. See whether an LF got lost, so that two lines have become one, or the line ends with\n"
        "blanks, which count as columns and can be cut."},
    {3, "Columns 1-9 are five blanks and 3.03, 10-20 blank, 21 is O, 41 a letter of GREJCIS or M, and 61-80 the label. Other versions,\n"
        "navigation and meteorological files are refused here."},
    {4, "A label is one of 33, exact, in columns 61-80. Barred from events are RINEX VERSION / TYPE, SYS / # / OBS TYPES,\n"
        "SYS / SCALE FACTOR and END OF HEADER. Where END OF HEADER is missing, the first epoch record is refused with 4; where an event\n"
        "counts more lines than it has, the next one is. See whether the label begins in column 61: a column too many or too few before\n"
        "it shifts it. The labels are:"},
    {5, "END OF HEADER needs a list and a TIME OF FIRST OBS before it. A list that comes again is refused so however unfit it is.\n"
        "A list of more than 13 codes is continued in the lines directly behind it, with columns 1-6 blank: see whether all of its lines\n"
        "are there, and whether its count is that of its codes. Of records that come twice, see which is the right one, and take out the\n"
        "other; a record that is missing has to stand before END OF HEADER."},
    {6, "Read are SYS / # / OBS TYPES, TIME OF FIRST OBS, INTERVAL and END OF HEADER; all columns that are not named are blank.\n"
        "SYS / # / OBS TYPES (A1,2X,I3,13(1X,A3), continued 6X,13(1X,A3)): a letter of GREJCIS, where the file's is not M that one only;\n"
        "a count, 1 to 64; and so many different codes of that system, 13 a line and with no gap. A code more or less than the count says\n"
        "is unfit, and so is a continuation that it does not ask for.\n"
        "TIME OF FIRST OBS (5I6,F13.7,5X,A3): a date of the years 1980 to 2099, hour 0-23, minute 0-59, a second below 60; then GPS,\n"
        "GLO, GAL, QZS, BDT or IRN.\n"
        "INTERVAL (F10.3): above 0. END OF HEADER: columns 1-60 are blank.\n"
        "A number ends in its field's last column, a decimal one with exactly the format's count of decimals. No plus, no exponent.\n"
        "The codes of a system are those of Tables 4 to 10 of RINEX 3.03, as C1C, and each type and band of them with a blank attribute,\n"
        "as C1; 'pistrovelle codes' lists them. What the values of any other are can't be told for certain. Look for\n"
        "  codes of another system, which is named then: does the list stand under the wrong letter?\n"
        "  BeiDou's B1 as band 1, as C1I: version 3.02 has it so, and in 3.03 it is band 2, C2I;\n"
        "  codes of later versions, as BeiDou's C1P and C5P or GLONASS's C4A: a file that has them is none of 3.03;\n"
        "  codes of version 2, as P1 and P2: in version 3 they are C1P, C1W, C2P, C2W or others, by how the receiver tracks;\n"
        "  GPS's C1N and C2N: codeless tracking (N) has L, D and S, and no pseudorange;\n"
        "  small letters, as L1c.\n"
        "Have the converter set right, and the file made anew. Exchange a code by hand only where it is known how its values were tracked."},
    {7, "An epoch record has > in column 1, the year in 3-6, month 8-9, day 11-12, hour 14-15, minute 17-18, second 19-29, the flag\n"
        "in 32, the count in 33-35 and the clock in 42-56; all other columns are blank. Years are 1980 to 2099; a second has seven\n"
        "decimals and is below 60, so that 60.0000000 is unfit; a clock has twelve decimals, or is blank. Only flags 2, 3 and 4 may leave\n"
        "the time blank, and flags 2 to 5 have no clock.\n"
        "A row too many in the epoch before is refused so as well; so are a COMMENT or another header record between epochs, unless an\n"
        "event counts it among its lines, and a blank line, even at the end."},
    {8, "Flag 6 (cycle slip records) and flags 7 to 9 are not read, and never skipped. Such a record is judged as one of flag 0 is, and in\n"
        "one line the lowest number is reported: so one that is also unfit, as with a blank time, is refused with 7, and one with 8 has\n"
        "nothing wrong but its flag. What is to be read of the file can be had by taking out the record with the lines that it counts."},
    {9, "Equal times are refused too. Events have no time order. See whether files were joined in the wrong order, whether an epoch stands\n"
        "twice, or whether one of the two times is wrong: the earlier one is said with its line."},
    {10, "Where an epoch has fewer rows than its record says, the next record is refused with 10."},
    {11, "The system's SYS / # / OBS TYPES record is missing: its observations have no meaning, and are never skipped."},
    {12, "A satellite has one row in an epoch, whose record is the last line before it that begins with >. See whether one of its two rows\n"
         "has a wrong letter or number, whether a row stands twice, or whether the record of the next epoch got lost between them."},
    {13, "A slot has 16 columns: the value with three decimals at the right of 14, or blank; a loss-of-lock mark, blank or 0-7; a strength\n"
         "mark, blank or 0-9. No plus, no exponent. A value that the line's end cuts short is unfit. A missing observation is blank or\n"
         "zero, and a zero has three decimals too: 0.000 is read as blank, and 0.0 and 0 are unfit."},
    {14, "The file was probably cut off."},
    {15, "Flag 3 says that a new site is occupied, so its name is due among the event's own lines."},
    {16, "The command lends room enough for every text; a program that calls the archive may lend less. With more room the text is\n"
         "accepted, or refused at that line or a later one; no other answer of reading depends on the room. A code that is asked for in\n"
         "all rows at once (pistrovelle_column) is refused so where the buffers for the answers have fewer entries than rows."},
    {17, "A text has at most 1,073,741,824 bytes."},
    {20, "Writing and slot questions. What is not given has the number 0 beside it, states are 0 or 1, marks in range or 255. No value of 0 is\n"
         "given: it is a missing observation, with state 0 whatever its marks. A clock of 0 may be given. A list's codes differ, and each is\n"
         "taken under the list's system: 'pistrovelle codes' lists them, and pistrovelle_is_taken answers for each. Another system's code is\n"
         "refused as one that no table has is. A code that is only asked for is never refused: it is not declared."},
    {21, "Writing only. No text is empty, so the place at the buffer's end is refused too."},
};

enum { NOTES = sizeof notes / sizeof *notes };

/* The known labels in three columns; no line ends with blanks. */
static void print_labels(void)
{
    size_t i;
    for (i = 0; i < LABELS; i++) {
        bool is_last = i % 3 == 2 || i + 1 == LABELS;
        printf(is_last ? "  %s\n" : "  %-20s", labels[i]);
    }
}

static void print_note(const struct note *note)
{
    printf("%zu: %s\n", note->number, pistrovelle_words(note->number));
    puts(note->words);
    if (note->number == PISTROVELLE_NO_LABEL)
        print_labels();
}

static int print_all(void)
{
    size_t i;
    for (i = 0; i < NOTES; i++)
        printf("%2zu: %s\n", notes[i].number, pistrovelle_words(notes[i].number));
    printf("Lines are judged from the first on. The earliest faulty line is reported and, in it, the lowest number.\n");
    return close_output(ALL_ACCEPTED);
}

static int print_number(const char *word)
{
    size_t i;
    char digits[24];
    for (i = 0; i < NOTES; i++) {
        snprintf(digits, sizeof digits, "%zu", notes[i].number);
        if (strcmp(digits, word) == 0) {
            print_note(&notes[i]);
            return close_output(ALL_ACCEPTED);
        }
    }
    return wrong_usage("no refusal has the number '%s'; there are 1 to 17, 20 and 21", word);
}

int explain_command(int count, char **words)
{
    if (count > 1)
        return wrong_usage("explain takes one number");
    return count == 0 ? print_all() : print_number(words[0]);
}
