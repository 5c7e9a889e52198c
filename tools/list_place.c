/* What is unfit in a line of a system's list, which is refused with 6. */
#include "codes.h"
#include "columns.h"
#include "list_place.h"

/* The place of a code among those that stand before; their count where it is none of them. */
static size_t place_before(const struct header *header, uint32_t code)
{
    size_t i = 0;
    while (i < header->given && header->codes[i] != code)
        i++;
    return i;
}

/* Takes the code that begins in this column; false with a place where it is unfit, or another filled column stands before it. */
static bool take_code(struct header *header, struct line line, size_t column, struct faulty *faulty)
{
    uint32_t code = code_at(line, column);
    size_t before = place_before(header, code), number = header->given + 1, last = column + CODE_COLUMNS - 1;
    if (column_of(line, column - 1) != ' ')
        note_place(faulty, column - 1, "column %zu, before code %zu, is filled", column - 1, number);
    else if (first_filled(line, column, last) == 0)
        note_place(faulty, column, "code %zu, columns %zu-%zu, is blank", number, column, last);
    else if (!pistrovelle_is_taken(header->system, code))
        place_code(header->system, code, number, column, faulty);
    else if (before < header->given)
        note_place(faulty, column, "code %zu (%s) is code %zu again", number, code_letters(code).text, before + 1);
    else {
        header->codes[header->given++] = code;
        header->due--;
        return true;
    }
    return false;
}

static void place_codes(struct header *header, struct line line, struct faulty *faulty)
{
    size_t i, filled;
    for (i = 0; i < CODES_A_LINE && header->due > 0 && header->given < PISTROVELLE_LIST; i++) {
        if (!take_code(header, line, FIRST_CODE + CODE_STEP * i, faulty))
            return;
    }
    filled = first_filled(line, FIRST_CODE - 1 + CODE_STEP * i, 60);
    if (filled > 0)
        note_place(faulty, filled, "column %zu is filled, past code %zu%s", filled, header->given, header->due > 0 ? "" : ", the last");
}

/* The letter and the count of a list's first line. */
static bool take_count(struct header *header, struct line line, struct faulty *faulty)
{
    uint8_t letter = column_of(line, 1);
    size_t filled = first_filled(line, 2, 3);
    unsigned count;
    if (letter == ' ')
        note_place(faulty, 1, "column 1 is blank, and no code of a list is due");
    else if (pistrovelle_system(letter) == PISTROVELLE_SYSTEMS)
        note_place(faulty, 1, "the letter %c in column 1 is no system's", letter);
    else if (header->letter != 'M' && header->letter != letter)
        note_place(faulty, 1, "a list of %c, where the file's letter is %c", letter, header->letter);
    else if (filled > 0)
        note_place(faulty, filled, "column %zu is filled", filled);
    else if (!whole_number(line, 4, 6, &count) || count < 1 || count > PISTROVELLE_LIST)
        note_place(faulty, 4, "the count of codes, columns 4-6");
    else {
        header->system = pistrovelle_system(letter);
        header->due = count;
        header->given = 0;
        return true;
    }
    return false;
}

void place_list(struct header *header, struct line line, struct faulty *faulty)
{
    if (header->due > 0 || take_count(header, line, faulty))
        place_codes(header, line, faulty);
}
