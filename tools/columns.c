/* The columns of a line, and the numbers that stand in them, read as the rule says; nothing is decided by them. */
#include "columns.h"

uint8_t column_of(struct line line, size_t column)
{
    return column <= line.width ? line.bytes[column - 1] : ' ';
}

size_t first_filled(struct line line, size_t first, size_t last)
{
    for (; first <= last && first <= line.width; first++) {
        if (line.bytes[first - 1] != ' ')
            return first;
    }
    return 0;
}

size_t last_filled(struct line line)
{
    size_t column = line.width;
    while (column > 0 && line.bytes[column - 1] == ' ')
        column--;
    return column;
}

static bool is_digit(uint8_t byte)
{
    return byte >= '0' && byte <= '9';
}

bool whole_number(struct line line, size_t first, size_t last, unsigned *number)
{
    *number = 0;
    while (first < last && column_of(line, first) == ' ')
        first++;
    for (; first <= last; first++) {
        uint8_t byte = column_of(line, first);
        if (!is_digit(byte) || *number > 99999)
            return false;
        *number = *number * 10 + (unsigned)(byte - '0');
    }
    return true;
}

struct decimal decimal_number(struct line line, size_t first, size_t last, size_t decimals)
{
    struct decimal decimal = {false, false, true, 0, 0};
    size_t point = last - decimals, column;
    while (first < point && column_of(line, first) == ' ')
        first++;
    decimal.has_minus = first < point && column_of(line, first) == '-';
    first += decimal.has_minus;
    for (column = first; column <= last; column++) {
        uint8_t byte = column_of(line, column);
        if (column == point ? byte != '.' : !is_digit(byte))
            return decimal;
        if (column != point && byte != '0')
            decimal.is_zero = false;
        if (column < point && decimal.digits++ < 6)
            decimal.whole = decimal.whole * 10 + (unsigned)(byte - '0');
    }
    decimal.is_fit = true;
    return decimal;
}
