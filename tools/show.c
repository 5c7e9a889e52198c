/* Bytes from outside, printed so that they can do no harm. */
#include <string.h>

#include "show.h"

/* How a byte is shown: itself, or a backslash and what it is. */
static const char *shown(uint8_t byte, char room[8])
{
    if (byte == '\t' || byte == '\r' || byte == '\n' || byte == '\\')
        snprintf(room, 8, "\\%c", byte == '\t' ? 't' : byte == '\r' ? 'r' : byte == '\n' ? 'n' : '\\');
    else
        snprintf(room, 8, byte < 32 || byte > 126 ? "\\x%02X" : "%c", byte);
    return room;
}

void show_line(FILE *out, const uint8_t *bytes, size_t count)
{
    char room[8];
    size_t i;
    fputc('"', out);
    for (i = 0; i < count; i++)
        fputs(bytes[i] == '"' ? "\\\"" : shown(bytes[i], room), out);
    fputc('"', out);
}

/* How many bytes the UTF-8 character at this place takes; 0 where there is none. */
static size_t character(const uint8_t *s)
{
    static const struct {
        uint8_t first, last, next_first, next_last;
        size_t size;
    } kinds[] = {
        {0x01, 0x7F, 0x00, 0x00, 1}, {0xC2, 0xDF, 0x80, 0xBF, 2}, {0xE0, 0xE0, 0xA0, 0xBF, 3}, {0xE1, 0xEC, 0x80, 0xBF, 3},
        {0xED, 0xED, 0x80, 0x9F, 3}, {0xEE, 0xEF, 0x80, 0xBF, 3}, {0xF0, 0xF0, 0x90, 0xBF, 4}, {0xF1, 0xF3, 0x80, 0xBF, 4},
        {0xF4, 0xF4, 0x80, 0x8F, 4},
    };
    size_t i, k;
    for (i = 0; i < sizeof kinds / sizeof *kinds; i++) {
        if (s[0] < kinds[i].first || s[0] > kinds[i].last)
            continue;
        if (kinds[i].size > 1 && (s[1] < kinds[i].next_first || s[1] > kinds[i].next_last))
            return 0;
        for (k = 2; k < kinds[i].size; k++) {
            if ((s[k] & 0xC0) != 0x80)
                return 0;
        }
        return kinds[i].size;
    }
    return 0;
}

/* The number of a UTF-8 character of so many bytes, two or more. */
static uint32_t number_of(const uint8_t *s, size_t size)
{
    uint32_t number = s[0] & (0x7Fu >> size);
    size_t i;
    for (i = 1; i < size; i++)
        number = number << 6 | (s[i] & 0x3Fu);
    return number;
}

/* Whether such a character moves the cursor, or the order of what stands around it. */
static bool is_control(uint32_t number)
{
    static const struct {
        uint32_t first, last;
    } controls[] = {{0x80, 0x9F}, {0x61C, 0x61C}, {0x200E, 0x200F}, {0x2028, 0x202E}, {0x2066, 0x2069}};
    size_t i;
    for (i = 0; i < sizeof controls / sizeof *controls; i++) {
        if (number >= controls[i].first && number <= controls[i].last)
            return true;
    }
    return false;
}

/* The next of a name, as it is shown: so many of its bytes, and the columns that they take at the most. */
struct piece {
    char text[8];
    size_t bytes, columns;
};

static struct piece next_piece(const uint8_t *s)
{
    struct piece piece = {"", character(s), 2};
    if (piece.bytes > 1 && !is_control(number_of(s, piece.bytes))) {
        memcpy(piece.text, s, piece.bytes);
        return piece;
    }
    piece.bytes = 1;
    piece.columns = strlen(shown(*s, piece.text));
    return piece;
}

size_t show_within(FILE *out, const char *name, size_t columns)
{
    const uint8_t *s = (const uint8_t *)name;
    size_t used = 0;
    while (*s != 0) {
        struct piece piece = next_piece(s);
        if (used + piece.columns > columns)
            break;
        fputs(piece.text, out);
        used += piece.columns;
        s += piece.bytes;
    }
    return used;
}

void show_name(FILE *out, const char *name)
{
    show_within(out, name, SIZE_MAX);
}

static void show_json_byte(FILE *out, uint8_t byte)
{
    if (byte == '"' || byte == '\\')
        fprintf(out, "\\%c", byte);
    else if (byte < 32 || byte == 127)
        fprintf(out, "\\u%04X", byte);
    else
        fputc(byte, out);
}

void show_json(FILE *out, const char *text)
{
    const uint8_t *s = (const uint8_t *)text;
    fputc('"', out);
    while (*s != 0) {
        size_t size = character(s);
        if (size == 0)
            fputs("\\uFFFD", out);
        else if (size == 1)
            show_json_byte(out, *s);
        else if (is_control(number_of(s, size)))
            fprintf(out, "\\u%04X", (unsigned)number_of(s, size));
        else
            fwrite(s, 1, size, out);
        s += size == 0 ? 1 : size;
    }
    fputc('"', out);
}

void show_json_line(FILE *out, const uint8_t *bytes, size_t count)
{
    char room[8];
    const char *c;
    size_t i;
    fputc('"', out);
    for (i = 0; i < count; i++) {
        for (c = shown(bytes[i], room); *c != '\0'; c++)
            show_json_byte(out, (uint8_t)*c);
    }
    fputc('"', out);
}

bool is_utf8(const char *text)
{
    const uint8_t *s = (const uint8_t *)text;
    size_t size = 1;
    for (; *s != 0 && size != 0; s += size)
        size = character(s);
    return size != 0;
}

void show_hex(FILE *out, const char *text)
{
    fputc('"', out);
    for (; *text != '\0'; text++)
        fprintf(out, "%02x", (uint8_t)*text);
    fputc('"', out);
}
