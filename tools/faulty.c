/* The faulty line of a refused text, and where in it to look. */
#include <stdarg.h>
#include <stdio.h>
#include <string.h>

#include "columns.h"
#include "labels.h"
#include "places.h"

/* Where line `number` begins, counted from 1; the text's length where it has no such line. */
static size_t start_of_line(const struct text *text, size_t number)
{
    size_t at = 0;
    for (; number > 1 && at < text->length; number--)
        at += line_at(text, at).width + 1;
    return at < text->length ? at : text->length;
}

/* The first byte that no line has; behind the last one where the line lacks only its LF. */
static void place_byte(struct line line, struct faulty *faulty)
{
    size_t i = 0;
    while (i < line.width && line.bytes[i] >= 32 && line.bytes[i] <= 126)
        i++;
    if (i < line.width)
        note_place(faulty, i + 1, "byte %u in column %zu", line.bytes[i], i + 1);
    else
        note_place(faulty, i + 1, "no LF at its end");
}

/* Notes where to look, where that is known. */
static void place_fault(const struct reading *reading, struct line line, struct faulty *faulty)
{
    switch (reading->reply.number) {
    case PISTROVELLE_OTHER_BYTE:
        place_byte(line, faulty);
        break;
    case PISTROVELLE_TOO_WIDE:
        place_width(line, faulty);
        break;
    case PISTROVELLE_NO_LABEL:
        place_label(line, faulty);
        break;
    case PISTROVELLE_OUT_OF_PLACE:
        place_order(reading, line, faulty);
        break;
    case PISTROVELLE_UNFIT_HEADER:
        place_header_field(reading, line, faulty);
        break;
    case PISTROVELLE_NO_EPOCH:
        place_epoch_field(reading, line, faulty);
        break;
    case PISTROVELLE_NOT_LATER:
        place_earlier(reading, faulty);
        break;
    case PISTROVELLE_UNFIT_SLOT:
        place_slot(reading, line, faulty);
        break;
    default:
        break;
    }
}

/* A column of the line that is to be among those shown. */
static size_t column_to_show(const struct reading *reading, struct line line)
{
    size_t filled = first_filled(line, LABEL_LAST + 1, line.width);
    if (reading->faulty.column > 0)
        return reading->faulty.column;
    if (reading->reply.number == PISTROVELLE_NO_VERSION && label_of(line) == LABEL_VERSION && filled > 0)
        return filled;
    return 1;
}

/* The first column shown, so that the place is among those that are: 1 wherever that does. */
static size_t first_shown(size_t width, size_t place)
{
    size_t from = place > SHOWN ? place - SHOWN / 2 : 1;
    size_t last = width > SHOWN ? width - SHOWN + 1 : 1;
    return from < last ? from : last;
}

void note_place(struct faulty *faulty, size_t column, const char *format, ...)
{
    va_list words;
    va_start(words, format);
    vsnprintf(faulty->place, sizeof faulty->place, format, words);
    va_end(words);
    faulty->column = column;
}

void note_more(struct faulty *faulty, const char *format, ...)
{
    size_t used = strlen(faulty->place);
    va_list words;
    va_start(words, format);
    vsnprintf(faulty->place + used, sizeof faulty->place - used, format, words);
    va_end(words);
}

void find_faulty(struct reading *reading)
{
    struct faulty *faulty = &reading->faulty;
    const struct text *text = &reading->text;
    size_t at = reading->reply.line == 0 ? text->length : start_of_line(text, reading->reply.line);
    struct line line;
    if (at == text->length) {
        place_ending(reading, faulty);
        return;
    }
    line = line_at(text, at);
    place_fault(reading, line, faulty);
    faulty->is_there = true;
    faulty->width = line.width;
    faulty->from = first_shown(line.width, column_to_show(reading, line));
    faulty->count = line.width < SHOWN ? line.width : SHOWN;
    memcpy(faulty->bytes, line.bytes + faulty->from - 1, faulty->count);
}
