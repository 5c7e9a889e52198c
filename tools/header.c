/* The header of a text, gone over again to say more of a refusal. */
#include <string.h>

#include "columns.h"
#include "header.h"
#include "labels.h"

uint32_t code_at(struct line line, size_t column)
{
    return (uint32_t)column_of(line, column) << 16 | (uint32_t)column_of(line, column + 1) << 8 | (uint32_t)column_of(line, column + 2);
}

static void note_codes(struct header *header, struct line line)
{
    size_t i;
    for (i = 0; i < CODES_A_LINE && header->due > 0 && header->given < PISTROVELLE_LIST; i++) {
        header->codes[header->given++] = code_at(line, FIRST_CODE + CODE_STEP * i);
        header->due--;
    }
}

static void note_list(struct header *header, struct line line)
{
    size_t system = pistrovelle_system(column_of(line, 1));
    unsigned count;
    if (header->due == 0 && system < PISTROVELLE_SYSTEMS) {
        header->system = system;
        header->lists[system] = header->line;
        header->given = 0;
        header->due = whole_number(line, 4, 6, &count) && count <= PISTROVELLE_LIST ? count : 0;
    }
    note_codes(header, line);
}

static void note_record(struct header *header, struct line line)
{
    switch (label_of(line)) {
    case LABEL_VERSION:
        header->version = header->line;
        header->letter = column_of(line, 41);
        break;
    case LABEL_LIST:
        note_list(header, line);
        break;
    case LABEL_INTERVAL:
        header->interval = header->line;
        break;
    case LABEL_FIRST:
        header->first = header->line;
        break;
    case LABEL_END:
        header->is_over = true;
        break;
    default:
        break;
    }
}

struct header header_before(const struct text *text, size_t line)
{
    struct header header;
    memset(&header, 0, sizeof header);
    for (header.line = 1; header.line < line && header.at < text->length && !header.is_over; header.line++) {
        struct line next = line_at(text, header.at);
        note_record(&header, next);
        header.at += next.width + 1;
    }
    return header;
}
