/* The slot for which a row is refused with 13, which the archive doesn't tell: it is asked about the row's first slots alone. */
#include <string.h>

#include "unfit.h"

/* A version line, five lines at the most for each system's list, TIME OF FIRST OBS and END OF HEADER, 80 columns each. */
enum { COLUMNS = 80, HEADER_LINES = 3 + 5 * PISTROVELLE_SYSTEMS };

static const char epoch_record[] = "> 2000 01 01 00 00  0.0000000  0  1\n";

/* A small text for the archive to judge: what is read of a header, an epoch record, and room for one row. */
struct trial {
    uint8_t bytes[HEADER_LINES * (COLUMNS + 1) + sizeof epoch_record + PISTROVELLE_WIDEST + 1];
    size_t row;
    const pistrovelle_tables *tables;
};

size_t slot_column(size_t slot)
{
    return 4 + 16 * (slot - 1);
}

static bool is_read(struct line line)
{
    static const char *const labels[] = {"RINEX VERSION / TYPE", "SYS / # / OBS TYPES", "TIME OF FIRST OBS", "END OF HEADER"};
    size_t i;
    for (i = 0; i < sizeof labels / sizeof *labels; i++) {
        if (pistrovelle_has_label(line.bytes, line.width, labels[i]))
            return true;
    }
    return false;
}

/* The lines of the header that say how a row is read; they are fit, so that nothing stands past column 80. */
static void put_header(struct trial *trial, const struct text *text)
{
    size_t at = 0, lines = 0;
    bool is_end = false;
    while (at < text->length && !is_end && lines < HEADER_LINES) {
        struct line line = line_at(text, at);
        at += line.width + 1;
        if (!is_read(line))
            continue;
        is_end = pistrovelle_has_label(line.bytes, line.width, "END OF HEADER");
        if (line.width > COLUMNS)
            line.width = COLUMNS;
        memcpy(trial->bytes + trial->row, line.bytes, line.width);
        trial->row += line.width;
        trial->bytes[trial->row++] = '\n';
        lines++;
    }
    memcpy(trial->bytes + trial->row, epoch_record, sizeof epoch_record - 1);
    trial->row += sizeof epoch_record - 1;
}

/* What becomes of the row cut behind so many slots. */
static pistrovelle_read_reply try_row(struct trial *trial, struct line row, size_t slots)
{
    size_t width = slot_column(slots + 1) - 1;
    if (width > row.width)
        width = row.width;
    memcpy(trial->bytes + trial->row, row.bytes, width);
    trial->bytes[trial->row + width] = '\n';
    return pistrovelle_read_into(trial->bytes, trial->row + width + 1, trial->tables);
}

/* The fewest slots that are refused: the last of them is the unfit one. */
static size_t first_refused(struct trial *trial, struct line row)
{
    size_t good = 0, bad = PISTROVELLE_LIST;
    while (bad - good > 1) {
        size_t slots = (good + bad) / 2;
        if (try_row(trial, row, slots).number != PISTROVELLE_ACCEPTED)
            bad = slots;
        else
            good = slots;
    }
    return bad;
}

struct unfit find_unfit(const struct text *text, const pistrovelle_tables *tables, struct line row)
{
    struct trial trial = {{0}, 0, tables};
    struct unfit unfit = {0, 0, 0};
    size_t system = row.width == 0 ? PISTROVELLE_SYSTEMS : pistrovelle_system(row.bytes[0]);
    pistrovelle_read_reply reply;
    put_header(&trial, text);
    unfit.slot = first_refused(&trial, row);
    reply = try_row(&trial, row, 0);
    unfit.declared = system < PISTROVELLE_SYSTEMS ? reply.head.lengths[system] : 0;
    if (unfit.slot <= unfit.declared)
        unfit.code = tables->codes[PISTROVELLE_LIST * system + unfit.slot - 1];
    return unfit;
}
