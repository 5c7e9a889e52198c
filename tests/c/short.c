/* The example at the beginning of the header, line by line as it stands there, on the text of standard input: a satellite's code over the
   day. */
#include <stdio.h>
#include <stdlib.h>

#include "pistrovelle.h"

static int show(const pistrovelle_read_reply reply, pistrovelle_tables tables, const char *name, const char *code)
{
    uint8_t *kinds = malloc(reply.counts.rows + 1);
    double *floats = malloc((reply.counts.rows + 1) * sizeof *floats);
    if (kinds == NULL || floats == NULL)
        return 1;
    uint16_t satellite = pistrovelle_satellite(name);
    pistrovelle_place place = pistrovelle_first_epoch(&reply.head, &reply.counts, &tables);
    pistrovelle_column_reply column = pistrovelle_column_from(
        &reply.head, &reply.counts, &tables, satellite / 100, pistrovelle_code(code), kinds, floats, reply.counts.rows);
    if (column.number != PISTROVELLE_ACCEPTED)
        printf("refusal %zu: %s\n", column.number, pistrovelle_words(column.number));
    for (; place.row < column.count; place = pistrovelle_next_epoch(&reply.head, &reply.counts, &tables, place)) {
        pistrovelle_date date = pistrovelle_date_of(tables.times[place.epoch]);
        size_t rows = tables.flags[place.epoch] <= 1 ? tables.tallies[place.epoch] : 0, row;
        for (row = place.row; row < place.row + rows; row++) {
            if (tables.satellites[row] != satellite)
                continue;
            printf("%04u-%02u-%02u %02u:%02u:%02u ", date.year, date.month, date.day, date.hour, date.minute,
                (unsigned)(date.ticks / 10000000));
            if (kinds[row] <= PISTROVELLE_STRENGTH)
                printf("%.3f ", floats[row]);
            printf("%s\n", pistrovelle_kind_words(kinds[row]));
        }
    }
    free(kinds);
    free(floats);
    return 0;
}

int main(int count, char **words)
{
    static uint8_t text[1 << 20];
    size_t length = fread(text, 1, sizeof text, stdin);
    pistrovelle_room room = pistrovelle_room_for(text, length);
    void *memory = malloc(pistrovelle_bytes(room));
    pistrovelle_tables tables = pistrovelle_lay(memory, room);
    pistrovelle_read_reply reply = pistrovelle_read_into(text, length, &tables);
    int status = 1;
    if (reply.number != PISTROVELLE_ACCEPTED)
        printf("refusal %zu at line %zu: %s\n", reply.number, reply.line, pistrovelle_words(reply.number));
    else if (count == 3)
        status = show(reply, tables, words[1], words[2]);
    free(memory);
    return status;
}
