/* Reads a file with the archive, with tables sized from its text. */
#include <errno.h>
#include <stdio.h>
#include <stdlib.h>
#include <string.h>

#include "reading.h"

static void say_problem(struct reading *reading, const char *words)
{
    snprintf(reading->problem, sizeof reading->problem, "%s", words);
}

static bool lend_tables(struct reading *reading)
{
    pistrovelle_room room = pistrovelle_room_for(reading->text.bytes, reading->text.length);
    size_t size = pistrovelle_bytes(room);
    reading->memory = malloc(size);
    if (reading->memory == NULL) {
        snprintf(reading->problem, sizeof reading->problem, "its tables need %zu bytes of memory, which are not left", size);
        return false;
    }
    reading->tables = pistrovelle_lay(reading->memory, room);
    return true;
}

static void read_text(void *with)
{
    struct reading *reading = with;
    if (!lend_tables(reading))
        return;
    reading->reply = pistrovelle_read_into(reading->text.bytes, reading->text.length, &reading->tables);
    if (reading->reply.number != PISTROVELLE_ACCEPTED)
        find_faulty(reading);
}

void read_path(struct reading *reading, const char *path)
{
    const char *problem;
    memset(reading, 0, sizeof *reading);
    problem = text_open(&reading->text, path);
    if (problem != NULL)
        say_problem(reading, problem);
    else if (!guarded(read_text, reading))
        say_problem(reading, "it was cut short, or its disk failed, while it was read");
    else if (text_changed(&reading->text))
        say_problem(reading, "it was changed while it was read");
}

void reading_close(struct reading *reading)
{
    text_close(&reading->text);
    free(reading->memory);
    reading->memory = NULL;
}
