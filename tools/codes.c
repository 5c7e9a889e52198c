/* The codes that a file declares. */
#include <stdio.h>

#include "codes.h"
#include "listed.h"
#include "show.h"

struct code_letters code_letters(uint32_t code)
{
    struct code_letters letters = {{(char)(code >> 16), (char)(code >> 8), (char)code, '\0'}};
    size_t count = 3;
    while (count > 0 && letters.text[count - 1] == ' ')
        letters.text[--count] = '\0';
    return letters;
}

size_t code_place(const struct reading *reading, size_t system, uint32_t code)
{
    const uint32_t *list = reading->tables.codes + PISTROVELLE_LIST * system;
    size_t place = 0;
    while (place < reading->reply.head.lengths[system] && list[place] != code)
        place++;
    return place;
}

bool is_declared(const struct reading *reading, size_t system, uint32_t code)
{
    return code_place(reading, system, code) < reading->reply.head.lengths[system];
}

int none_declares(const struct reading *reading, const char *path, uint32_t code)
{
    const char *before = "; declared are ";
    size_t system, i;
    fputs("pistrovelle: ", stderr);
    show_name(stderr, path);
    fprintf(stderr, ": no system declares %s", code_letters(code).text);
    if (systems_of(code).text[0] == '\0')
        fputs(", which no table of RINEX 3.03 has", stderr);
    for (system = 0; system < PISTROVELLE_SYSTEMS; system++) {
        const uint32_t *list = reading->tables.codes + PISTROVELLE_LIST * system;
        if (reading->reply.head.lengths[system] == 0)
            continue;
        fprintf(stderr, "%s%c:", before, PISTROVELLE_LETTERS[system]);
        for (i = 0; i < reading->reply.head.lengths[system]; i++)
            fprintf(stderr, " %s", code_letters(list[i]).text);
        before = ", ";
    }
    fputc('\n', stderr);
    return NOT_DONE;
}
