/* codes: the codes that are taken, a line for each system and band. */
#include <stdio.h>
#include <string.h>

#include "listed.h"

/* The systems that are asked for, and whether for machines. */
struct choice {
    size_t first, last;
    bool json;
};

/* Whether any type has this attribute in a band of a system. */
static bool has_attribute(size_t system, char band, char attribute)
{
    const char *type = TYPES;
    while (*type != '\0' && !is_listed(system, *type, band, attribute))
        type++;
    return *type != '\0';
}

/* The codes that a band lacks, though another type has their attribute. */
static void put_lacking(size_t system, char band)
{
    const char *attribute, *type, *before = ", but no";
    for (attribute = ATTRIBUTES; *attribute != '\0'; attribute++) {
        if (!has_attribute(system, band, *attribute))
            continue;
        for (type = TYPES; *type != '\0'; type++) {
            if (!is_listed(system, *type, band, *attribute)) {
                printf("%s %c%c%c", before, *type, band, *attribute);
                before = "";
            }
        }
    }
}

static void put_line(size_t system, char band)
{
    const char *attribute;
    printf("%c %-7s  %c ", PISTROVELLE_LETTERS[system], system_name(system), band);
    for (attribute = ATTRIBUTES; *attribute != '\0'; attribute++) {
        if (has_attribute(system, band, *attribute))
            printf(" %c", *attribute);
    }
    put_lacking(system, band);
    putchar('\n');
}

/* Every code of a band; where its attribute is blank, it has two letters. */
static void put_json(size_t system, char band)
{
    const char *type, *attribute, *before = "";
    printf("{\"system\":\"%c\",\"name\":\"%s\",\"band\":%c,\"codes\":[", PISTROVELLE_LETTERS[system], system_name(system), band);
    for (type = TYPES; *type != '\0'; type++) {
        if (is_listed(system, *type, band, BLANK_ATTRIBUTE)) {
            printf("%s\"%c%c\"", before, *type, band);
            before = ",";
        }
        for (attribute = ATTRIBUTES; *attribute != '\0'; attribute++) {
            if (is_listed(system, *type, band, *attribute))
                printf(",\"%c%c%c\"", *type, band, *attribute);
        }
    }
    puts("]}");
}

static int put_systems(const struct choice *choice)
{
    const char *band;
    size_t system;
    if (!choice->json)
        puts("Codes of RINEX 3.03, Tables 4 to 10: a type (C, L, D or S), a band, and one of its attributes or a blank. By system and band:");
    for (system = choice->first; system <= choice->last; system++) {
        for (band = BANDS; *band != '\0'; band++) {
            if (has_attribute(system, *band, BLANK_ATTRIBUTE))
                (choice->json ? put_json : put_line)(system, *band);
        }
    }
    return close_output(ALL_ACCEPTED);
}

int codes_command(int count, char **words)
{
    struct choice choice = {0, PISTROVELLE_SYSTEMS - 1, false};
    const struct option json = {"--json", &choice.json, NULL};
    int left = take_options("codes", count, words, &json, 1);
    if (left < 0)
        return NOT_DONE;
    if (left > 1)
        return wrong_usage("codes takes one system, and '%s' is a second", words[1]);
    if (left == 1) {
        choice.first = choice.last = strlen(words[0]) == 1 ? pistrovelle_system((uint8_t)words[0][0]) : PISTROVELLE_SYSTEMS;
        if (choice.first == PISTROVELLE_SYSTEMS)
            return wrong_usage("'%s' is no system's letter, which is one of " PISTROVELLE_LETTERS, words[0]);
    }
    return put_systems(&choice);
}
