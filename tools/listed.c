/* The codes that are taken, found by asking the archive for each: no table of them stands here. */
#include <string.h>

#include "listed.h"

const char *system_name(size_t system)
{
    static const char *const names[PISTROVELLE_SYSTEMS] = {"GPS", "GLONASS", "Galileo", "QZSS", "BeiDou", "IRNSS", "SBAS"};
    return names[system];
}

bool is_listed(size_t system, char type, char band, char attribute)
{
    char letters[4] = {type, band, attribute, '\0'};
    return pistrovelle_is_taken(system, pistrovelle_code(letters));
}

static void add_sign(struct signs *signs, char sign)
{
    size_t count = strlen(signs->text);
    signs->text[count] = sign;
    signs->text[count + 1] = '\0';
}

struct signs attributes_of(size_t system, char type, char band)
{
    struct signs signs = {""};
    const char *attribute;
    for (attribute = ATTRIBUTES; *attribute != '\0'; attribute++) {
        if (is_listed(system, type, band, *attribute))
            add_sign(&signs, *attribute);
    }
    return signs;
}

struct signs bands_of(size_t system, char type)
{
    struct signs signs = {""};
    const char *band;
    for (band = BANDS; *band != '\0'; band++) {
        if (is_listed(system, type, *band, BLANK_ATTRIBUTE))
            add_sign(&signs, *band);
    }
    return signs;
}

struct signs systems_of(uint32_t code)
{
    struct signs signs = {""};
    size_t system;
    for (system = 0; system < PISTROVELLE_SYSTEMS; system++) {
        if (pistrovelle_is_taken(system, code))
            add_sign(&signs, PISTROVELLE_LETTERS[system]);
    }
    return signs;
}
