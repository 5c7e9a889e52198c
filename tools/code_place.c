/* A code of a list that isn't taken under the list's system, which is refused with 6: what the system has instead, and who has the code. */
#include <string.h>

#include "codes.h"
#include "list_place.h"
#include "listed.h"

/* As "1, 2 and 5". */
static void say_joined(struct signs signs, struct faulty *faulty)
{
    size_t i, count = strlen(signs.text);
    for (i = 0; i < count; i++)
        note_more(faulty, "%s%c", i == 0 ? "" : i + 1 < count ? ", " : " and ", signs.text[i]);
}

/* As "C1C C1L C1M, and C1 with a blank attribute". */
static void say_codes(char type, char band, struct signs attributes, struct faulty *faulty)
{
    const char *attribute;
    for (attribute = attributes.text; *attribute != '\0'; attribute++)
        note_more(faulty, "%c%c%c%s", type, band, *attribute, attribute[1] == '\0' ? "" : " ");
    note_more(faulty, ", and %c%c with a blank attribute", type, band);
}

/* What a system has in the place of a code: its codes of the same type and band, else the bands of that type, which is one. */
static void say_instead(size_t system, uint32_t code, struct faulty *faulty)
{
    char type = (char)(code >> 16), band = (char)(code >> 8);
    struct signs attributes = attributes_of(system, type, band);
    note_more(faulty, " of %s (%c), which has ", system_name(system), PISTROVELLE_LETTERS[system]);
    if (attributes.text[0] != '\0') {
        say_codes(type, band, attributes, faulty);
    } else {
        note_more(faulty, "bands ");
        say_joined(bands_of(system, type), faulty);
    }
}

/* As "; systems E and J have it"; nothing where no system has the code. */
static void say_who_has(uint32_t code, struct faulty *faulty)
{
    struct signs systems = systems_of(code);
    bool is_one = systems.text[0] != '\0' && systems.text[1] == '\0';
    if (systems.text[0] == '\0')
        return;
    note_more(faulty, is_one ? "; system " : "; systems ");
    say_joined(systems, faulty);
    note_more(faulty, is_one ? " has it" : " have it");
}

void place_code(size_t system, uint32_t code, size_t number, size_t column, struct faulty *faulty)
{
    static const struct signs types = {TYPES};
    note_place(faulty, column, "code %zu (%s), columns %zu-%zu, is no code", number, code_letters(code).text, column, column + CODE_COLUMNS - 1);
    if (bands_of(system, (char)(code >> 16)).text[0] != '\0') {
        say_instead(system, code, faulty);
        say_who_has(code, faulty);
    } else {
        note_more(faulty, ": it begins with none of ");
        say_joined(types, faulty);
    }
}
