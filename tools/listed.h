/* The codes that are taken, found by asking the archive for each: no table of them stands here. */
#ifndef LISTED_H
#define LISTED_H

#include "command.h"

/* What is asked for: the types, the bands and the attributes that a code may have, which may be blank as well. */
#define TYPES "CLDS"
#define BANDS "123456789"
#define ATTRIBUTES "ABCDEFGHIJKLMNOPQRSTUVWXYZ"

enum { BLANK_ATTRIBUTE = ' ' };

/* What a system is called, as GPS. */
const char *system_name(size_t system);

/* Whether the code of a type, a band and an attribute is taken under a system. */
bool is_listed(size_t system, char type, char band, char attribute);

/* Some letters or digits in their order, each once. */
struct signs {
    char text[32];
};

/* The attributes of a type and band under a system, a blank one not among them; none where they are not the system's. */
struct signs attributes_of(size_t system, char type, char band);

/* The bands of a type under a system; none where it is no type. */
struct signs bands_of(size_t system, char type);

/* The letters of the systems under which a code is taken. */
struct signs systems_of(uint32_t code);

#endif
