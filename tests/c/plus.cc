// The header and the archive from C++: reads the text of standard input and writes its normal text. With a code as its word: the systems under
// which it is taken, and what each row holds for that code, row by row, and one row past the last; then system by system, and where there is
// room for no row.
#include <cstdio>
#include <string>
#include <vector>

#include "pistrovelle.h"

static void put_answer(const char *asked, std::size_t row, unsigned kind, double value)
{
    std::printf("%s %zu: %s, %.3f\n", asked, row, pistrovelle_kind_words(kind), value);
}

static void put_systems(std::uint32_t code)
{
    std::string letters;
    for (std::size_t system = 0; system <= PISTROVELLE_SYSTEMS; system++) {
        const bool is_taken = pistrovelle_is_taken(system, code);
        if (is_taken)
            letters.push_back(PISTROVELLE_LETTERS[system]);
    }
    std::printf("taken: %s\n", letters.c_str());
}

static void put_slots(const pistrovelle_read_reply &reply, const pistrovelle_tables &tables, std::uint32_t code)
{
    for (std::size_t row = 0; row <= reply.counts.rows; row++) {
        const pistrovelle_slot_reply slot = pistrovelle_slot_from(&reply.head, &reply.counts, &tables, row, code);
        put_answer("slot", row, slot.kind, slot.value);
    }
}

static void put_column(const pistrovelle_read_reply &reply, const pistrovelle_tables &tables, std::size_t system, std::uint32_t code)
{
    std::vector<std::uint8_t> kinds(reply.counts.rows);
    std::vector<double> floats(reply.counts.rows);
    const pistrovelle_column_reply none =
        pistrovelle_column_from(&reply.head, &reply.counts, &tables, system, code, kinds.data(), floats.data(), 0);
    const pistrovelle_column_reply column =
        pistrovelle_column_from(&reply.head, &reply.counts, &tables, system, code, kinds.data(), floats.data(), kinds.size());
    std::printf("column %c: %zu, %zu rows; without room %zu, %zu rows\n", PISTROVELLE_LETTERS[system], column.number, column.count,
        none.number, none.count);
    for (std::size_t row = 0; row < column.count; row++)
        put_answer("column", row, kinds[row], floats[row]);
}

static void put_code(const pistrovelle_read_reply &reply, const pistrovelle_tables &tables, std::uint32_t code)
{
    put_systems(code);
    put_slots(reply, tables, code);
    for (std::size_t system = 0; system < PISTROVELLE_SYSTEMS; system++) {
        if (reply.head.lengths[system] > 0)
            put_column(reply, tables, system, code);
    }
}

static int put_normal(const pistrovelle_read_reply &reply, const pistrovelle_tables &tables, std::size_t room)
{
    std::string normal(room, ' ');
    const pistrovelle_write_reply written =
        pistrovelle_write_from(&reply.head, &reply.counts, &tables, &normal[0], normal.size(), 0);
    std::fwrite(normal.data(), 1, written.count, stdout);
    return written.number == PISTROVELLE_ACCEPTED ? 0 : 1;
}

int main(int count, char **words)
{
    std::string text;
    for (int c; (c = std::getchar()) != EOF;)
        text.push_back(static_cast<char>(c));
    const pistrovelle_room room = pistrovelle_room_for(text.data(), text.size());
    std::vector<std::uint64_t> memory(pistrovelle_bytes(room) / 8 + 1);
    const pistrovelle_tables tables = pistrovelle_lay(memory.data(), room);
    const pistrovelle_read_reply reply = pistrovelle_read_into(text.data(), text.size(), &tables);
    if (reply.number != PISTROVELLE_ACCEPTED) {
        std::printf("%zu %zu %s\n", reply.number, reply.line, pistrovelle_words(reply.number));
        return 1;
    }
    if (count < 2)
        return put_normal(reply, tables, text.size());
    put_code(reply, tables, pistrovelle_code(words[1]));
    return 0;
}
