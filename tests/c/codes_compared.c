/*
 * Compares which codes the archive takes with the independent implementation. Standard input is a stream of records
 * (tests/reference/src/compared/taken.rs): questions, each with the answer that is due. Every difference is told; status 1 if there was
 * one, 2 for a stream that is broken.
 */
#include "due.h"
#include "pistrovelle.h"
#include "stream.h"

static size_t taken;

static char printable(uint32_t byte)
{
    return byte >= 32 && byte <= 126 ? (char)byte : '?';
}

static void due_answer(size_t system, uint32_t code, bool due, bool came)
{
    comparisons++;
    if (due != came && difference_is_told())
        printf("taken: system %zu, code %08" PRIx32 " %c%c%c: due %d, came %d\n", system, code, printable(code >> 16 & 255),
            printable(code >> 8 & 255), printable(code & 255), due, came);
}

/* K: whether a code is taken under a system. */
static void take_question(struct record *r)
{
    size_t system;
    uint32_t code;
    bool due, came;
    if (take_byte(r) != 'K')
        stream_broken("an operation");
    system = take_number(r);
    code = (uint32_t)take_number(r);
    due = take_number(r) == 1;
    came = pistrovelle_is_taken(system, code);
    due_answer(system, code, due, came);
    taken += came;
}

int main(void)
{
    struct record r = {NULL, 0, 0, 0};
    while (record_next(&r)) {
        compared_seed = take_number(&r);
        while (record_more(&r))
            take_question(&r);
    }
    printf("%zu questions, %zu taken, %zu differences\n", comparisons, taken, differences);
    return differences > 0;
}
