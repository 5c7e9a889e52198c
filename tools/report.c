/* What is printed of a file that was read: a line for people, or a JSON object. */
#include "report.h"

#include "show.h"

/* Epochs are those of flag 0 and 1, events the others; blank counts blank values, which printed zeros are too. */
struct found {
    size_t epochs, events, blank;
};

static struct found count_found(const struct reading *reading)
{
    const pistrovelle_counts *counts = &reading->reply.counts;
    struct found found = {0, 0, 0};
    size_t i;
    for (i = 0; i < counts->epochs; i++)
        found.epochs += reading->tables.flags[i] <= 1;
    for (i = 0; i < counts->slots; i++)
        found.blank += reading->tables.states[i] == PISTROVELLE_NOT_GIVEN;
    found.events = counts->epochs - found.epochs;
    return found;
}

static void accepted_line(FILE *out, const struct reading *reading)
{
    struct found found = count_found(reading);
    const pistrovelle_counts *counts = &reading->reply.counts;
    fprintf(out, "accepted: epochs %zu, events %zu, rows %zu, slots %zu, blank %zu, carried bytes %zu", found.epochs, found.events,
        counts->rows, counts->slots, found.blank, counts->carried);
}

static void refused_line(FILE *out, const struct reading *reading)
{
    const struct faulty *faulty = &reading->faulty;
    fprintf(out, "refused: number %zu, line %zu: %s", reading->reply.number, reading->reply.line,
        pistrovelle_words(reading->reply.number));
    if (faulty->place[0] != '\0') {
        fputs(": ", out);
        show_name(out, faulty->place);
    }
    if (!faulty->is_there)
        return;
    fputs(": ", out);
    if (faulty->count < faulty->width)
        fprintf(out, "columns %zu to %zu of %zu: ", faulty->from, faulty->from + faulty->count - 1, faulty->width);
    show_line(out, faulty->bytes, faulty->count);
}

void report_line(FILE *out, const char *name, const struct reading *reading)
{
    show_name(out, name);
    fputs(": ", out);
    if (reading->problem[0] != '\0')
        fprintf(out, "not read: %s", reading->problem);
    else if (reading->reply.number == PISTROVELLE_ACCEPTED)
        accepted_line(out, reading);
    else
        refused_line(out, reading);
    fputc('\n', out);
}

int report_failure(const char *name, const struct reading *reading)
{
    fputs("pistrovelle: ", stderr);
    report_line(stderr, name, reading);
    return reading->problem[0] == '\0' ? SOME_REFUSED : NOT_DONE;
}

void report_total(FILE *out, const struct total *total)
{
    fprintf(out, "%zu %s: %zu accepted, %zu refused, %zu not read", total->files, total->files == 1 ? "file" : "files",
        total->accepted, total->refused, total->unread);
    if (total->left_out > 0)
        fprintf(out, "; %zu left out by name", total->left_out);
    fputc('\n', out);
}

static void accepted_json(FILE *out, const struct reading *reading)
{
    struct found found = count_found(reading);
    const pistrovelle_counts *counts = &reading->reply.counts;
    fprintf(out, ",\"result\":\"accepted\",\"epochs\":%zu,\"events\":%zu,\"rows\":%zu,\"slots\":%zu,\"blank\":%zu,\"carried\":%zu",
        found.epochs, found.events, counts->rows, counts->slots, found.blank, counts->carried);
}

static void refused_json(FILE *out, const struct reading *reading)
{
    const struct faulty *faulty = &reading->faulty;
    fprintf(out, ",\"result\":\"refused\",\"number\":%zu,\"line\":%zu,\"rule\":", reading->reply.number, reading->reply.line);
    show_json(out, pistrovelle_words(reading->reply.number));
    if (faulty->is_there) {
        fprintf(out, ",\"width\":%zu,\"column\":%zu,\"text\":", faulty->width, faulty->from);
        show_json_line(out, faulty->bytes, faulty->count);
    }
    if (faulty->place[0] != '\0') {
        fputs(",\"place\":", out);
        show_json(out, faulty->place);
    }
    if (faulty->column > 0)
        fprintf(out, ",\"place_column\":%zu", faulty->column);
}

static void problem_json(FILE *out, const struct reading *reading)
{
    fputs(",\"result\":\"not read\",\"problem\":", out);
    show_json(out, reading->problem);
}

void report_json(FILE *out, const char *name, const struct reading *reading)
{
    fputs("{\"file\":", out);
    show_json(out, name);
    if (!is_utf8(name)) {
        fputs(",\"file_bytes\":", out);
        show_hex(out, name);
    }
    if (reading->problem[0] != '\0')
        problem_json(out, reading);
    else if (reading->reply.number == PISTROVELLE_ACCEPTED)
        accepted_json(out, reading);
    else
        refused_json(out, reading);
    fputs("}\n", out);
}

void report_total_json(FILE *out, const struct total *total)
{
    fprintf(out, "{\"result\":\"total\",\"files\":%zu,\"accepted\":%zu,\"refused\":%zu,\"not_read\":%zu,\"left_out\":%zu}\n",
        total->files, total->accepted, total->refused, total->unread, total->left_out);
}
