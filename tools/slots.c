/* slots: what a file holds for one code, row by row, as CSV. */
#include <errno.h>
#include <stdio.h>
#include <stdlib.h>
#include <string.h>
#include <sys/stat.h>

#include "codes.h"
#include "listed.h"
#include "output.h"
#include "report.h"

struct question {
    const char *path, *out;
    uint32_t code;
};

/* An answer for each row. */
struct answers {
    uint8_t *kinds;
    double *floats;
};

static struct answers take_answers(size_t rows)
{
    struct answers answers = {take_memory(NULL, rows + 1), take_memory(NULL, (rows + 1) * sizeof(double))};
    return answers;
}

static void free_answers(struct answers *answers)
{
    free(answers->kinds);
    free(answers->floats);
}

/* The answers for one system, of which those of its own rows are kept. */
static size_t ask_system(const struct reading *reading, size_t system, uint32_t code, const struct answers *one, const struct answers *all)
{
    size_t row, rows = reading->reply.counts.rows;
    pistrovelle_column_reply reply = pistrovelle_column_from(
        &reading->reply.head, &reading->reply.counts, &reading->tables, system, code, one->kinds, one->floats, rows);
    for (row = 0; row < reply.count; row++) {
        if (reading->tables.satellites[row] / 100u == system) {
            all->kinds[row] = one->kinds[row];
            all->floats[row] = one->floats[row];
        }
    }
    return reply.number;
}

static bool has_rows(const struct reading *reading, size_t system)
{
    size_t row;
    for (row = 0; row < reading->reply.counts.rows; row++) {
        if (reading->tables.satellites[row] / 100u == system)
            return true;
    }
    return false;
}

/* Asks once for each system that declares the code and has rows, since each call judges all tables anew; and once where those that
   declare it have none, so that a refusal is seen all the same. Says where none declares it, or where there is a refusal. */
static int ask(const struct reading *reading, const struct question *question, const struct answers *all)
{
    size_t system, declaring = PISTROVELLE_SYSTEMS, number = PISTROVELLE_ACCEPTED, rows = reading->reply.counts.rows;
    struct answers one = take_answers(rows);
    bool is_asked = false;
    memset(all->kinds, PISTROVELLE_NOT_DECLARED, rows);
    for (system = 0; system < PISTROVELLE_SYSTEMS && number == PISTROVELLE_ACCEPTED; system++) {
        if (!is_declared(reading, system, question->code))
            continue;
        declaring = system;
        if (has_rows(reading, system)) {
            is_asked = true;
            number = ask_system(reading, system, question->code, &one, all);
        }
    }
    if (declaring < PISTROVELLE_SYSTEMS && !is_asked)
        number = ask_system(reading, declaring, question->code, &one, all);
    free_answers(&one);
    if (number != PISTROVELLE_ACCEPTED)
        return complain("the slots: refusal %zu: %s", number, pistrovelle_words(number));
    return declaring < PISTROVELLE_SYSTEMS ? ALL_ACCEPTED : none_declares(reading, question->path, question->code);
}

/* The date and time of day, as 2024-12-31T23:59:30.0000000: the digits are those of the epoch's own record, columns 3 to 29 of the normal
   text of an epoch without rows. */
struct moment {
    char text[28];
};

/* Puts the signs of ISO 8601 between the digits, and a 0 where a second below 10 has a blank before it. */
static void put_signs(char *text)
{
    text[4] = text[7] = '-';
    text[10] = 'T';
    text[13] = text[16] = ':';
    if (text[17] == ' ')
        text[17] = '0';
}

static struct moment moment_of(uint64_t time)
{
    pistrovelle_lengths lengths = {{1, 0, 0, 0, 0, 0, 0}};
    pistrovelle_epoch epoch = {PISTROVELLE_GIVEN, time, 0, 0, PISTROVELLE_NOT_GIVEN, 0};
    uint32_t list = pistrovelle_code("C1C");
    uint8_t line[128] = "";
    struct moment moment;
    pistrovelle_write_epoch(lengths, epoch, &list, 1, NULL, 0, NULL, 0, NULL, 0, NULL, 0, NULL, 0, NULL, 0, line, sizeof line, 0);
    memcpy(moment.text, line + 2, 27);
    moment.text[27] = '\0';
    put_signs(moment.text);
    return moment;
}

/* A mark is one digit, and empty where it is blank. */
static void put_mark(FILE *csv, uint8_t mark)
{
    fputc(',', csv);
    if (mark != PISTROVELLE_BLANK_MARK)
        fputc('0' + mark, csv);
}

/* A row and its slot, with the epoch's flag. A value is below 1e10 and the nearest float to its thousandths, so that three decimals are
   exactly those held, and never 0.000. */
static void put_row(
    FILE *csv, const struct moment *moment, const pistrovelle_tables *t, const struct answers *all, pistrovelle_place place, size_t slot)
{
    uint16_t satellite = t->satellites[place.row];
    uint8_t kind = all->kinds[place.row];
    const char *words = pistrovelle_kind_words(kind);
    fprintf(csv, "%s,%c%02u,%s,", moment->text, PISTROVELLE_LETTERS[satellite / 100u], satellite % 100u, words == NULL ? "" : words);
    if (kind != PISTROVELLE_BLANK)
        fprintf(csv, "%.3f", all->floats[place.row]);
    put_mark(csv, t->losses[slot]);
    put_mark(csv, t->strengths[slot]);
    fprintf(csv, ",%u\n", t->flags[place.epoch]);
}

/* The rows of the epoch at this place whose systems declare the code; answers the next epoch's place. */
static pistrovelle_place put_epoch(
    FILE *csv, const struct reading *reading, uint32_t code, const struct answers *all, pistrovelle_place place)
{
    const pistrovelle_head *head = &reading->reply.head;
    const pistrovelle_tables *t = &reading->tables;
    pistrovelle_place next = pistrovelle_next_epoch(head, &reading->reply.counts, t, place);
    struct moment moment = moment_of(t->times[place.epoch]);
    for (; place.row < next.row; place.row++) {
        uint16_t satellite = t->satellites[place.row];
        if (all->kinds[place.row] != PISTROVELLE_NOT_DECLARED)
            put_row(csv, &moment, t, all, place, place.slot + code_place(reading, satellite / 100u, code));
        place.slot += pistrovelle_row_slots(head, satellite);
    }
    return next;
}

static void put_rows(FILE *csv, const struct reading *reading, uint32_t code, const struct answers *all)
{
    const pistrovelle_counts *counts = &reading->reply.counts;
    pistrovelle_place place = pistrovelle_first_epoch(&reading->reply.head, counts, &reading->tables);
    fputs("time,satellite,kind,value,loss,strength,flag\n", csv);
    while (place.epoch < counts->epochs && !ferror(csv))
        place = put_epoch(csv, reading, code, all, place);
}

/* A file is written once all of it is there. */
static int put_file(const struct reading *reading, const struct question *question, const struct answers *all)
{
    const char *out = question->out;
    char *text = NULL;
    size_t count = 0;
    FILE *csv = open_memstream(&text, &count);
    bool is_lost;
    int status;
    if (csv == NULL)
        return complain("%s: %s", out, strerror(errno));
    put_rows(csv, reading, question->code, all);
    is_lost = ferror(csv) != 0;
    if (fclose(csv) != 0 || is_lost)
        status = complain("%s: no memory is left", out);
    else
        status = put_text(out, text, count);
    free(text);
    return status;
}

/* Whether OUT is the file that was read, which its slots are not to replace. */
static bool is_itself(const char *out, const struct reading *reading)
{
    const struct stat *read = &reading->text.as_opened;
    struct stat about;
    return out != NULL && stat(out, &about) == 0 && S_ISREG(about.st_mode) && about.st_dev == read->st_dev && about.st_ino == read->st_ino;
}

static int put_slots(const struct reading *reading, const struct question *question)
{
    struct answers all = take_answers(reading->reply.counts.rows);
    int status = ask(reading, question, &all);
    if (status == ALL_ACCEPTED && question->out != NULL) {
        status = put_file(reading, question, &all);
    } else if (status == ALL_ACCEPTED) {
        put_rows(stdout, reading, question->code, &all);
        status = close_output(status);
    }
    free_answers(&all);
    return status;
}

static int slots_of(const struct question *question)
{
    struct reading reading;
    int status;
    read_path(&reading, question->path);
    if (reading.problem[0] != '\0' || reading.reply.number != PISTROVELLE_ACCEPTED)
        status = report_failure(question->path, &reading);
    else if (is_itself(question->out, &reading))
        status = complain("%s: this is the file itself, which its slots are not to replace", question->out);
    else
        status = put_slots(&reading, question);
    reading_close(&reading);
    return status;
}

/* A type, a band, and an attribute, a blank or nothing. Whether any system has such a code is not asked here. */
static bool has_form(const char *letters)
{
    size_t count = strlen(letters);
    return (count == 2 || count == 3) && strchr(TYPES, letters[0]) != NULL && strchr(BANDS, letters[1]) != NULL
        && (count == 2 || letters[2] == BLANK_ATTRIBUTE || strchr(ATTRIBUTES, letters[2]) != NULL);
}

int slots_command(int count, char **words)
{
    struct question question = {NULL, NULL, 0};
    int left = take_out("slots", count, words, &question.out);
    if (left < 0)
        return NOT_DONE;
    if (left < 2)
        return wrong_usage("the slots of which file, and of which code?");
    if (left > 2)
        return wrong_usage("slots takes one file and one code, and '%s' is a third word", words[2]);
    if (!has_form(words[1]))
        return wrong_usage("'%s' is no code: C, L, D or S, a digit 1-9, and A-Z or nothing", words[1]);
    question.path = words[0];
    question.code = pistrovelle_code(words[1]);
    return slots_of(&question);
}
