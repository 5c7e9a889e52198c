/* normal: a file's one normal text. */
#include <stdlib.h>

#include "output.h"
#include "report.h"

/* No line of the normal text is longer than the line that was read. */
static int put_normal(const struct reading *reading, const char *out)
{
    size_t room = reading->text.length;
    void *text = take_memory(NULL, room);
    pistrovelle_write_reply reply =
        pistrovelle_write_from(&reading->reply.head, &reading->reply.counts, &reading->tables, text, room, 0);
    int status;
    if (reply.number != PISTROVELLE_ACCEPTED)
        status = complain("the normal text: refusal %zu: %s", reply.number, pistrovelle_words(reply.number));
    else
        status = put_text(out, text, reply.count);
    free(text);
    return status;
}

static int normal_of(const char *path, const char *out)
{
    struct reading reading;
    int status;
    read_path(&reading, path);
    if (reading.problem[0] == '\0' && reading.reply.number == PISTROVELLE_ACCEPTED)
        status = put_normal(&reading, out);
    else
        status = report_failure(path, &reading);
    reading_close(&reading);
    return status;
}

int normal_command(int count, char **words)
{
    const char *out = NULL;
    int left = take_out("normal", count, words, &out);
    if (left < 0)
        return NOT_DONE;
    if (left > 1)
        return wrong_usage("normal takes one file, and '%s' is a second", words[1]);
    return left == 0 ? wrong_usage("the normal text of which file?") : normal_of(words[0], out);
}
