/* check: reads files one after the other, and says of each what became of it. */
#include <stdio.h>
#include <stdlib.h>
#include <string.h>

#include "paths.h"
#include "progress.h"
#include "report.h"

struct options {
    bool json, quiet;
    const char *pattern;
};

static void count_file(struct total *total, const struct reading *reading)
{
    total->files++;
    if (reading->problem[0] != '\0')
        total->unread++;
    else if (reading->reply.number == PISTROVELLE_ACCEPTED)
        total->accepted++;
    else
        total->refused++;
}

static void report(const struct options *options, const char *name, const struct reading *reading)
{
    bool is_accepted = reading->problem[0] == '\0' && reading->reply.number == PISTROVELLE_ACCEPTED;
    if (options->quiet && is_accepted)
        return;
    progress_clear();
    (options->json ? report_json : report_line)(stdout, name, reading);
}

static void check_path(const struct options *options, const struct path *path, struct total *total)
{
    struct reading reading;
    if (path->problem != NULL) {
        memset(&reading, 0, sizeof reading);
        snprintf(reading.problem, sizeof reading.problem, "%s", path->problem);
    } else {
        read_path(&reading, path->name);
    }
    report(options, path->name, &reading);
    count_file(total, &reading);
    reading_close(&reading);
}

static int status_of(const struct total *total)
{
    if (total->unread > 0)
        return NOT_DONE;
    return total->refused > 0 ? SOME_REFUSED : ALL_ACCEPTED;
}

static int check_paths(const struct options *options, const struct paths *paths)
{
    struct total total = {0, 0, 0, 0, paths->left_out};
    struct progress progress = {0, paths->count, 0, paths->bytes};
    size_t i;
    for (i = 0; i < paths->count && flush_output(); i++) {
        progress_show(&progress, paths->items[i].name, paths->items[i].size);
        check_path(options, &paths->items[i], &total);
        progress.files++;
        progress.bytes += paths->items[i].size;
    }
    progress_clear();
    (options->json ? report_total_json : report_total)(stdout, &total);
    return close_output(status_of(&total));
}

int check_command(int count, char **words)
{
    struct options options = {false, false, NULL};
    const struct option known[] = {{"--json", &options.json, NULL}, {"--quiet", &options.quiet, NULL}, {"--name", NULL, &options.pattern}};
    struct paths paths = {NULL, 0, 0, 0, 0};
    int i, status, left = take_options("check", count, words, known, sizeof known / sizeof *known);
    if (left < 0)
        return NOT_DONE;
    if (left == 0)
        return wrong_usage("check which files?");
    for (i = 0; i < left; i++)
        paths_add(&paths, words[i], options.pattern);
    status = check_paths(&options, &paths);
    paths_free(&paths);
    return status;
}
