/* A line on standard error that says how far the work has come. */
#include "progress.h"

#include <stdbool.h>
#include <stdio.h>
#include <sys/ioctl.h>
#include <time.h>
#include <unistd.h>

#include "show.h"

static bool is_shown;

/* Seconds since the first call. */
static double seconds(void)
{
    static double first = -1;
    struct timespec now;
    double moment;
    clock_gettime(CLOCK_MONOTONIC, &now);
    moment = (double)now.tv_sec + (double)now.tv_nsec / 1e9;
    if (first < 0)
        first = moment;
    return moment - first;
}

/* At most five times a second, so that many small files don't wait for the terminal. */
static bool is_time(uint64_t size)
{
    static double last = -1;
    double now = seconds();
    bool is_long = now >= 1 || size >= 64000000;
    if (!is_long || now - last < 0.2)
        return false;
    last = now;
    return true;
}

/* How many columns the terminal has; 80 where it doesn't say. */
static size_t width(void)
{
    struct winsize size;
    return ioctl(STDERR_FILENO, TIOCGWINSZ, &size) == 0 && size.ws_col > 0 ? size.ws_col : 80;
}

/* The last column stays free, so that no terminal goes to the next line. */
void progress_show(const struct progress *progress, const char *next, uint64_t size)
{
    char far[128];
    size_t columns, used;
    if (!isatty(STDERR_FILENO) || !is_time(size))
        return;
    columns = width() - 1;
    snprintf(far, sizeof far, "%zu of %zu %s, %.1f of %.1f MB: ", progress->files, progress->all_files,
        progress->all_files == 1 ? "file" : "files", (double)progress->bytes / 1e6, (double)progress->all_bytes / 1e6);
    fputs("\r\033[K", stderr);
    used = show_within(stderr, far, columns);
    show_within(stderr, next, columns - used);
    fflush(stderr);
    is_shown = true;
}

void progress_clear(void)
{
    if (!is_shown)
        return;
    fputs("\r\033[K", stderr);
    fflush(stderr);
    is_shown = false;
}
