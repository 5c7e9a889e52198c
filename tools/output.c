/* Bytes into a file that is replaced whole or not at all, or to standard output. */
#include "output.h"

#include <errno.h>
#include <fcntl.h>
#include <limits.h>
#include <signal.h>
#include <stdint.h>
#include <stdio.h>
#include <stdlib.h>
#include <string.h>
#include <sys/stat.h>
#include <unistd.h>

#include "command.h"

bool write_all(int file, const void *bytes, size_t count)
{
    const uint8_t *next = bytes;
    while (count > 0) {
        ssize_t done = write(file, next, count < (1u << 30) ? count : 1u << 30);
        if (done < 0 && errno != EINTR)
            return false;
        next += done > 0 ? done : 0;
        count -= done > 0 ? (size_t)done : 0;
    }
    return true;
}

/* The file that is being written, so that a signal that ends the program can remove it. */
static char beside[PATH_MAX + 16];

static void remove_and_end(int signal_number)
{
    if (beside[0] != '\0')
        unlink(beside);
    signal(signal_number, SIG_DFL);
    raise(signal_number);
}

static void on_ending_signals(void (*handler)(int))
{
    static const int ending[] = {SIGHUP, SIGINT, SIGTERM};
    size_t i;
    for (i = 0; i < sizeof ending / sizeof *ending; i++) {
        if (signal(ending[i], handler) == SIG_IGN)
            signal(ending[i], SIG_IGN);
    }
}

/* What a new file may be, where none is there whose rights it takes over. */
static mode_t usual_mode(void)
{
    mode_t mask = umask(0);
    umask(mask);
    return 0666 & ~mask;
}

/* The folder of a name, so that its entry can be brought to the disk as well. */
static void keep_folder(const char *name)
{
    char folder[PATH_MAX];
    char *slash;
    int file;
    snprintf(folder, sizeof folder, "%s", name);
    slash = strrchr(folder, '/');
    if (slash == NULL)
        strcpy(folder, ".");
    else
        slash[slash == folder ? 1 : 0] = '\0';
    file = open(folder, O_RDONLY | O_DIRECTORY | O_CLOEXEC);
    if (file >= 0) {
        fsync(file);
        close(file);
    }
}

/* Writes the file beside, and gives it the name. */
static bool put_beside(int file, const char *name, mode_t mode, const void *bytes, size_t count)
{
    bool done = write_all(file, bytes, count) && fchmod(file, mode) == 0 && fsync(file) == 0;
    int why = errno;
    if (close(file) != 0 && done) {
        done = false;
        why = errno;
    }
    if (done && rename(beside, name) != 0) {
        done = false;
        why = errno;
    }
    if (!done)
        unlink(beside);
    errno = why;
    return done;
}

static bool replace_plain(const char *name, mode_t mode, const void *bytes, size_t count)
{
    bool done = false;
    int file;
    if ((size_t)snprintf(beside, sizeof beside, "%s.XXXXXX", name) >= PATH_MAX) {
        beside[0] = '\0';
        errno = ENAMETOOLONG;
        return false;
    }
    on_ending_signals(remove_and_end);
    file = mkstemp(beside);
    if (file >= 0)
        done = put_beside(file, name, mode, bytes, count);
    beside[0] = '\0';
    on_ending_signals(SIG_DFL);
    if (done)
        keep_folder(name);
    return done;
}

static bool write_through(const char *name, const void *bytes, size_t count)
{
    int file = open(name, O_WRONLY | O_NOCTTY | O_CLOEXEC);
    bool done;
    if (file < 0)
        return false;
    done = write_all(file, bytes, count);
    return close(file) == 0 && done;
}

bool replace_file(const char *name, const void *bytes, size_t count)
{
    struct stat about;
    char real[PATH_MAX];
    if (stat(name, &about) != 0)
        return errno == ENOENT && replace_plain(name, usual_mode(), bytes, count);
    if (!S_ISREG(about.st_mode))
        return write_through(name, bytes, count);
    return realpath(name, real) != NULL && replace_plain(real, about.st_mode & 07777, bytes, count);
}

int put_text(const char *out, const void *text, size_t count)
{
    if (out == NULL && write_all(STDOUT_FILENO, text, count) && close(STDOUT_FILENO) == 0)
        return ALL_ACCEPTED;
    if (out == NULL)
        return complain("standard output: %s", strerror(errno));
    return replace_file(out, text, count) ? ALL_ACCEPTED : complain("%s: %s", out, strerror(errno));
}
