/* A file's bytes in memory: mapped where that is possible, else read. */
#include <errno.h>
#include <fcntl.h>
#include <setjmp.h>
#include <signal.h>
#include <stdlib.h>
#include <string.h>
#include <sys/mman.h>
#include <unistd.h>

#include "command.h"
#include "text.h"

/* One more byte than a text may have is enough to refuse it. */
static const size_t most = (size_t)PISTROVELLE_LONGEST + 1;

static bool map_file(struct text *text)
{
    uint64_t size = (uint64_t)text->as_opened.st_size;
    size_t length = size < most ? (size_t)size : most;
    void *bytes = mmap(NULL, length, PROT_READ, MAP_PRIVATE, text->file, 0);
    if (bytes == MAP_FAILED)
        return false;
    text->bytes = bytes;
    text->length = length;
    text->mapped = true;
    return true;
}

/* Reads on into a buffer that grows, to the file's end. */
static const char *read_file(struct text *text)
{
    size_t room = 0;
    ssize_t count = 1;
    while (count != 0 && text->length < most) {
        uint8_t *bytes = (uint8_t *)text->bytes;
        if (text->length == room) {
            room = room == 0 ? 65536 : 2 * room < most ? 2 * room : most;
            bytes = realloc(bytes, room);
            if (bytes == NULL)
                return "it needs more memory than is left";
            text->bytes = bytes;
        }
        count = read(text->file, bytes + text->length, room - text->length);
        if (count < 0 && errno != EINTR)
            return strerror(errno);
        text->length += count > 0 ? (size_t)count : 0;
    }
    return NULL;
}

/* A file without a size may have bytes all the same, as a pipe has. Standard input is read and not mapped, since some of it may have been
   taken before, and since nothing of it is left afterwards. */
static const char *take_bytes(struct text *text)
{
    bool is_input = text->file == STDIN_FILENO;
    if (fstat(text->file, &text->as_opened) != 0)
        return strerror(errno);
    if (S_ISDIR(text->as_opened.st_mode))
        return strerror(EISDIR);
    if (!is_input && S_ISREG(text->as_opened.st_mode) && text->as_opened.st_size > 0 && map_file(text))
        return NULL;
    return read_file(text);
}

const char *name_problem(const char *name, int why)
{
    struct stat about;
    return why == ENOENT && lstat(name, &about) == 0 && S_ISLNK(about.st_mode) ? "a link to nothing" : strerror(why);
}

const char *text_open(struct text *text, const char *path)
{
    const char *problem;
    memset(text, 0, sizeof *text);
    text->file = strcmp(path, "-") == 0 ? STDIN_FILENO : open(path, O_RDONLY | O_NOCTTY | O_CLOEXEC);
    if (text->file < 0)
        return name_problem(path, errno);
    problem = take_bytes(text);
    if (problem != NULL)
        text_close(text);
    return problem;
}

struct line line_at(const struct text *text, size_t at)
{
    const uint8_t *bytes = text->bytes + at;
    size_t left = text->length - at;
    const uint8_t *end = left == 0 ? NULL : memchr(bytes, '\n', left);
    struct line line = {bytes, end == NULL ? left : (size_t)(end - bytes)};
    return line;
}

bool text_changed(const struct text *text)
{
    struct stat now;
    const struct stat *then = &text->as_opened;
    if (!text->mapped)
        return false;
    return fstat(text->file, &now) != 0 || now.st_size != then->st_size || now.st_mtim.tv_sec != then->st_mtim.tv_sec
        || now.st_mtim.tv_nsec != then->st_mtim.tv_nsec;
}

void text_close(struct text *text)
{
    if (text->mapped)
        munmap((void *)text->bytes, text->length);
    else
        free((void *)text->bytes);
    if (text->file > STDIN_FILENO)
        close(text->file);
    memset(text, 0, sizeof *text);
}

static sigjmp_buf back;

static void leave(int signal_number)
{
    (void)signal_number;
    siglongjmp(back, 1);
}

bool guarded(void (*work)(void *), void *with)
{
    struct sigaction ours, before;
    memset(&ours, 0, sizeof ours);
    ours.sa_handler = leave;
    sigemptyset(&ours.sa_mask);
    sigaction(SIGBUS, &ours, &before);
    if (sigsetjmp(back, 1) != 0) {
        sigaction(SIGBUS, &before, NULL);
        return false;
    }
    work(with);
    sigaction(SIGBUS, &before, NULL);
    return true;
}
