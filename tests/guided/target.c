/*
 * The guided comparison: libFuzzer finds texts by what they cover in the independent implementation, which makes the record of each; the
 * record goes to the comparison over the archive, a process of its own, which answers with one byte. COMPARED is the command for it.
 */
#include <errno.h>
#include <stddef.h>
#include <stdint.h>
#include <stdio.h>
#include <stdlib.h>
#include <unistd.h>

size_t guided_record(const uint8_t *text, size_t length, const uint8_t **made);
int LLVMFuzzerTestOneInput(const uint8_t *text, size_t length);

static int to_compared = -1, from_compared = -1;

static void need(int holds, const char *words)
{
    if (holds)
        return;
    fprintf(stderr, "%s\n", words);
    abort();
}

/* Starts the comparison, with pipes to and from it. */
static void start(void)
{
    const char *command = getenv("COMPARED");
    int in[2], out[2];
    need(command != NULL, "COMPARED is not set");
    need(pipe(in) == 0 && pipe(out) == 0, "no pipes");
    if (fork() == 0) {
        dup2(in[0], 0);
        dup2(out[1], 1);
        close(in[1]);
        close(out[0]);
        execl("/bin/sh", "sh", "-c", command, (char *)NULL);
        _exit(127);
    }
    close(in[0]);
    close(out[1]);
    to_compared = in[1];
    from_compared = out[0];
}

static void send_record(const uint8_t *record, size_t length)
{
    while (length > 0) {
        ssize_t sent = write(to_compared, record, length);
        if (sent < 0 && errno == EINTR)
            continue;
        need(sent > 0, "the comparison has ended");
        record += sent;
        length -= (size_t)sent;
    }
}

int LLVMFuzzerTestOneInput(const uint8_t *text, size_t length)
{
    const uint8_t *record;
    size_t size = guided_record(text, length, &record);
    char answer[4096];
    ssize_t got;
    if (to_compared < 0)
        start();
    send_record(record, size);
    do
        got = read(from_compared, answer, sizeof answer); /* libFuzzer's clock may interrupt it */
    while (got < 0 && errno == EINTR);
    need(got > 0, "the comparison has ended");
    if (got == 1 && answer[0] == '.')
        return 0;
    fwrite(answer, 1, (size_t)got, stderr);
    need(0, "a difference");
    return 0;
}
