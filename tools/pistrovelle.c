/* The command: reads its first word, and hands the others on. */
#include <errno.h>
#include <fcntl.h>
#include <signal.h>
#include <stdio.h>
#include <stdlib.h>
#include <string.h>
#include <unistd.h>

#include "command.h"

static const char help[] =
    "pistrovelle: observation files of RINEX 3.03, read and written by proved code\n"
    "\n"
    "  pistrovelle check [--json] [--quiet] [--name PATTERN] FILE|FOLDER..\n"
    "      one line for each file: accepted, with its counts, or refused, with the rule's number, the line, the\n"
    "      rule's words and the line itself; a total at the end. A folder stands for every file in it and below.\n"
    "        --json           for machines: a JSON object on each line\n"
    "        --quiet          only files that aren't accepted, and the total\n"
    "        --name PATTERN   of a folder's files only those of such a name, as '*.rnx'; the total says how many were left out\n"
    "  pistrovelle normal FILE [-o OUT]\n"
    "      the file's one normal text, to standard output or to the file OUT, which is replaced whole or not at all\n"
    "  pistrovelle slots FILE CODE [-o OUT]\n"
    "      what the file holds for a code, as C1C: time, satellite, kind (metres, cycles, hertz, strength or blank), value, the\n"
    "      marks of loss of lock and strength, and the epoch's flag (0, or 1 after a power failure) as CSV, a line for each row\n"
    "      whose system declares the code; a blank value or mark is empty. Status 2 where no system declares it.\n"
    "  pistrovelle codes [--json] [SYSTEM]\n"
    "      the codes that a file may declare, those of Tables 4 to 10 of RINEX 3.03, with a blank attribute too: a line for each\n"
    "      system and band, or for those of one system, by its letter, of GREJCIS; any other code in a file's list is refused with 6\n"
    "        --json           for machines: a JSON object on each line\n"
    "  pistrovelle explain [NUMBER]\n"
    "      what a refusal's number means; all of them where none is given\n"
    "  pistrovelle --help | --version\n"
    "\n"
    "A value printed as zero, as 0.000, is a missing observation: it is blank in counts, normal texts and slots. A mark of 0 stays.\n"
    "A FILE of - is standard input, and an OUT of - standard output; behind -- no word is an option.\n"
    "Exit status: 0 accepted, 1 refused, 2 wrong usage, or something could not be read or written.\n";

void *take_memory(void *old, size_t size)
{
    void *memory = realloc(old, size);
    if (memory == NULL)
        exit(complain("no memory is left"));
    return memory;
}

/* Why something that was printed has not arrived; 0 where all has. */
static int lost;

bool flush_output(void)
{
    if (lost == 0 && fflush(stdout) != 0)
        lost = errno;
    return lost == 0 && !ferror(stdout);
}

int close_output(int status)
{
    if (flush_output())
        return status;
    return complain("standard output: %s", lost != 0 ? strerror(lost) : "not all could be written");
}

static int print(const char *text)
{
    fputs(text, stdout);
    return close_output(ALL_ACCEPTED);
}

static bool is_help(const char *word)
{
    return strcmp(word, "--help") == 0 || strcmp(word, "-h") == 0;
}

static int run(const char *task, int count, char **words)
{
    if (is_help(task) || strcmp(task, "help") == 0 || (count == 1 && is_help(words[0])))
        return print(help);
    if (strcmp(task, "check") == 0)
        return check_command(count, words);
    if (strcmp(task, "normal") == 0)
        return normal_command(count, words);
    if (strcmp(task, "slots") == 0)
        return slots_command(count, words);
    if (strcmp(task, "codes") == 0)
        return codes_command(count, words);
    if (strcmp(task, "explain") == 0)
        return explain_command(count, words);
    if (strcmp(task, "--version") == 0)
        return print("pistrovelle " PISTROVELLE_VERSION "\n");
    return wrong_usage("there is no command '%s'", task);
}

/* Of files 0 to 2 those that are closed are opened so that they can't be used, and no other file gets their numbers. */
static bool hold_standard_files(void)
{
    int file;
    for (file = 0; file <= 2; file++) {
        if (fcntl(file, F_GETFD) < 0 && open("/dev/null", file == STDIN_FILENO ? O_WRONLY : O_RDONLY) != file)
            return false;
    }
    return true;
}

int main(int count, char **words)
{
    if (!hold_standard_files())
        return NOT_DONE;
    signal(SIGXFSZ, SIG_IGN);
    if (count < 2)
        return wrong_usage("which command?");
    return run(words[1], count - 2, words + 2);
}
