/*
 * The first program of the guest: runs the program that /words names, a word to a line, in /files, with the second serial port as its
 * output, writes its status behind it, and turns the machine off.
 */
#include <fcntl.h>
#include <stdio.h>
#include <string.h>
#include <sys/mount.h>
#include <sys/reboot.h>
#include <sys/stat.h>
#include <sys/wait.h>
#include <termios.h>
#include <unistd.h>

enum { MOST = 32, LONGEST = 4096 };

/* Splits the text at line ends into at most MOST words; NULL stands behind them. */
static void split(char *text, char *words[MOST + 1])
{
    int n = 0;
    for (char *w = strtok(text, "\n"); w && n < MOST; w = strtok(NULL, "\n"))
        words[n++] = w;
    words[n] = NULL;
}

/* The output, with no byte changed on its way. */
static int output(void)
{
    int port = open("/dev/ttyS1", O_RDWR | O_NOCTTY);
    struct termios how;
    if (port >= 0 && tcgetattr(port, &how) == 0) {
        cfmakeraw(&how);
        tcsetattr(port, TCSANOW, &how);
    }
    return port;
}

static int status_of(char *words[])
{
    int status = 0;
    pid_t child = fork();
    if (child == 0) {
        execv(words[0], words);
        _exit(127);
    }
    if (child < 0 || waitpid(child, &status, 0) != child)
        return 126;
    return WIFEXITED(status) ? WEXITSTATUS(status) : 128 + WTERMSIG(status);
}

int main(void)
{
    static char text[LONGEST];
    char *words[MOST + 1];
    mkdir("/proc", 0755);
    mkdir("/dev", 0755);
    mkdir("/tmp", 01777);
    mount("proc", "/proc", "proc", 0, NULL);
    mount("dev", "/dev", "devtmpfs", 0, NULL);
    int port = output(), list = open("/words", O_RDONLY);
    if (port >= 0 && list >= 0 && read(list, text, sizeof text - 1) > 0 && chdir("/files") == 0) {
        split(text, words);
        dup2(port, 1);
        dup2(port, 2);
        dprintf(port, "guest: status %d\n", words[0] ? status_of(words) : 125);
        tcdrain(port);
    }
    reboot(RB_POWER_OFF);
    return 1;
}
