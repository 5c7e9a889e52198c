/* The words of a call, and messages about them and about what became of it. */
#include <stdarg.h>
#include <stdio.h>
#include <stdlib.h>
#include <string.h>

#include "command.h"
#include "show.h"

/* Prints a message that may hold words from outside. Where it is long and no memory is left, its end is missing. */
static void print_message(const char *format, va_list words, va_list again)
{
    char few[1024];
    char *all = NULL;
    int count = vsnprintf(few, sizeof few, format, words);
    if (count >= (int)sizeof few)
        all = malloc((size_t)count + 1);
    if (all != NULL)
        vsnprintf(all, (size_t)count + 1, format, again);
    fputs("pistrovelle: ", stderr);
    show_name(stderr, all == NULL ? few : all);
    fputc('\n', stderr);
    free(all);
}

int complain(const char *format, ...)
{
    va_list words, again;
    va_start(words, format);
    va_start(again, format);
    print_message(format, words, again);
    va_end(again);
    va_end(words);
    return NOT_DONE;
}

int wrong_usage(const char *format, ...)
{
    va_list words, again;
    va_start(words, format);
    va_start(again, format);
    print_message(format, words, again);
    va_end(again);
    va_end(words);
    fputs("Try 'pistrovelle --help'.\n", stderr);
    return NOT_DONE;
}

/* A word that begins with a minus, and isn't - alone. */
static bool is_option(const char *word)
{
    return word[0] == '-' && word[1] != '\0';
}

/* Takes the option that is the first of so many words. Answers how many words that are: none, with a message, where it is none of the
   task's, or lacks its word, or has had one. */
static int take_option(const char *task, int count, char **words, const struct option *options, size_t known)
{
    size_t i = 0;
    while (i < known && strcmp(words[0], options[i].name) != 0)
        i++;
    if (i == known) {
        wrong_usage("%s takes no option '%s'", task, words[0]);
        return 0;
    }
    if (options[i].word == NULL) {
        *options[i].is_set = true;
        return 1;
    }
    if (count < 2 || *options[i].word != NULL) {
        wrong_usage("%s lacks its word, or comes twice", words[0]);
        return 0;
    }
    *options[i].word = words[1];
    return 2;
}

int take_options(const char *task, int count, char **words, const struct option *options, size_t known)
{
    bool is_end = false;
    int i = 0, left = 0;
    while (i < count) {
        int taken = 1;
        if (is_end || !is_option(words[i]))
            words[left++] = words[i];
        else if (strcmp(words[i], "--") == 0)
            is_end = true;
        else
            taken = take_option(task, count - i, words + i, options, known);
        if (taken == 0)
            return -1;
        i += taken;
    }
    return left;
}

int take_out(const char *task, int count, char **words, const char **out)
{
    const struct option option = {"-o", NULL, out};
    int left = take_options(task, count, words, &option, 1);
    if (*out != NULL && strcmp(*out, "-") == 0)
        *out = NULL;
    return left;
}
