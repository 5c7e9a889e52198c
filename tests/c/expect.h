/* Counts what holds and what does not. */
#ifndef EXPECT_H
#define EXPECT_H

#include <stdarg.h>
#include <stdbool.h>
#include <stddef.h>
#include <stdio.h>

/* What fails past these is counted only. */
enum { MOST_TOLD = 40 };

static size_t passed, failed;

static void expect(bool holds, const char *format, ...) __attribute__((format(printf, 2, 3)));

static void expect(bool holds, const char *format, ...)
{
    va_list words;
    if (holds) {
        passed++;
        return;
    }
    if (failed++ < MOST_TOLD) {
        printf("FAILED ");
        va_start(words, format);
        vprintf(format, words);
        va_end(words);
        printf("\n");
    }
}

/* The last line; the status that the program ends with. */
static int told_counts(void)
{
    printf("%zu passed, %zu failed\n", passed, failed);
    return failed == 0 ? 0 : 1;
}

#endif
