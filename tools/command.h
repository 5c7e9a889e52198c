/* What the files of the command share. */
#ifndef COMMAND_H
#define COMMAND_H

#include <stdbool.h>
#include <stddef.h>
#include <stdint.h>

#include "pistrovelle.h"

/* The exit status of the command. */
enum { ALL_ACCEPTED = 0, SOME_REFUSED = 1, NOT_DONE = 2 };

/* Each is given the words after its name, and answers the exit status. */
int check_command(int count, char **words);
int normal_command(int count, char **words);
int slots_command(int count, char **words);
int codes_command(int count, char **words);
int explain_command(int count, char **words);

/* An option of a task: one that is set, or one that takes the word behind it, once at the most. The other of the two is NULL. */
struct option {
    const char *name;
    bool *is_set;
    const char **word;
};

/* Takes the options out of the words, wherever they stand, and --, behind which there are none. Answers how many words are left, or -1 with
   a message. */
int take_options(const char *task, int count, char **words, const struct option *options, size_t known);

/* The same where -o OUT is the only one. OUT stays NULL, which is standard output, where it isn't given or is -. */
int take_out(const char *task, int count, char **words, const char **out);

/* What is wrong with the words of a call; answers NOT_DONE. As in every message, what could do harm is escaped. */
int wrong_usage(const char *format, ...) __attribute__((format(printf, 1, 2)));

/* A message on standard error that begins with the command's name; answers NOT_DONE. */
int complain(const char *format, ...) __attribute__((format(printf, 1, 2)));

/* Memory, or a message and the end of the program. */
void *take_memory(void *old, size_t size);

/* Sees that what was printed so far has arrived. */
bool flush_output(void);

/* The same at the end: a message and NOT_DONE where it has not, else the status. */
int close_output(int status);

#endif
