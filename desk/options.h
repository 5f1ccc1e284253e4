/* The commands, their options and their help, in one table each. */
#ifndef DESK_OPTIONS_H
#define DESK_OPTIONS_H

#include <stdio.h>

#include "request.h"

/* An option, as a bit of the set that a command takes. */
enum option {
    TAKES_BOOK = 1 << 0,
    TAKES_NAMES = 1 << 1,
    TAKES_OUTPUT = 1 << 2,
    TAKES_TRAIN = 1 << 3,
    TAKES_DELAYS = 1 << 4,
    TAKES_CHOICE = 1 << 5,
    TAKES_LIMIT = 1 << 6,
    TAKES_STOP = 1 << 7,
    TAKES_BARS = 1 << 8,
    TAKES_PLAIN = 1 << 9,
    TAKES_AS_BOOK = 1 << 10,
    TAKES_FIELDS = 1 << 11,
    TAKES_SHIFT = 1 << 12,
    TAKES_JOBS = 1 << 13,
    TAKES_PART = 1 << 14,
    TAKES_FILES = 1 << 15 /* no option: the command takes several files */
};

enum { COMMAND_BYTES = 8 };

struct command {
    char name[COMMAND_BYTES];
    const char *does; /* in one line */
    const char *more; /* for its help */
    unsigned takes;
    int (*run)(const struct request *request);
};

/* The command of a name; null if there is none. */
const struct command *find_command(const char *name);

/* Says that there is no command of the name, and which one it is near to. */
int no_command(const char *name);

void print_help(FILE *out);
void print_command_help(FILE *out, const struct command *command);

/* Reads the words after the command; false, and said, if they are misused. `help` says that help was asked for. */
int read_words(const struct command *command, char **words, struct request *request, int *help);

#endif
