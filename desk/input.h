/* Files read and written. */
#ifndef DESK_INPUT_H
#define DESK_INPUT_H

#include <stdio.h>

#include "text.h"

/* Reads a file, `-` being standard input, up to so many bytes; false, and said, if it can't be read. `longer` says that there are more. */
int read_up_to(const char *name, size_t most, char *bytes, size_t *length, int *longer);

/* Reads a file, `-` being standard input, up to the most that a text has; false, and said, if it can't be read to its end. A longer file is cut, and
 * `longer` says so. */
struct input {
    struct text text;
    int longer;
};
int read_input(const char *name, struct input *input);

/* Whether what was read is text: it has bytes, and no control character but tab, line feed and carriage return. An accepted case or book begins with its first
 * tag, a control character, so it is never taken for text. */
int is_text(const struct input *input);

/* Whether a file holds what was read, under whatever name; said if it does. What has no end, as a pipe, holds nothing. */
int holds_input(const char *name);

/* Opens a file to write to, standard output if the name is null or `-`; null, and said, if that can't be had, or if the file holds what was read: what a
 * planner wrote is never written over. */
FILE *begin_output(const char *name);

/* Ends it and gives the program's exit status: ANSWERED, or MISUSED, and said, if not all could be written. */
int end_output(FILE *out, const char *name);

#endif
