/* Names in columns: a character of UTF-8 takes one column, whatever its bytes. */
#ifndef DESK_COLUMNS_H
#define DESK_COLUMNS_H

#include <stdint.h>
#include <stdio.h>

#include "level.h"

/* The columns that a text takes. */
unsigned columns_of(const char *text);

/* Prints a text, and spaces up to so many columns. */
void print_left(FILE *out, const char *text, unsigned columns);

/* The columns of the longest name of a train, and at least those of the heading `train`. */
unsigned train_columns(const struct level *level);

/* The digits of a whole number. */
unsigned digits_of(uint64_t number);

/* The case's title, if it has one, on a line. */
void print_title(FILE *out, const struct level *level);

#endif
