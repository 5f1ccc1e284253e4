/* Names: which words may be one, which need quotes, and which known name a wrong one is near to. */
#ifndef DESK_TEXT_NAMES_H
#define DESK_TEXT_NAMES_H

#include <stddef.h>

#include "level.h"
#include "text_words.h"

/* Whether a word without quotes is kept for statements: it is a name only in quotes. */
int is_keyword(const struct word *word);

/* Whether the word is a name: not kept and with a letter, or in quotes and not empty. Its length is not judged. */
int is_name(const struct word *word);

/* Whether a name must be written in quotes. */
int needs_quotes(const char *name);

/* The names of one kind, standing in structs of one size. */
struct names {
    const char *first;
    size_t apart; /* bytes from one name to the next */
    unsigned count;
};
struct names station_names(const struct level *level);
struct names track_names(const struct level *level);
struct names train_names(const struct level *level);
struct names table_names(const struct tables *tables);

/* The number of the name that the word is; the count if it is none. */
unsigned find_name(const struct names *names, const struct word *word);

/* The name that the word is near to: only capitals differ, or two letters are swapped, one is missing, one too many or one another. Null if there is none. */
const char *nearest_name(const struct names *names, const struct word *word);

/* The statement's keyword that the word is near to; null if there is none. */
const char *nearest_statement(const struct word *word);

#endif
