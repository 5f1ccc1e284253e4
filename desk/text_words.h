/* The words of a text one after another, each with its place, and the errors that are said of them. */
#ifndef DESK_TEXT_WORDS_H
#define DESK_TEXT_WORDS_H

#include <stddef.h>

#include "text.h"

enum word_kind { PLAIN, QUOTED, LINE_ENDS, TEXT_ENDS };

/* A word as it stands in the text, without its quotes. The end of a line and of the text count as words. */
struct word {
    enum word_kind kind;
    const char *at;
    size_t length;
    unsigned line, column;
};

struct reader {
    const struct text *text;
    size_t at;
    unsigned line, column;
    int raw; /* whether a double quote is a character as any other, as in a title */
    struct text_error *error;
};

void begin_words(struct reader *reader, const struct text *text, struct text_error *error);

/* The next word; false, and an error, if what stands there is none: a quote that is not closed, or a character that can't be seen. */
int next_word(struct reader *reader, struct word *word);

/* Whether the word is the end of a line or of the text. */
int ends(const struct word *word);

/* Whether the word is this one, without quotes. */
int is_word(const struct word *word, const char *this_one);

/* A word as it is said in an error: with its quotes, and cut if it is long. */
struct said_word {
    char text[200];
};
struct said_word said_word(const struct word *word);

/* An error at a word, in the words of the format. Both give false. `expected` adds what was found: `.., and `two` stands here`. */
int refuse(struct text_error *error, const struct word *word, const char *format, ...);
int expected(struct text_error *error, const struct word *word, const char *format, ...);

/* Adds to the words of an error. */
void add_words(struct text_error *error, const char *format, ...);

/* Whether the word is a whole number of at most `most`, without quotes; if so, it is stored. A part of a word counts as one. */
int is_number(const struct word *word, unsigned most, unsigned *number);

#endif
