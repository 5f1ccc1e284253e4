/* A case or a book as text (docs/FORMATS.md, "A case as text"): compiled to a level, and shown again. */
#ifndef DESK_TEXT_H
#define DESK_TEXT_H

#include <stddef.h>

#include "level.h"

enum { MOST_TEXT = 65536 };

struct text {
    char at[MOST_TEXT];
    size_t length;
};

/* Why a text can't be compiled: where, both counted from 1, and what was expected there. */
struct text_error {
    unsigned line, column;
    char words[400];
};

/* Compile a text; false and an error if it can't be. A train's delays are looked for in the case and then in the book, which may be empty. */
int compile_case(const struct text *text, const struct tables *book, struct level *level, struct text_error *error);
int compile_book(const struct text *text, struct tables *book, struct text_error *error);

/* Print a level or a book as text. What they can hold always fits. */
void show_case(const struct level *level, const struct tables *book, struct text *text);
void show_book(const struct tables *book, struct text *text);

/* Whether what is shown says all that the text says, and no more: each statement has the same words, but for a type or a room that the text leaves out, and
 * for a train's table, which may be given by name or by type. If not, the error has the line and the word. A book's own text is compared with an empty book. */
int shown_again(const struct text *text, const struct text *shown, const struct tables *book, struct text_error *error);

#endif
