/* From a refusal to its words; for desk/refusal*.c alone. */
#ifndef DESK_REFUSAL_WORDS_H
#define DESK_REFUSAL_WORDS_H

#include "refusal.h"

enum { FIELD_HEADER = 3, WRONG_BYTES = 1600, MEND_BYTES = 400, CALLED_BYTES = 2 * NAME_BYTES + 24 };

/* The place that was refused. */
struct fault {
    const struct study *study;
    const struct bytes *bytes; /* of the refused file */
    int in_book;
    struct field field; /* at the refusal's place; tag and size are 0 if no header is there */
    int reached;        /* the fields before it lead to the place */
    int has_header;     /* it has a tag and a length, */
    int whole;          /* and a body of that length */
};

/* What is said of it. Nothing is said if `wrong` is empty. */
struct words {
    unsigned line;           /* of the text; 0 for the line of the element */
    char wrong[WRONG_BYTES]; /* sentences, each on a line */
    char mend[MEND_BYTES];
};

/* Whether the refused file was text. */
int was_text(const struct fault *fault);

/* The level of the refused case if it was text, with names and lines; otherwise null. */
const struct level *text_level(const struct fault *fault);

/* A name in a sentence: `station Tip`, or `station 1` where there are no names. */
struct called {
    char text[CALLED_BYTES];
};
struct called station_called(const struct fault *fault, unsigned number);
struct called track_called(const struct fault *fault, unsigned number);
struct called train_called(const struct fault *fault, unsigned number);
struct called table_called(const struct fault *fault, unsigned number);
struct called couple_called(const struct fault *fault, unsigned number); /* `couple Face-Tip Tip-Face` */
struct called named(const char *kind, const char *name, unsigned number); /* name is null if there is none */

/* The element that the field describes, and its line. The head has none: a text says it on several. */
struct called element_called(const struct fault *fault);
unsigned element_line(const struct fault *fault);

/* Whether the length is one that a field of the tag can have. */
int possible_length(unsigned tag, unsigned size);

/* How many whole fields of a tag stand before a place. */
unsigned count_before(const struct bytes *bytes, unsigned tag, size_t place);

/* The field's body, if the field is whole and of a length that its tag can have; otherwise null. */
const uint8_t *body_of(const struct fault *fault);

/* The body of the field that is the nth of its tag, counted from 0; null if there is none of a possible length. */
const uint8_t *nth_body(const struct bytes *bytes, unsigned tag, unsigned nth);

/* The first track before the field with these ends; the number of tracks before it if there is none. */
unsigned track_with_ends(const struct fault *fault, unsigned from, unsigned to);

/* A number of two bytes. */
unsigned number_at(const uint8_t *at);

/* What a field of the tag is called: `delay table`. */
const char *kind_of(unsigned tag);

/* Add a sentence to what is wrong, and to what is to be mended. */
void say_wrong(struct words *words, const char *format, ...);
void say_mend(struct words *words, const char *format, ...);

/* Prints each sentence on a line, with the label before the first; the first letter is made large. */
void print_sentences(FILE *out, const char *label, const char *sentences);

/* The words of a number, for a fault that has it. */
void words_of_overrun(const struct fault *fault, struct words *words);
void words_of_tag(const struct fault *fault, struct words *words);
void words_of_order(const struct fault *fault, struct words *words);
void words_of_length(const struct fault *fault, struct words *words);
void words_of_count(const struct fault *fault, struct words *words);
void words_of_range(const struct fault *fault, struct words *words);
void words_of_ends(const struct fault *fault, struct words *words);
void words_of_path(const struct fault *fault, struct words *words);
void words_of_times(const struct fault *fault, struct words *words);
void words_of_table(const struct fault *fault, struct words *words);
void words_of_type(const struct fault *fault, struct words *words);
void words_of_room(const struct fault *fault, struct words *words);
void words_of_couple(const struct fault *fault, struct words *words);

#endif
