/* What the statements of a text share while it is compiled: numbers, names, and the parts of a line. */
#ifndef DESK_TEXT_COMPILING_H
#define DESK_TEXT_COMPILING_H

#include "text_names.h"
#include "text_words.h"

enum { MOST_BYTE = 255, MOST_WORD = 65535 };

/* The lines in which the statements stand that a case has once; 0 for one that is not there. */
struct once {
    unsigned title, window, safety, room;
};

struct compiling {
    struct reader reader;
    struct level *level;
    const struct level *known; /* what the first reading found; null in the first */
    const struct level *named; /* what the second found, with every track's name; null before the third */
    const struct tables *book;
    int is_book;         /* whether the text is a book's */
    struct train *train; /* whose stops may follow; null if there is none */
    struct once once;
};

/* The next word; false, and an error, if it is none. */
int next(struct compiling *c, struct word *word);

/* The whole number that must stand after a keyword, of at most 255 for a byte. */
int read_number_after(struct compiling *c, const struct word *keyword, unsigned most, unsigned *number);
int read_byte(struct compiling *c, const struct word *keyword, unsigned *number);

/* Whether a word is a name, and short enough; `what` says whose name is expected after the keyword. */
int judge_name(struct compiling *c, const struct word *word, const char *what, const struct word *keyword);
int read_name(struct compiling *c, const struct word *keyword, struct word *name);
void store_name(const struct word *word, char *name);

/* The number of the station that a word names; in the first reading the word is only judged. */
int find_station(struct compiling *c, const struct word *word, const struct word *keyword, unsigned *station);
int read_end(struct compiling *c, const struct word *keyword, unsigned *station);

/* The next word, which stands after this one and names a track, and that track's number; before the third reading the word is only judged. */
int read_coupled(struct compiling *c, const struct word *after, struct word *word, unsigned *track);

/* The type of the table that a train names, which must also be the table that a train of this type takes. */
int read_delays_of_train(struct compiling *c, const struct word *keyword, unsigned *type);

/* Errors that several statements have. */
int called_already(struct compiling *c, const struct word *word, const char *kind, unsigned line);
int too_many(struct compiling *c, const struct word *word, const char *owner_has, unsigned most, const char *kind);

/* A part of a line: a keyword and its value. Parts stand in any order; those with one value stand for each other, and only one of them may be said. */
struct part {
    const char *keyword, *written; /* `written` is null for one that may be left out */
    int (*read)(struct compiling *c, const struct word *keyword, unsigned *value);
    unsigned *value;
    int said;
};

struct parts {
    unsigned count;
    struct part part[3];
};

/* The part that a word begins; null if it begins none. */
struct part *find_part(struct parts *parts, const struct word *word);
int read_part(struct compiling *c, struct parts *parts, const struct word *word);

/* At a word that begins no part: an error that says which part is still expected; true at the end of a line on which nothing is. */
int no_part(struct compiling *c, const struct parts *parts, const struct word *word);

/* Reads parts from this word to the end of the line. */
int read_parts(struct compiling *c, struct parts *parts, struct word *word);

/* The statements, each from the word after its keyword. */
int read_title(struct compiling *c, const struct word *keyword);
int read_window(struct compiling *c, const struct word *keyword);
int read_safety(struct compiling *c, const struct word *keyword);
int read_room(struct compiling *c, const struct word *keyword);
int read_station(struct compiling *c, const struct word *keyword);
int read_track(struct compiling *c, const struct word *keyword);
int read_couple(struct compiling *c, const struct word *keyword);
int read_table(struct compiling *c, const struct word *keyword);
int read_train(struct compiling *c, const struct word *keyword);

/* One stop of the train that is being read, from its station's name. */
int read_stop(struct compiling *c, const struct word *station);

/* Whether a word is arrival and departure, `2-3`; if so, they are stored. */
int is_times(const struct word *word, unsigned *arrival, unsigned *departure);

#endif
