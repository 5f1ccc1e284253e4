/* What a command works on: a case and its book, as bytes and taken apart. What is run is always the bytes. */
#ifndef DESK_STUDY_H
#define DESK_STUDY_H

#include "bytes.h"
#include "level.h"
#include "request.h"
#include "said.h"

struct study {
    const char *case_name, *book_name; /* the files' names as they were given; book_name is null if there is no book */
    struct bytes case_bytes, book_bytes;
    int case_is_text, book_is_text;    /* whether a file was text: its level then has lines, and names of its own */
    struct level level;                /* of a text at once, of bytes as soon as they are accepted */
    struct tables book;
};

/* Reads the case and the book of a request, and compiles what is text, shows it again and compares. ANSWERED if that went well; otherwise what is wrong has
 * been said, and it gives how the program ends. The bytes are not judged. */
int read_study(const struct request *request, struct study *study);

/* Reads and judges: REFUSED, and said in words, if the reader refuses the files. The levels are then whole and every name is there. */
int judge_study(const struct request *request, struct study *study);

/* As judge_study, but a train's type needs no table: refusal 11 counts as none. */
int judge_fields(const struct request *request, struct study *study);

/* The same for a file that is a book, with no case: `case_name` of the request is its name. */
int read_book_alone(const struct request *request, struct study *study);
int judge_book_alone(const struct request *request, struct study *study);

/* The number of the train that is asked for by its name or number; false, and said, if it is neither. A number may be that of no train: the calls refuse it. */
int find_train(const struct study *study, const char *asked, unsigned *train);

#endif
