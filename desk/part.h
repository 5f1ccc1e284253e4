/* Parts of the choices, and the partial weights that a part comes to, as a file (docs/FORMATS.md, "Partial weights"). */
#ifndef DESK_PART_H
#define DESK_PART_H

#include <stddef.h>
#include <stdint.h>
#include <stdio.h>

#include "lampreysong.h"
#include "study.h"

/* What tells a file from another: its length, and the checksum FNV-1a of 64 bits of its bytes. */
struct mark {
    uint64_t length, sum;
};

/* The I-th of N parts, counted from 1. */
struct portion {
    unsigned number, of;
};

/* What was run, and what it came to. */
struct part {
    struct mark case_mark, book_mark; /* of the bytes that were run */
    unsigned stop, trains;
    uint64_t choices; /* in all */
    struct portion portion;
    uint64_t first, count; /* the choices of this part */
    uint8_t weights[LAMPREYSONG_WEIGHTS];
};

uint64_t checksum(const void *bytes, size_t length);

/* Whether a word is a portion, `2/16`; if so, it is stored. There are MOST_CHOICES parts at most, since no case has more choices. */
int read_portion(const char *word, struct portion *portion);

/* The part of a study that is to be run to a minute, with no weights yet. Parts of one case are equal but for one choice, and one after another they are all. */
void begin_part(const struct study *study, unsigned stop, struct portion portion, struct part *part);

/* Sets the first choice and the number of choices of a part by its portion. */
void set_choices(struct part *part);

/* Whether two parts are of one case, book and stop minute. */
int are_of_one(const struct part *a, const struct part *b);

/* A part as text. What a part can hold always fits. */
enum { MOST_PART = 131072 };
struct part_text {
    char at[MOST_PART];
    size_t length;
};
void put_part(const struct part *part, struct part_text *text);

/* Why a text is no part. */
enum part_fault_kind { NO_FAULT, NO_PART, OTHER_VERSION, OTHER_LINE_ENDS, CUT_OFF, WRONG_LINE, WRONG_SUM, MORE_BEHIND };
enum { MOST_FOUND = 40, MOST_EXPECTED = 120 };
struct part_fault {
    enum part_fault_kind kind;
    unsigned line;                /* counted from 1 */
    char expected[MOST_EXPECTED]; /* of a wrong line: what should stand there */
    char found[MOST_FOUND + 1];   /* how the line begins; what can't be printed in it is ? */
};

/* Takes a text apart, whatever bytes it has; false, and the fault, if it is no part, or not just as `put_part` writes it. */
int take_part(const char *text, size_t length, struct part *part, struct part_fault *fault);

/* Prints what all choices together come to: their number, and the lines of the listing. */
void print_whole(FILE *out, const struct part *part);

#endif
