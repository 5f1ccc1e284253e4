/* Why parts can't be summed, in words: the file and its line, what is wrong, and what to mend. */
#ifndef DESK_REFUSAL_PARTS_H
#define DESK_REFUSAL_PARTS_H

#include <stdio.h>

#include "part.h"

/* A part that was given, but for its weights. */
struct given {
    const char *name;
    struct portion portion;
    uint64_t first, count;
};

/* All that were given, by their first choices, and of how many choices. */
struct all_given {
    const struct given *part;
    unsigned count;
    uint64_t choices;
};

/* A file that is no part, or is damaged. */
void say_part_fault(FILE *out, const char *name, const struct part_fault *fault);

/* A part that is not of the case, the book or the stop minute of the first one. */
void say_other_part(FILE *out, const char *name, const struct part *part, const char *first_name, const struct part *first);

/* Two parts with choices in common, of which the first begins before the second or with it. */
void say_overlap(FILE *out, const struct given *first, const struct given *second);

/* Choices that are in no part. */
void say_missing(FILE *out, const struct all_given *all);

/* Weights that come to more than all choices weigh. */
void say_too_heavy(FILE *out);

#endif
