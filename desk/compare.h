/* What the joint run and the plain engine come to, side by side. */
#ifndef DESK_COMPARE_H
#define DESK_COMPARE_H

#include <stdint.h>
#include <stdio.h>

#include "level.h"

struct comparison {
    const struct level *level;
    unsigned stop;
    uint64_t choices;
    const uint8_t *joint, *plain; /* LAMPREYSONG_WEIGHTS bytes each */
};

/* Prints that the weights are the same, or each that is not, with both; gives the exit status, ANSWERED or DIFFERENT. All weights are compared, also those of
 * trains and minutes that the case does not have. */
int print_comparison(FILE *out, const struct comparison *comparison);

#endif
