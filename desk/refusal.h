/* Refusals in words. */
#ifndef DESK_REFUSAL_H
#define DESK_REFUSAL_H

#include <stdio.h>

#include "lampreysong.h"
#include "study.h"

struct refusal {
    unsigned number, file, place;
};

/* What a call was asked for, beside the files: what it did not take is left 0. */
struct asked {
    unsigned train, stop;
    const uint8_t *choice;
    size_t count; /* of the choice's indices */
};

/* Whether some refusal has the number. */
int is_refusal(unsigned number);

/* A refusal's meaning in 01's words, one line; for a number that no refusal has, that it has none. */
const char *refusal_meaning(unsigned number);

/* Says a refusal: `refused`, number, file and place as 01 has them; then what it means, the field, its number and its bytes, the line of a text, and what
 * to mend. The level of the study is looked at only where it is that of a text. */
void say_refusal(FILE *out, const struct study *study, struct refusal refusal);

/* Says a refusal of a call's arguments (15, 16, 17) with what was asked for; others as `say_refusal`. The study has been judged. */
void say_call_refusal(FILE *out, const struct study *study, struct refusal refusal, const struct asked *asked);

#endif
