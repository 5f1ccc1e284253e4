/* The two pictures of a study: its arrivals and its shift. */
#ifndef DESK_DRAW_H
#define DESK_DRAW_H

#include <stdio.h>

#include "answers.h"
#include "draw_presence.h"
#include "study.h"

/* The title of a study's pictures: the case's, or else the name of its file. */
const char *picture_title(const struct study *study);

/* Draws each train's arrivals from what a run to the last minute has filled. */
void draw_arrivals(FILE *out, const struct study *study, const struct lent *lent);

/* Draws the shift from what was gathered of its minutes. */
void draw_shift(FILE *out, const struct study *study, const struct presence *presence);

#endif
