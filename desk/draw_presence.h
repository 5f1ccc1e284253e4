/* Where trains are in each minute of a shift, added up over all choices. */
#ifndef DESK_DRAW_PRESENCE_H
#define DESK_DRAW_PRESENCE_H

#include <stdint.h>

#include "answers.h"
#include "study.h"

/* Stations by number, then tracks. */
enum { ELEMENTS = MOST_STATIONS + MOST_TRACKS, WINDOW = MOST_MINUTE + 1 };

/* Summed weights after each minute. A train that is somewhere in every choice has the weight of all choices there. */
struct presence {
    uint64_t standing[ELEMENTS][WINDOW], blocked[ELEMENTS][WINDOW];
    uint64_t coming[WINDOW];  /* outside, and not due yet */
    uint64_t waiting[WINDOW]; /* outside although due */
    uint64_t gone[WINDOW];
};

/* Runs to each minute and adds up; the answer of the run that was refused, or of the last. */
struct lampreysong_answer gather_presence(const struct study *study, struct lent *lent, struct presence *presence);

/* A station, a track, or two coupled tracks, which are the same rails. */
struct band {
    unsigned elements;
    unsigned element[2];
};

/* The elements that paths use, in the order in which trains pass them. */
struct bands {
    unsigned count;
    struct band band[ELEMENTS];
};
void order_bands(const struct level *level, struct bands *bands);

/* Where an element stands among the bands; their number if it is not there. */
unsigned band_of(const struct bands *bands, unsigned element);

/* The elements of a train's path are numbered from 0: its first station, its first track, .. */
unsigned path_length(const struct train *train);
unsigned path_element(const struct level *level, const struct train *train, unsigned nth);

#endif
