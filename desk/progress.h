/* How far a long run is, on a line of the terminal that is written over and goes away. */
#ifndef DESK_PROGRESS_H
#define DESK_PROGRESS_H

#include <stdint.h>

/* The line for so many choices of all, after so many seconds, in so many columns: the share done, a bar, choices a second and the time left. */
enum { MOST_COLUMNS = 100, PROGRESS_BYTES = 160 };
struct progress_line {
    char text[PROGRESS_BYTES];
};
struct progress_line progress_line(uint64_t done, uint64_t all, double seconds, unsigned columns);

/* Whether it is to be shown: standard error is a terminal. */
int is_watched(void);

/* Write the line over the one before; and take it away. */
void show_progress(uint64_t done, uint64_t all, double seconds);
void clear_progress(void);

/* Seconds since some moment in the past, which no change of the clock moves. */
double seconds_now(void);

#endif
