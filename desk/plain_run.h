/* The plain engine over a row of choices, in several threads. */
#ifndef DESK_PLAIN_RUN_H
#define DESK_PLAIN_RUN_H

#include "study.h"

/* Which choices are run, numbered from 0, and to which minute. */
struct plain_run {
    const struct study *study; /* judged */
    unsigned stop;
    uint64_t first, count;
    unsigned jobs; /* threads, MOST_JOBS at most; 0 for one for each core that the process may use */
};

/* Runs them and fills the weights, LAMPREYSONG_WEIGHTS bytes. Where standard error is a terminal it shows how far it is. ANSWERED; otherwise what is wrong has
 * been said, and it gives how the program ends. How many threads there are changes no weight. */
int run_plain(const struct plain_run *asked, uint8_t *weights);

#endif
