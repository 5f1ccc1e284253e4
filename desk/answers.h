/* The proved calls, over a study, and what stands in the memory that they fill. */
#ifndef DESK_ANSWERS_H
#define DESK_ANSWERS_H

#include <stdint.h>

#include "lampreysong.h"
#include "study.h"

/* The memory that a run fills. */
struct lent {
    uint8_t rows[LAMPREYSONG_ROWS];
    uint8_t weights[LAMPREYSONG_WEIGHTS];
    uint8_t text[LAMPREYSONG_TEXT];
};

struct lampreysong_answer ask_run(const struct study *study, unsigned stop, struct lent *lent);
struct lampreysong_answer ask_listing(const struct study *study, struct lent *lent);
struct lampreysong_train_figures ask_figures(const struct study *study, unsigned train, unsigned limit, struct lent *lent);

/* The plain engine over the choices from `first` on, `count` of them at most; they are added to the weights, LAMPREYSONG_WEIGHTS bytes. */
struct lampreysong_answer ask_plain_part(const struct study *study, unsigned stop, uint64_t first, uint64_t count, uint8_t *weights);

/* The plain engine asked for the choice behind the last one: it refuses what it refuses, and otherwise must have run 0 choices. The weights are 0 then. */
struct lampreysong_answer ask_plain_none(const struct study *study, unsigned stop, uint8_t *weights);

/* Judges the files alone, as every call does first: refusal 0 if they are accepted. */
struct lampreysong_answer ask_files(const struct study *study);

/* Judges the book alone. */
struct lampreysong_answer ask_book(const struct study *study);

/* The least room with which the whole run of an accepted case is answered; one more than the most room if there is none. */
unsigned least_room(const struct study *study);

/* How many choices of one delay a train an accepted case has: 8 to the power of 7 at most. */
enum { MOST_CHOICES = 2097152 };
uint32_t choices_of(const struct study *study);

/* The weight that arrives in a minute, and by its end; train and minute as in the case. */
uint64_t weight_in(const struct lent *lent, unsigned train, unsigned minute);
uint64_t weight_by(const struct lent *lent, unsigned train, unsigned minute);

/* All choices together: 100^n. */
uint64_t whole_weight(const struct level *level);

/* An entry of the list: a row taken apart. */
enum place_kind { OUTSIDE = 0, ON_STATION = 1, ON_TRACK = 2, GONE = 3 };
struct entry {
    unsigned train;
    int blocking; /* otherwise standing */
    enum place_kind kind;
    unsigned number; /* of the station or track */
    unsigned minute; /* due, or end of block */
    uint8_t cover[MOST_TRAINS]; /* bit d is the train's delay d */
};
struct entry entry_at(const struct lent *lent, unsigned row);

/* The summed weight of the choices that an entry covers. */
uint64_t entry_weight(const struct study *study, const struct entry *entry);

/* A share of a whole in hundredths of a percent, rounded to the nearest: 0 to 10000. */
unsigned share_of(uint64_t part, uint64_t whole);

/* A share as text, `60.00`, of 100. What is not nothing is never `0.00` but `<0.01`, and what is not all never `100.00` but `>99.99`. */
struct share_text {
    char text[8];
};
struct share_text share_text(uint64_t part, uint64_t whole);

/* The first minute by which at least `hundredths` of all choices have arrived; -1 if there is none. */
int minute_by(const struct study *study, const struct lent *lent, unsigned train, unsigned hundredths);

#endif
