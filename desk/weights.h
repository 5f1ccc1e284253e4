/* Weights as the calls fill them: an image of LAMPREYSONG_WEIGHTS bytes, a number for each train and minute (docs/FORMATS.md). */
#ifndef DESK_WEIGHTS_H
#define DESK_WEIGHTS_H

#include <stddef.h>
#include <stdint.h>

/* All choices of so many trains together: 100 to the power of it. */
uint64_t whole_of(unsigned trains);

/* The weight that arrives in a minute, and by its end. */
uint64_t weight_at(const uint8_t *weights, unsigned train, unsigned minute);
uint64_t arrived_by(const uint8_t *weights, unsigned train, unsigned minute);

/* Add one weight, or those of another image. A sum that would pass 2^64 - 1 becomes 2^64 - 1. */
void add_weight(uint8_t *weights, unsigned train, unsigned minute, uint64_t weight);
void add_weights(uint8_t *weights, const uint8_t *others);

/* Whether no train's weights by a minute come to more than all choices together. */
int are_possible(const uint8_t *weights, unsigned trains, unsigned minute);

/* The lines of a listing by numbers, as the program `shift` prints them, of what has arrived by a minute, and how many bytes they are. The weights are possible.
 * MOST_LINES bytes suffice for any; where there is less room and they don't fit, it is filled. */
enum { MOST_LINES = 131072 };
size_t put_lines(const uint8_t *weights, unsigned trains, unsigned minute, char *text, size_t room);

#endif
