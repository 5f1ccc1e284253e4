/* The image of weights. */
#include "weights.h"

#include <inttypes.h>
#include <stdio.h>

#include "level.h"

enum { MINUTES = MOST_MINUTE + 1, WEIGHT = 8 };

uint64_t whole_of(unsigned trains)
{
    uint64_t whole = 1;
    for (unsigned k = 0; k < trains; k++)
        whole *= 100;
    return whole;
}

static size_t place_of(unsigned train, unsigned minute)
{
    return ((size_t)train * MINUTES + minute) * WEIGHT;
}

uint64_t weight_at(const uint8_t *weights, unsigned train, unsigned minute)
{
    const uint8_t *at = weights + place_of(train, minute);
    uint64_t number = 0;
    for (unsigned i = 0; i < WEIGHT; i++)
        number = number * 256 + at[i];
    return number;
}

static uint64_t sum_of(uint64_t a, uint64_t b)
{
    return b > UINT64_MAX - a ? UINT64_MAX : a + b;
}

uint64_t arrived_by(const uint8_t *weights, unsigned train, unsigned minute)
{
    uint64_t sum = 0;
    for (unsigned t = 0; t <= minute; t++)
        sum = sum_of(sum, weight_at(weights, train, t));
    return sum;
}

void add_weight(uint8_t *weights, unsigned train, unsigned minute, uint64_t weight)
{
    uint8_t *at = weights + place_of(train, minute);
    uint64_t sum = sum_of(weight_at(weights, train, minute), weight);
    for (unsigned i = WEIGHT; i > 0; i--, sum /= 256)
        at[i - 1] = (uint8_t)(sum % 256);
}

void add_weights(uint8_t *weights, const uint8_t *others)
{
    for (unsigned k = 0; k < MOST_TRAINS; k++)
        for (unsigned t = 0; t < MINUTES; t++)
            add_weight(weights, k, t, weight_at(others, k, t));
}

int are_possible(const uint8_t *weights, unsigned trains, unsigned minute)
{
    for (unsigned k = 0; k < trains; k++)
        if (arrived_by(weights, k, minute) > whole_of(trains))
            return 0;
    return 1;
}

/* Adds a line of a train behind so many bytes, and gives how many there are then: at most the room. */
static size_t put_line(char *text, size_t room, size_t at, unsigned train, const char *minute, uint64_t weight)
{
    size_t length = at < room ? (size_t)snprintf(text + at, room - at, "%u %s %" PRIu64 "\n", train, minute, weight) : 0;
    return at + length < room ? at + length : room;
}

size_t put_lines(const uint8_t *weights, unsigned trains, unsigned minute, char *text, size_t room)
{
    enum { MINUTE_BYTES = 12 };
    size_t at = (size_t)snprintf(text, room, "total %" PRIu64 "\n", whole_of(trains));
    for (unsigned k = 0; k < trains; k++) {
        for (unsigned t = 0; t <= minute; t++) {
            char said[MINUTE_BYTES];
            snprintf(said, sizeof said, "%u", t);
            if (weight_at(weights, k, t) > 0)
                at = put_line(text, room, at, k, said, weight_at(weights, k, t));
        }
        at = put_line(text, room, at, k, "-", whole_of(trains) - arrived_by(weights, k, minute));
    }
    return at;
}
