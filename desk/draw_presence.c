/* Adding up where trains are, and the order in which their places are drawn. */
#include "draw_presence.h"

#include <string.h>

static void add_entry(const struct study *study, const struct entry *entry, unsigned minute, struct presence *presence)
{
    uint64_t weight = entry_weight(study, entry);
    unsigned element = entry->kind == ON_STATION ? entry->number : MOST_STATIONS + entry->number;
    if (entry->kind == GONE)
        presence->gone[minute] += weight;
    else if (entry->kind == OUTSIDE && entry->minute <= minute)
        presence->waiting[minute] += weight;
    else if (entry->kind == OUTSIDE)
        presence->coming[minute] += weight;
    else if (entry->blocking)
        presence->blocked[element][minute] += weight;
    else
        presence->standing[element][minute] += weight;
}

struct lampreysong_answer gather_presence(const struct study *study, struct lent *lent, struct presence *presence)
{
    struct lampreysong_answer answer = ask_run(study, study->level.head.last, lent); /* what is refused at all is refused here, before the long way */
    memset(presence, 0, sizeof *presence);
    for (unsigned minute = 0; minute <= study->level.head.last && answer.refusal == 0; minute++) {
        answer = ask_run(study, minute, lent);
        for (unsigned row = 0; row < answer.value; row++) {
            struct entry entry = entry_at(lent, row);
            add_entry(study, &entry, minute, presence);
        }
    }
    return answer;
}

/* ---- paths and bands */

unsigned path_length(const struct train *train)
{
    return 2 * train->stops - 1;
}

unsigned path_element(const struct level *level, const struct train *train, unsigned nth)
{
    unsigned station = train->stop[nth / 2].station;
    if (nth % 2 == 0)
        return station;
    return MOST_STATIONS + track_between(level, station, train->stop[nth / 2 + 1].station);
}

unsigned band_of(const struct bands *bands, unsigned element)
{
    unsigned band = 0;
    while (band < bands->count && bands->band[band].element[0] != element && (bands->band[band].elements < 2 || bands->band[band].element[1] != element))
        band++;
    return band;
}

static void put_band(struct bands *bands, unsigned band, unsigned element)
{
    memmove(&bands->band[band + 1], &bands->band[band], (bands->count - band) * sizeof *bands->band);
    bands->band[band] = (struct band){1, {element, 0}};
    bands->count++;
}

/* The band of an element of a path; the number of bands if it has none, or the path ends before it. */
static unsigned path_band(const struct level *level, const struct train *train, unsigned nth, const struct bands *bands)
{
    return nth < path_length(train) ? band_of(bands, path_element(level, train, nth)) : bands->count;
}

/* The next element of a path that is there already; the path's length if there is none. */
static unsigned next_there(const struct level *level, const struct train *train, unsigned nth, const struct bands *bands)
{
    do
        nth++;
    while (nth < path_length(train) && path_band(level, train, nth, bands) == bands->count);
    return nth;
}

/* An element that begins a path goes beside the next that is there, on the side from which the train comes: below it if the train then goes up. */
static void put_first(const struct level *level, const struct train *train, struct bands *bands)
{
    unsigned next = next_there(level, train, 0, bands), after = next_there(level, train, next, bands);
    unsigned band = path_band(level, train, next, bands);
    put_band(bands, path_band(level, train, after, bands) < band ? band + 1 : band, path_element(level, train, 0));
}

/* Another goes beside the one before it on the path, on the side to which the train goes on; where nothing that is there tells, it goes on as it came. */
static void put_element(const struct level *level, const struct train *train, unsigned nth, struct bands *bands)
{
    unsigned before = path_band(level, train, nth - 1, bands), next = path_band(level, train, next_there(level, train, nth, bands), bands);
    int up = next < bands->count ? next < before : nth > 1 && path_band(level, train, nth - 2, bands) > before;
    put_band(bands, up ? before : before + 1, path_element(level, train, nth));
}

/* Gives a coupled track that has no band that of its partner, if there is one. */
static void join_partner(const struct level *level, unsigned element, struct bands *bands)
{
    unsigned partner = element < MOST_STATIONS ? level->tracks : partner_of(level, element - MOST_STATIONS);
    unsigned band = partner == level->tracks ? bands->count : band_of(bands, MOST_STATIONS + partner);
    if (band < bands->count && band_of(bands, element) == bands->count)
        bands->band[band] = (struct band){2, {bands->band[band].element[0], element}};
}

void order_bands(const struct level *level, struct bands *bands)
{
    bands->count = 0;
    for (unsigned k = 0; k < level->trains; k++) {
        const struct train *train = &level->train[k];
        for (unsigned i = 0; i < path_length(train); i++)
            join_partner(level, path_element(level, train, i), bands);
        if (path_band(level, train, 0, bands) == bands->count)
            put_first(level, train, bands);
        for (unsigned i = 1; i < path_length(train); i++)
            if (path_band(level, train, i, bands) == bands->count)
                put_element(level, train, i, bands);
    }
}
