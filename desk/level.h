/* A case and a book, taken apart: what the bytes say, with the names and lines of the text that they were written as. */
#ifndef DESK_LEVEL_H
#define DESK_LEVEL_H

#include <stddef.h>

/* The most that a case or a book can hold. */
enum {
    MOST_STATIONS = 24,
    MOST_TRACKS = 40,
    MOST_TRAINS = 7,
    MOST_TABLES = 8,
    MOST_COUPLES = 20,
    MOST_STOPS = 8,
    MOST_PAIRS = 8,
    MOST_MINUTE = 719,
    MOST_SAFETY = 30,
    MOST_ROOM = 1024,
    NAME_BYTES = 40,  /* of a station, track, train or table */
    TITLE_BYTES = 100 /* of the case */
};

typedef char name_text[NAME_BYTES + 1];

/* `line` is the line of the text that says it, counted from 1; 0 if it was read from bytes. */
struct head {
    unsigned last, safety, room;
    unsigned line, safety_line, room_line; /* of the window, the safety time and the room; 0 also for a room that is left out */
};

struct station {
    name_text name;
    unsigned capacity;
    unsigned line;
};

struct track {
    name_text name; /* of its own, or its ends: `Face-Tip` */
    unsigned from, to, capacity;
    unsigned line;
};

struct stop {
    unsigned station, arrival, departure;
    unsigned line;
};

struct train {
    name_text name;
    unsigned priority, type;
    unsigned stops;
    struct stop stop[MOST_STOPS];
    unsigned line;
};

struct pair {
    unsigned delay, weight;
};

struct table {
    name_text name;
    unsigned type;
    unsigned pairs;
    struct pair pair[MOST_PAIRS];
    unsigned line;
};

/* Two tracks, there and back, on the same rails: while a train is on one of them, none enters the other. */
struct couple {
    unsigned track[2];
    unsigned line;
};

/* The delay tables of a case or of a book. */
struct tables {
    unsigned count;
    struct table table[MOST_TABLES];
};

struct level {
    char title[TITLE_BYTES + 1]; /* empty if it has none */
    struct head head;
    unsigned stations, tracks, trains, couples;
    struct station station[MOST_STATIONS];
    struct track track[MOST_TRACKS];
    struct train train[MOST_TRAINS];
    struct tables tables;
    struct couple couple[MOST_COUPLES];
};

/* The table that a train's type takes: the case's if it has one of that type, otherwise the book's; null if neither has. */
const struct table *table_of(const struct level *level, const struct tables *book, unsigned type);

/* The number of the track from one station to another; the number of tracks if there is none. */
unsigned track_between(const struct level *level, unsigned from, unsigned to);

/* The track that a track is coupled with; the number of tracks if there is none. */
unsigned partner_of(const struct level *level, unsigned track);

/* The minute in which a train is planned to reach its last station. */
unsigned planned_arrival(const struct train *train);

/* The name of a train's last station. */
const char *last_station(const struct level *level, const struct train *train);

/* Names for what has none, by number: S0 .., T0 .., D and the type; a track is called by its ends. */
void give_names(struct level *level);
void give_table_names(struct tables *tables);

/* Takes over the title and the names of another level of the same shape. */
void take_names(struct level *level, const struct level *named);

/* Calls a track by its ends, `Face-Tip`, cut short if need be. */
void name_by_ends(const struct level *level, struct track *track);

#endif
