/* What a case says of itself beyond its fields. */
#include "level.h"

#include <stdio.h>
#include <string.h>

static const struct table *table_in(const struct tables *tables, unsigned type)
{
    for (unsigned i = 0; i < tables->count; i++)
        if (tables->table[i].type == type)
            return &tables->table[i];
    return NULL;
}

const struct table *table_of(const struct level *level, const struct tables *book, unsigned type)
{
    const struct table *own = table_in(&level->tables, type);
    return own != NULL ? own : table_in(book, type);
}

unsigned track_between(const struct level *level, unsigned from, unsigned to)
{
    for (unsigned i = 0; i < level->tracks; i++)
        if (level->track[i].from == from && level->track[i].to == to)
            return i;
    return level->tracks;
}

unsigned partner_of(const struct level *level, unsigned track)
{
    for (unsigned i = 0; i < level->couples; i++)
        for (unsigned k = 0; k < 2; k++)
            if (level->couple[i].track[k] == track)
                return level->couple[i].track[1 - k];
    return level->tracks;
}

unsigned planned_arrival(const struct train *train)
{
    return train->stop[train->stops - 1].arrival;
}

const char *last_station(const struct level *level, const struct train *train)
{
    return level->station[train->stop[train->stops - 1].station].name;
}

/* How many bytes of a name fit into a room, cut between letters of UTF-8. */
static size_t bytes_that_fit(const char *name, size_t room)
{
    size_t length = strlen(name);
    if (length <= room)
        return length;
    while (room > 0 && ((unsigned char)name[room] & 0xC0) == 0x80)
        room--;
    return room;
}

void name_by_ends(const struct level *level, struct track *track)
{
    const char *from = level->station[track->from].name, *to = level->station[track->to].name;
    size_t begun = bytes_that_fit(from, NAME_BYTES - 1);
    size_t rest = bytes_that_fit(to, NAME_BYTES - begun - 1);
    memcpy(track->name, from, begun);
    track->name[begun] = '-';
    memcpy(track->name + begun + 1, to, rest);
    track->name[begun + 1 + rest] = '\0';
}

void give_names(struct level *level)
{
    for (unsigned i = 0; i < level->stations; i++)
        snprintf(level->station[i].name, sizeof(name_text), "S%u", i);
    for (unsigned i = 0; i < level->tracks; i++)
        name_by_ends(level, &level->track[i]);
    for (unsigned i = 0; i < level->trains; i++)
        snprintf(level->train[i].name, sizeof(name_text), "T%u", i);
    give_table_names(&level->tables);
}

void give_table_names(struct tables *tables)
{
    for (unsigned i = 0; i < tables->count; i++)
        snprintf(tables->table[i].name, sizeof(name_text), "D%u", tables->table[i].type);
}

void take_names(struct level *level, const struct level *named)
{
    memcpy(level->title, named->title, sizeof level->title);
    for (unsigned i = 0; i < level->stations; i++)
        memcpy(level->station[i].name, named->station[i].name, sizeof(name_text));
    for (unsigned i = 0; i < level->tracks; i++)
        memcpy(level->track[i].name, named->track[i].name, sizeof(name_text));
    for (unsigned i = 0; i < level->trains; i++)
        memcpy(level->train[i].name, named->train[i].name, sizeof(name_text));
    for (unsigned i = 0; i < level->tables.count; i++)
        memcpy(level->tables.table[i].name, named->tables.table[i].name, sizeof(name_text));
}
