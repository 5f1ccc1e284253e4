/* A level or a book printed as text, in one layout. */
#include <stdarg.h>
#include <stdio.h>
#include <string.h>

#include "text_names.h"
#include "text.h"

static void put(struct text *text, const char *format, ...)
{
    va_list values;
    int length;
    va_start(values, format);
    length = vsnprintf(text->at + text->length, MOST_TEXT - text->length, format, values);
    va_end(values);
    if (length > 0 && (size_t)length < MOST_TEXT - text->length)
        text->length += (size_t)length;
}

/* ---- widths of columns, in characters */

static unsigned name_width(const char *name)
{
    unsigned width = needs_quotes(name) ? 2 : 0;
    for (; *name != '\0'; name++)
        width += ((unsigned char)*name & 0xC0) != 0x80;
    return width;
}

static unsigned number_width(unsigned number)
{
    unsigned width = 1;
    for (; number >= 10; number /= 10)
        width++;
    return width;
}

static unsigned wider(unsigned a, unsigned b)
{
    return a > b ? a : b;
}

static unsigned widest_name(struct names names)
{
    unsigned width = 0;
    for (unsigned i = 0; i < names.count; i++)
        width = wider(width, name_width(names.first + i * names.apart));
    return width;
}

/* A name, in quotes where it needs them, and blanks up to the width of its column. */
static void put_name(struct text *text, const char *name, unsigned width)
{
    const char *quote = needs_quotes(name) ? "\"" : "";
    unsigned own = name_width(name);
    put(text, "%s%s%s%*s", quote, name, quote, (int)(width > own ? width - own : 0), "");
}

/* ---- what a level has once, stations, tracks and couples */

static void put_head(struct text *text, const struct level *level)
{
    if (level->title[0] != '\0')
        put(text, "title   %s\n", level->title);
    put(text, "window  %u\nsafety  %u\nroom    %u\n", level->head.last, level->head.safety, level->head.room);
}

static void put_stations(struct text *text, const struct level *level)
{
    unsigned width = widest_name(station_names(level));
    if (level->stations > 0)
        put(text, "\n");
    for (unsigned i = 0; i < level->stations; i++) {
        put(text, "station ");
        put_name(text, level->station[i].name, width);
        put(text, "  holds %u\n", level->station[i].capacity);
    }
}

static int has_own_name(const struct level *level, const struct track *track)
{
    struct track by_ends = *track;
    name_by_ends(level, &by_ends);
    return strcmp(by_ends.name, track->name) != 0;
}

static unsigned own_names_width(const struct level *level)
{
    unsigned width = 0;
    for (unsigned i = 0; i < level->tracks; i++)
        if (has_own_name(level, &level->track[i]))
            width = wider(width, name_width(level->track[i].name));
    return width;
}

static void put_tracks(struct text *text, const struct level *level)
{
    unsigned own = own_names_width(level), from = 0, to = 0;
    for (unsigned i = 0; i < level->tracks; i++) {
        from = wider(from, name_width(level->station[level->track[i].from].name));
        to = wider(to, name_width(level->station[level->track[i].to].name));
    }
    if (level->tracks > 0)
        put(text, "\n");
    for (unsigned i = 0; i < level->tracks; i++) {
        const struct track *track = &level->track[i];
        put(text, "track ");
        if (has_own_name(level, track))
            put_name(text, track->name, own);
        else
            put(text, "%*s", (int)own, "");
        put(text, "%sfrom ", own > 0 ? "  " : "");
        put_name(text, level->station[track->from].name, from);
        put(text, "  to ");
        put_name(text, level->station[track->to].name, to);
        put(text, "  holds %u\n", track->capacity);
    }
}

static void put_couples(struct text *text, const struct level *level)
{
    unsigned width = 0;
    for (unsigned i = 0; i < level->couples; i++)
        width = wider(width, name_width(level->track[level->couple[i].track[0]].name));
    if (level->couples > 0)
        put(text, "\n");
    for (unsigned i = 0; i < level->couples; i++) {
        put(text, "couple ");
        put_name(text, level->track[level->couple[i].track[0]].name, width);
        put(text, "  ");
        put_name(text, level->track[level->couple[i].track[1]].name, 0);
        put(text, "\n");
    }
}

/* ---- delay tables */

struct table_widths {
    unsigned name, type, delay, weight;
};

static struct table_widths table_widths(const struct tables *tables)
{
    struct table_widths widths = {widest_name(table_names(tables)), 0, 0, 0};
    for (unsigned i = 0; i < tables->count; i++) {
        const struct table *table = &tables->table[i];
        widths.type = wider(widths.type, number_width(table->type));
        for (unsigned k = 0; k < table->pairs; k++) {
            widths.delay = wider(widths.delay, number_width(table->pair[k].delay));
            widths.weight = wider(widths.weight, number_width(table->pair[k].weight));
        }
    }
    return widths;
}

static void put_pair(struct text *text, const struct pair *pair, const struct table_widths *widths)
{
    put(text, "  %*s+%u %*u%%", (int)(widths->delay - number_width(pair->delay)), "", pair->delay, (int)widths->weight, pair->weight);
}

static void put_tables(struct text *text, const struct tables *tables)
{
    struct table_widths widths = table_widths(tables);
    for (unsigned i = 0; i < tables->count; i++) {
        const struct table *table = &tables->table[i];
        put(text, "delays ");
        put_name(text, table->name, widths.name);
        put(text, "  type %*u", (int)widths.type, table->type);
        for (unsigned k = 0; k < table->pairs; k++)
            put_pair(text, &table->pair[k], &widths);
        put(text, "\n");
    }
}

/* ---- trains */

enum { DELAYS_WIDTH = sizeof "delays " - 1, TYPE_WIDTH = sizeof "type " - 1 };

struct train_widths {
    unsigned name, delays, station, arrival;
};

/* The name of the table that a train's type takes, if that name leads back to it: the case's tables are looked through first. Null if it doesn't. */
static const char *delays_name(const struct level *level, const struct tables *book, unsigned type)
{
    const struct table *table = table_of(level, book, type);
    struct names names = table_names(&level->tables);
    struct word word;
    unsigned same;
    if (table == NULL)
        return NULL;
    word = (struct word){QUOTED, table->name, strlen(table->name), 0, 0};
    same = find_name(&names, &word);
    return same == names.count || &level->tables.table[same] == table ? table->name : NULL;
}

static struct train_widths train_widths(const struct level *level, const struct tables *book)
{
    struct train_widths widths = {widest_name(train_names(level)), 0, 0, 0};
    for (unsigned i = 0; i < level->trains; i++) {
        const struct train *train = &level->train[i];
        const char *delays = delays_name(level, book, train->type);
        unsigned own = delays != NULL ? DELAYS_WIDTH + name_width(delays) : TYPE_WIDTH + number_width(train->type);
        widths.delays = wider(widths.delays, own);
        for (unsigned k = 0; k < train->stops; k++) {
            widths.station = wider(widths.station, name_width(level->station[train->stop[k].station].name));
            widths.arrival = wider(widths.arrival, number_width(train->stop[k].arrival));
        }
    }
    return widths;
}

static void put_stops(struct text *text, const struct level *level, const struct train *train, const struct train_widths *widths)
{
    for (unsigned k = 0; k < train->stops; k++) {
        const struct stop *stop = &train->stop[k];
        put(text, "    ");
        put_name(text, level->station[stop->station].name, widths->station);
        put(text, "  %*u-%u\n", (int)widths->arrival, stop->arrival, stop->departure);
    }
}

static void put_trains(struct text *text, const struct level *level, const struct tables *book)
{
    struct train_widths widths = train_widths(level, book);
    for (unsigned i = 0; i < level->trains; i++) {
        const struct train *train = &level->train[i];
        const char *delays = delays_name(level, book, train->type);
        put(text, "\ntrain ");
        put_name(text, train->name, widths.name);
        if (delays != NULL) {
            put(text, "  delays ");
            put_name(text, delays, widths.delays - DELAYS_WIDTH);
        } else
            put(text, "  type %-*u", (int)(widths.delays - TYPE_WIDTH), train->type);
        put(text, "  priority %u\n", train->priority);
        put_stops(text, level, train, &widths);
    }
}

void show_case(const struct level *level, const struct tables *book, struct text *text)
{
    text->length = 0;
    put_head(text, level);
    put_stations(text, level);
    put_tracks(text, level);
    put_couples(text, level);
    if (level->tables.count > 0)
        put(text, "\n");
    put_tables(text, &level->tables);
    put_trains(text, level, book);
}

void show_book(const struct tables *book, struct text *text)
{
    text->length = 0;
    put_tables(text, book);
}
