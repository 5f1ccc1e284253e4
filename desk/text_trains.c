/* The statements of delay tables and trains, and the stops of a train. */
#include <string.h>

#include "text_compiling.h"

/* ---- delay tables */

/* The word without its first or last byte, as a number. */
static int is_number_in(struct word word, size_t from, unsigned *number)
{
    word.at += from;
    word.length--;
    return is_number(&word, MOST_BYTE, number);
}

static int is_delay(const struct word *word, unsigned *delay)
{
    return word->length > 1 && word->at[0] == '+' && is_number_in(*word, 1, delay);
}

static int is_weight(const struct word *word, unsigned *weight)
{
    return word->length > 1 && word->at[word->length - 1] == '%' && is_number_in(*word, 0, weight);
}

static int read_pair(struct compiling *c, const struct word *delay, struct table *table)
{
    struct pair *pair = &table->pair[table->pairs];
    struct word weight;
    if (!is_delay(delay, &pair->delay))
        return expected(c->reader.error, delay, "a delay (+0 to +255 minutes, such as `+3`) is expected");
    if (table->pairs == MOST_PAIRS)
        return too_many(c, delay, "a table has", MOST_PAIRS, "delays");
    if (!next(c, &weight))
        return 0;
    if (!is_weight(&weight, &pair->weight))
        return expected(c->reader.error, &weight, "a weight (1%% to 100%%, such as `40%%`) is expected after %s", said_word(delay).text);
    table->pairs++;
    return 1;
}

/* A table that says no type has one more than the table before it, the first 1; its type must not part it from a table of the book that is called as it is. */
static int settle_table(struct compiling *c, const struct word *name, int has_type)
{
    struct tables *tables = &c->level->tables;
    struct table *table = &tables->table[tables->count - 1];
    struct names names = table_names(c->book);
    unsigned same = find_name(&names, name);
    if (!has_type)
        table->type = tables->count > 1 ? table[-1].type + 1 : 1;
    if (table->type > MOST_BYTE)
        return refuse(c->reader.error, name, "the table before this one has type %d, the last there is; write `type` and a number for this one",
                      (int)MOST_BYTE);
    if (same < names.count && c->book->table[same].type != table->type)
        return refuse(c->reader.error, name, "the book's table %s has type %u, and this one has type %u; give this one another name, or that type",
                      said_word(name).text, c->book->table[same].type, table->type);
    return 1;
}

int read_table(struct compiling *c, const struct word *keyword)
{
    struct tables *tables = &c->level->tables;
    struct table *table = &tables->table[tables->count];
    struct parts parts = {1, {{"type", NULL, read_byte, &table->type, 0}}};
    struct names names = table_names(tables);
    struct word name, word;
    unsigned same;
    if (tables->count == MOST_TABLES)
        return too_many(c, keyword, c->is_book ? "a book has" : "a case has", MOST_TABLES, "delay tables");
    if (!read_name(c, keyword, &name))
        return 0;
    same = find_name(&names, &name);
    if (same < names.count)
        return called_already(c, &name, "a delay table", tables->table[same].line);
    store_name(&name, table->name);
    table->line = keyword->line;
    tables->count++;
    while (next(c, &word)) {
        if (ends(&word))
            return settle_table(c, &name, parts.part[0].said);
        if (!(find_part(&parts, &word) != NULL ? read_part(c, &parts, &word) : read_pair(c, &word, table)))
            return 0;
    }
    return 0;
}

/* ---- trains and their stops */

int is_times(const struct word *word, unsigned *arrival, unsigned *departure)
{
    const char *dash = word->kind == PLAIN ? memchr(word->at, '-', word->length) : NULL;
    struct word first = *word, second = *word;
    if (dash == NULL)
        return 0;
    first.length = (size_t)(dash - word->at);
    second.at = dash + 1;
    second.length = word->length - first.length - 1;
    return is_number(&first, MOST_WORD, arrival) && is_number(&second, MOST_WORD, departure);
}

/* The part of a train's line that a word is near to; null if there is none. */
static const char *nearest_part(const struct word *word)
{
    static const char parts[][9] = {"delays", "type", "priority"};
    const struct names names = {parts[0], sizeof *parts, sizeof parts / sizeof *parts};
    return nearest_name(&names, word);
}

static int no_times(struct compiling *c, const struct word *word, const struct word *station)
{
    expected(c->reader.error, word, "the minutes of arrival and departure, such as `2-3`, are expected after the station %s", said_word(station).text);
    if (!ends(word) && nearest_part(station) != NULL)
        add_words(c->reader.error, "; is `%s` meant?", nearest_part(station));
    else if (word->kind == PLAIN && word->at[0] >= '0' && word->at[0] <= '9')
        add_words(c->reader.error, "; write two numbers of 0 to %d with only a hyphen between them, and no 0 before them", (int)MOST_MINUTE);
    else if (!ends(word))
        add_words(c->reader.error, "; a name with spaces stands in double quotes");
    return 0;
}

static int not_a_stop(struct compiling *c, const struct word *word)
{
    expected(c->reader.error, word, "a stop of train `%s`, such as `Face 2-3`, is expected", c->train->name);
    if (c->train->stops == 0 && c->train->line == word->line && !ends(word))
        add_words(c->reader.error, "; a name with spaces stands in double quotes");
    return 0;
}

int read_stop(struct compiling *c, const struct word *station)
{
    struct train *train = c->train;
    struct stop *stop = &train->stop[train->stops];
    struct word times;
    if (!is_name(station))
        return not_a_stop(c, station);
    if (!find_station(c, station, station, &stop->station))
        return 0;
    if (train->stops == MOST_STOPS)
        return too_many(c, station, "a train has", MOST_STOPS, "stops");
    if (!next(c, &times))
        return 0;
    if (!is_times(&times, &stop->arrival, &stop->departure))
        return no_times(c, &times, station);
    stop->line = station->line;
    train->stops++;
    return 1;
}

int read_train(struct compiling *c, const struct word *keyword)
{
    struct level *level = c->level;
    struct train *train = &level->train[level->trains];
    struct parts parts = {3,
                          {{"delays", "`delays` with the name of a table", read_delays_of_train, &train->type, 0},
                           {"type", NULL, read_byte, &train->type, 0},
                           {"priority", "`priority` with a number", read_byte, &train->priority, 0}}};
    struct names names = train_names(level);
    struct word word;
    unsigned same;
    if (level->trains == MOST_TRAINS)
        return too_many(c, keyword, "a case has", MOST_TRAINS, "trains");
    if (!read_name(c, keyword, &word))
        return 0;
    same = find_name(&names, &word);
    if (same < names.count)
        return called_already(c, &word, "a train", level->train[same].line);
    store_name(&word, train->name);
    train->line = keyword->line;
    level->trains++;
    c->train = train;
    while (next(c, &word)) {
        if (ends(&word))
            return no_part(c, &parts, &word);
        if (!(find_part(&parts, &word) != NULL ? read_part(c, &parts, &word) : read_stop(c, &word)))
            return 0;
    }
    return 0;
}
