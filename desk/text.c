/* A text compiled to a level: it is read three times, first for what there is, then for the names that point to it, and last for the tracks that are coupled,
 * many of which have their names from their ends. */
#include "text.h"

#include <string.h>

#include "text_compiling.h"

static const struct statement {
    const char *keyword;
    int (*read)(struct compiling *c, const struct word *keyword);
} statements[] = {{"title", read_title},     {"window", read_window}, {"safety", read_safety}, {"room", read_room},
                  {"station", read_station}, {"track", read_track},   {"couple", read_couple}, {"delays", read_table}, {"train", read_train}};

static const struct statement *find_statement(const struct word *word)
{
    for (size_t i = 0; i < sizeof statements / sizeof *statements; i++)
        if (is_word(word, statements[i].keyword))
            return &statements[i];
    return NULL;
}

/* Whether minutes of arrival and departure stand after the word that was read last. */
static int times_follow(const struct compiling *c)
{
    struct text_error unused;
    struct reader ahead = c->reader;
    struct word word;
    unsigned arrival, departure;
    ahead.error = &unused;
    return next_word(&ahead, &word) && is_times(&word, &arrival, &departure);
}

/* Whether the word is bytes in hex, as `01` or `0005`. */
static int is_hex(const struct word *word)
{
    for (size_t i = 0; i < word->length; i++)
        if (strchr("0123456789abcdefABCDEF", word->at[i]) == NULL)
            return 0;
    return word->kind == PLAIN && word->length > 0 && word->length % 2 == 0;
}

static int no_statement(struct compiling *c, const struct word *word)
{
    const char *nearest = nearest_statement(word);
    if (nearest != NULL)
        return refuse(c->reader.error, word, "no statement begins with %s; is it `%s`?", said_word(word).text, nearest);
    if (word->kind == PLAIN && word->at[0] == '+')
        return refuse(c->reader.error, word, "%s begins a line; the delays of a table stand on one line with its name", said_word(word).text);
    if (times_follow(c))
        return refuse(c->reader.error, word, "%s looks like a stop, but no train stands before it; stops come right after the line of their train",
                      said_word(word).text);
    if (is_hex(word) && c->level->stations == 0)
        return refuse(c->reader.error, word, "%s looks like bytes written in hex; a case is a text of statements, or the bytes themselves",
                      said_word(word).text);
    if (c->is_book)
        return expected(c->reader.error, word, "`delays` is expected");
    return expected(c->reader.error, word, "`title`, `window`, `safety`, `room`, `station`, `track`, `couple`, `delays` or `train` is expected");
}

static int read_stops(struct compiling *c, struct word *word)
{
    for (; !ends(word);)
        if (!read_stop(c, word) || !next(c, word))
            return 0;
    return 1;
}

/* A line, from its first word: a statement, or more stops of the train before it. */
static int read_line(struct compiling *c, struct word *word)
{
    const struct statement *statement = find_statement(word);
    if (statement == NULL && c->train != NULL && (times_follow(c) || nearest_statement(word) == NULL)) {
        if (is_keyword(word))
            return refuse(c->reader.error, word, "%s stands on the line of its train, which is line %u", said_word(word).text, c->train->line);
        return read_stops(c, word);
    }
    if (statement == NULL)
        return no_statement(c, word);
    if (c->is_book && statement->read != read_table)
        return expected(c->reader.error, word, "a book has `delays` only");
    c->train = NULL;
    return statement->read(c, word);
}

static int judge_whole(struct compiling *c, const struct word *end)
{
    if (c->is_book)
        return 1;
    if (c->once.window == 0)
        return refuse(c->reader.error, end, "`window` is missing: write `window` and the last minute");
    if (c->once.safety == 0)
        return refuse(c->reader.error, end,
                      "`safety` is missing: write `safety` and the minutes that a station or track stays blocked after a train has left it");
    return 1;
}

static int read_text(struct compiling *c)
{
    struct word word;
    memset(c->level, 0, sizeof *c->level);
    c->level->head.room = MOST_ROOM;
    do {
        if (!next(c, &word))
            return 0;
        if (!ends(&word) && !read_line(c, &word))
            return 0;
    } while (word.kind != TEXT_ENDS);
    return judge_whole(c, &word);
}

int compile_case(const struct text *text, const struct tables *book, struct level *level, struct text_error *error)
{
    static struct level known, named;
    struct compiling readings[] = {{.level = &known, .book = book},
                                   {.level = &named, .known = &known, .book = book},
                                   {.level = level, .known = &known, .named = &named, .book = book}};
    for (unsigned i = 0; i < sizeof readings / sizeof *readings; i++) {
        begin_words(&readings[i].reader, text, error);
        if (!read_text(&readings[i]))
            return 0;
    }
    return 1;
}

int compile_book(const struct text *text, struct tables *book, struct text_error *error)
{
    static const struct tables no_book;
    static struct level level;
    struct compiling reading = {.level = &level, .book = &no_book, .is_book = 1};
    begin_words(&reading.reader, text, error);
    if (!read_text(&reading))
        return 0;
    *book = level.tables;
    return 1;
}
