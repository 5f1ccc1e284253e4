/* Numbers, names and parts, read from a text with every error said. */
#include "text_compiling.h"

#include <string.h>

int next(struct compiling *c, struct word *word)
{
    return next_word(&c->reader, word);
}

/* ---- numbers and names */

/* The numbers that an error offers after a keyword. Which of those that its field can hold are sound is the reader's to judge. */
struct range {
    const char *keyword;
    unsigned least, most;
};

static struct range range_after(const struct word *keyword, unsigned most)
{
    static const struct range ranges[] = {{"window", 1, MOST_MINUTE}, {"safety", 0, MOST_SAFETY}, {"room", 1, MOST_ROOM}, {"holds", 1, MOST_BYTE}};
    for (unsigned i = 0; i < sizeof ranges / sizeof *ranges; i++)
        if (is_word(keyword, ranges[i].keyword))
            return ranges[i];
    return (struct range){NULL, 0, most};
}

int read_number_after(struct compiling *c, const struct word *keyword, unsigned most, unsigned *number)
{
    const struct range range = range_after(keyword, most);
    struct word word;
    if (!next(c, &word))
        return 0;
    if (is_number(&word, most, number))
        return 1;
    expected(c->reader.error, &word, "a whole number of %u to %u is expected after %s", range.least, range.most, said_word(keyword).text);
    if (word.kind == PLAIN && word.length > 1 && word.at[0] == '0')
        add_words(c->reader.error, "; a number is written without a 0 before it");
    return 0;
}

int read_byte(struct compiling *c, const struct word *keyword, unsigned *number)
{
    return read_number_after(c, keyword, MOST_BYTE, number);
}

int judge_name(struct compiling *c, const struct word *word, const char *what, const struct word *keyword)
{
    if (!is_name(word)) {
        expected(c->reader.error, word, "%s is expected after %s", what, said_word(keyword).text);
        if (is_keyword(word))
            add_words(c->reader.error, "; a keyword is a name only in double quotes");
        else if (word->kind == PLAIN)
            add_words(c->reader.error, "; a name has a letter, or double quotes around it");
        return 0;
    }
    if (word->length > NAME_BYTES)
        return refuse(c->reader.error, word, "a name of at most %d bytes is expected, and %s has %lu", (int)NAME_BYTES, said_word(word).text,
                      (unsigned long)word->length);
    return 1;
}

int read_name(struct compiling *c, const struct word *keyword, struct word *name)
{
    return next(c, name) && judge_name(c, name, "a name", keyword);
}

void store_name(const struct word *word, char *name)
{
    memcpy(name, word->at, word->length);
    name[word->length] = '\0';
}

int called_already(struct compiling *c, const struct word *word, const char *kind, unsigned line)
{
    return refuse(c->reader.error, word, "%s called %s stands in line %u already; give this one another name", kind, said_word(word).text, line);
}

int too_many(struct compiling *c, const struct word *word, const char *owner_has, unsigned most, const char *kind)
{
    return refuse(c->reader.error, word, "%s at most %u %s, and this is one more", owner_has, most, kind);
}

static int no_such(struct compiling *c, const struct word *word, const char *kind, const char *nearest)
{
    refuse(c->reader.error, word, "no %s is called %s", kind, said_word(word).text);
    if (nearest != NULL) {
        struct word meant = {needs_quotes(nearest) ? QUOTED : PLAIN, nearest, strlen(nearest), 0, 0};
        add_words(c->reader.error, "; is it %s?", said_word(&meant).text);
    }
    return 0;
}

int find_station(struct compiling *c, const struct word *word, const struct word *keyword, unsigned *station)
{
    struct names names;
    if (!judge_name(c, word, "the name of a station", keyword))
        return 0;
    if (c->known == NULL)
        return 1;
    names = station_names(c->known);
    *station = find_name(&names, word);
    return *station < names.count || no_such(c, word, "station", nearest_name(&names, word));
}

int read_end(struct compiling *c, const struct word *keyword, unsigned *station)
{
    struct word word;
    return next(c, &word) && find_station(c, &word, keyword, station);
}

int read_coupled(struct compiling *c, const struct word *after, struct word *word, unsigned *track)
{
    struct names names;
    if (!next(c, word) || !judge_name(c, word, "the name of a track", after))
        return 0;
    if (c->named == NULL)
        return 1;
    names = track_names(c->named);
    *track = find_name(&names, word);
    return *track < names.count || no_such(c, word, "track", nearest_name(&names, word));
}

/* The table of a name: the case's, otherwise the book's; null, and an error, if neither has one. */
static const struct table *find_table(struct compiling *c, const struct word *word)
{
    struct names own = table_names(&c->known->tables), of_book = table_names(c->book);
    unsigned in_case = find_name(&own, word), in_book = find_name(&of_book, word);
    const char *nearest = nearest_name(&own, word);
    if (in_case < own.count)
        return &c->known->tables.table[in_case];
    if (in_book < of_book.count)
        return &c->book->table[in_book];
    if (nearest == NULL)
        nearest = nearest_name(&of_book, word);
    no_such(c, word, "delay table", nearest);
    if (nearest == NULL && of_book.count == 0)
        add_words(c->reader.error, "; a table of a book is known only if --book gives the book");
    return NULL;
}

int read_delays_of_train(struct compiling *c, const struct word *keyword, unsigned *type)
{
    struct word word;
    const struct table *named, *taken;
    if (!next(c, &word) || !judge_name(c, &word, "the name of a delay table", keyword))
        return 0;
    if (c->known == NULL)
        return 1;
    named = find_table(c, &word);
    if (named == NULL)
        return 0;
    *type = named->type;
    taken = table_of(c->known, c->book, named->type);
    if (taken != named)
        return refuse(c->reader.error, &word, "%s has type %u, and so has `%s`, which goes first: this train would take `%s`; give one of the two another type",
                      said_word(&word).text, named->type, taken->name, taken->name);
    return 1;
}

/* ---- the parts of a line */

struct part *find_part(struct parts *parts, const struct word *word)
{
    for (unsigned i = 0; i < parts->count; i++)
        if (is_word(word, parts->part[i].keyword))
            return &parts->part[i];
    return NULL;
}

int read_part(struct compiling *c, struct parts *parts, const struct word *word)
{
    struct part *part = find_part(parts, word);
    if (part->said)
        return refuse(c->reader.error, word, "%s says a second time what this line has said already", said_word(word).text);
    for (unsigned i = 0; i < parts->count; i++)
        if (parts->part[i].value == part->value)
            parts->part[i].said = 1;
    return part->read(c, word, part->value);
}

int no_part(struct compiling *c, const struct parts *parts, const struct word *word)
{
    for (unsigned i = 0; i < parts->count; i++)
        if (!parts->part[i].said && parts->part[i].written != NULL) {
            expected(c->reader.error, word, "%s is expected", parts->part[i].written);
            if (is_name(word))
                add_words(c->reader.error, "; a name with spaces stands in double quotes");
            return 0;
        }
    return ends(word) || expected(c->reader.error, word, "the end of the line is expected");
}

int read_parts(struct compiling *c, struct parts *parts, struct word *word)
{
    for (; find_part(parts, word) != NULL;)
        if (!read_part(c, parts, word) || !next(c, word))
            return 0;
    return no_part(c, parts, word);
}
