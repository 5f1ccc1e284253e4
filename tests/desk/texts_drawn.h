/* Levels, books and texts drawn from a fixed seed: written freely, and damaged. */
#ifndef TESTS_DESK_TEXTS_DRAWN_H
#define TESTS_DESK_TEXTS_DRAWN_H

#include <stdint.h>
#include <stdio.h>
#include <string.h>

#include "level.h"
#include "text.h"

/* ---- drawing */

static uint64_t drawn = 88172645463325252u;

static unsigned draw(unsigned below)
{
    drawn ^= drawn << 13;
    drawn ^= drawn >> 7;
    drawn ^= drawn << 17;
    return (unsigned)(drawn >> 20) % below;
}

static int in_ten(unsigned times)
{
    return draw(10) < times;
}

static const char *one_of(const char *const *words, unsigned count)
{
    return words[draw(count)];
}

#define ONE_OF(words) one_of(words, sizeof(words) / sizeof *(words))

static const char *const starts[] = {"Face", "Tip", "Shaft", "Ore-", "Men", "S", "a",  "Förder", "Шахта", "矿",
                                     "Lower Tip ", "#", "2-3", "+3", "60%", "", " ", "train", "holds", "couple", "é"};
static const char *const ends[] = {"", "1", "-2", " east", "x", "ü", "станция", "#4", "train", "_very_long_name_that_fills_it_all_up"};

/* A name of any kind, at most as long as a name may be, and cut only between characters. */
static void draw_name(char *name)
{
    char whole[200];
    size_t length;
    do {
        snprintf(whole, sizeof whole, "%s%s", ONE_OF(starts), ONE_OF(ends));
        for (length = strlen(whole); length > NAME_BYTES || ((unsigned char)whole[length] & 0xC0) == 0x80;)
            length--;
        memcpy(name, whole, length);
        name[length] = '\0';
        if (in_ten(3) && length + 4 <= NAME_BYTES)
            snprintf(name + length, 5, "%u", draw(1000));
    } while (name[0] == '\0');
}

/* A name that none of the others, which stand `apart` bytes from each other, has. */
static void draw_other_name(const char *first, size_t apart, unsigned count, char *name)
{
    unsigned i;
    do {
        draw_name(name);
        for (i = 0; i < count && strcmp(first + i * apart, name) != 0; i++)
            ;
    } while (i < count);
}

static unsigned draw_number(unsigned sound, unsigned most)
{
    return in_ten(8) ? draw(sound) : in_ten(5) ? most - draw(3) : draw(most + 1);
}

static void draw_table(struct tables *tables, const struct tables *book)
{
    struct table *table = &tables->table[tables->count];
    unsigned same;
    table->type = in_ten(6) ? (tables->count > 0 ? (table[-1].type + 1) % 256 : 1) : draw_number(10, 255);
    do {
        draw_other_name(tables->table[0].name, sizeof *table, tables->count, table->name);
        for (same = 0; same < book->count && strcmp(book->table[same].name, table->name) != 0; same++)
            ;
    } while (same < book->count && book->table[same].type != table->type);
    table->pairs = in_ten(1) ? 8 : draw(9);
    for (unsigned i = 0; i < table->pairs; i++) {
        table->pair[i].delay = draw_number(20, 255);
        table->pair[i].weight = draw_number(101, 255);
    }
    tables->count++;
}

static void draw_tables(struct tables *tables, const struct tables *book)
{
    unsigned count = in_ten(2) ? MOST_TABLES : draw(5);
    memset(tables, 0, sizeof *tables);
    while (tables->count < count)
        draw_table(tables, book);
}

static int is_called_as_another(const struct level *level, const struct track *track, int by_ends)
{
    for (const struct track *other = level->track; other < track; other++)
        if (strcmp(other->name, track->name) == 0 && !(by_ends && other->from == track->from && other->to == track->to))
            return 1;
    return 0;
}

static void draw_track(struct level *level)
{
    struct track *track = &level->track[level->tracks];
    int by_ends = in_ten(6);
    track->from = draw(level->stations);
    track->to = draw(level->stations);
    track->capacity = draw_number(4, 255);
    name_by_ends(level, track);
    while (!by_ends || is_called_as_another(level, track, by_ends)) {
        draw_other_name(level->track[0].name, sizeof *track, level->tracks, track->name);
        by_ends = 1;
    }
    level->tracks++;
}

/* The first track that is called as a track is: two of the same ends may share a name, and a text then means the first. */
static unsigned first_called_so(const struct level *level, unsigned track)
{
    unsigned first = 0;
    while (strcmp(level->track[first].name, level->track[track].name) != 0)
        first++;
    return first;
}

/* Any two tracks, or one twice, that are not coupled with each other yet. */
static void draw_couple(struct level *level)
{
    struct couple *couple = &level->couple[level->couples];
    couple->track[0] = first_called_so(level, draw(level->tracks));
    couple->track[1] = first_called_so(level, draw(level->tracks));
    for (const struct couple *other = level->couple; other < couple; other++)
        for (unsigned k = 0; k < 2; k++)
            if (other->track[k] == couple->track[0] && other->track[1 - k] == couple->track[1])
                return;
    level->couples++;
}

static void draw_train(struct level *level)
{
    struct train *train = &level->train[level->trains];
    draw_other_name(level->train[0].name, sizeof *train, level->trains, train->name);
    train->priority = draw_number(4, 255);
    train->type = draw_number(8, 255);
    train->stops = level->stations == 0 ? 0 : in_ten(2) ? MOST_STOPS : draw(MOST_STOPS + 1);
    for (unsigned i = 0; i < train->stops; i++) {
        train->stop[i].station = draw(level->stations);
        train->stop[i].arrival = draw_number(720, 65535);
        train->stop[i].departure = draw_number(720, 65535);
    }
    level->trains++;
}

static void draw_level(struct level *level, const struct tables *book)
{
    unsigned stations = in_ten(2) ? MOST_STATIONS : draw(8), tracks = in_ten(2) ? MOST_TRACKS : draw(8), trains = in_ten(2) ? MOST_TRAINS : draw(5);
    memset(level, 0, sizeof *level);
    if (in_ten(7))
        snprintf(level->title, sizeof level->title, "%s %u%s", in_ten(5) ? "Level \"3\", 早班" : "train", draw(100), in_ten(5) ? "" : " a \"b");
    level->head = (struct head){draw_number(720, 65535), draw_number(31, 255), in_ten(5) ? 1024 : draw_number(1025, 65535), 0, 0, 0};
    for (; level->stations < stations; level->stations++) {
        struct station *station = &level->station[level->stations];
        draw_other_name(level->station[0].name, sizeof *station, level->stations, station->name);
        station->capacity = draw_number(4, 255);
    }
    while (level->stations > 0 && level->tracks < tracks)
        draw_track(level);
    for (unsigned times = in_ten(2) ? 60 : draw(6); level->tracks > 0 && level->couples < MOST_COUPLES && times > 0; times--)
        draw_couple(level);
    while (level->trains < trains)
        draw_train(level);
    draw_tables(&level->tables, book);
}

/* ---- a level written freely: statements and parts in any order, with all that may be left out and put in */

static void add(struct text *text, const char *words)
{
    size_t length = strlen(words);
    if (text->length + length <= MOST_TEXT) {
        memcpy(text->at + text->length, words, length);
        text->length += length;
    }
}

static void add_number(struct text *text, const char *before, unsigned number, const char *after)
{
    char written[32];
    snprintf(written, sizeof written, "%s%u%s", before, number, after);
    add(text, written);
}

static void add_space(struct text *text)
{
    static const char *const spaces[] = {" ", "  ", "\t", " \t "};
    add(text, ONE_OF(spaces));
}

static void add_line_end(struct text *text)
{
    static const char *const line_ends[] = {"\n", "\n", "\r\n", "\n\n", " # train \"x\n", "#\xE4\n", "\r", "\n  # window 3\r\n\n"};
    add(text, ONE_OF(line_ends));
}

/* Whether a name is one without quotes; said here without the compiler's code. */
static int is_plain(const char *name)
{
    static const char *const kept[] = {"title", "window", "safety", "room", "station", "track", "couple", "delays", "train", "holds",
                                       "from", "to", "type", "priority"};
    int letter = 0;
    for (size_t i = 0; i < sizeof kept / sizeof *kept; i++)
        if (strcmp(kept[i], name) == 0)
            return 0;
    for (const char *at = name; *at != '\0'; at++)
        letter |= (*at >= 'a' && *at <= 'z') || (*at >= 'A' && *at <= 'Z') || (*at & 0x80) != 0;
    return letter && strpbrk(name, " #") == NULL;
}

static void add_name(struct text *text, const char *name)
{
    int quoted = !is_plain(name) || in_ten(2);
    add(text, quoted ? "\"" : "");
    add(text, name);
    add(text, quoted ? "\"" : "");
}

static void add_part(struct text *text, const char *keyword, const char *name, unsigned number)
{
    add_space(text);
    add(text, keyword);
    add_space(text);
    if (name != NULL)
        add_name(text, name);
    else
        add_number(text, "", number, "");
}

static void write_head(struct text *text, const struct level *level, unsigned nth)
{
    if (nth == 0)
        add_part(text, "window", NULL, level->head.last);
    else if (nth == 1)
        add_part(text, "safety", NULL, level->head.safety);
    else if (nth == 2 && (level->head.room != MOST_ROOM || in_ten(3)))
        add_part(text, "room", NULL, level->head.room);
    else if (nth == 3 && level->title[0] != '\0') {
        add(text, " title\t");
        add(text, level->title);
    }
}

static void write_station(struct text *text, const struct level *level, unsigned nth)
{
    add_part(text, "station", level->station[nth].name, 0);
    add_part(text, "holds", NULL, level->station[nth].capacity);
}

/* A track's name may be written though it is that of its ends, if it was not cut. */
static void write_track(struct text *text, const struct level *level, unsigned nth)
{
    const struct track *track = &level->track[nth];
    struct track by_ends = *track;
    unsigned turn = draw(3);
    name_by_ends(level, &by_ends);
    add(text, "track");
    if (strcmp(by_ends.name, track->name) != 0 || (strlen(track->name) < NAME_BYTES && in_ten(1) && !is_called_as_another(level, track, 0)))
        add_part(text, "", track->name, 0);
    for (unsigned i = 0; i < 3; i++) {
        unsigned part = (i + turn) % 3;
        if (part < 2)
            add_part(text, part == 0 ? "from" : "to", level->station[part == 0 ? track->from : track->to].name, 0);
        else
            add_part(text, "holds", NULL, track->capacity);
    }
}

static void write_couple(struct text *text, const struct level *level, unsigned nth)
{
    add_part(text, "couple", level->track[level->couple[nth].track[0]].name, 0);
    add_part(text, "", level->track[level->couple[nth].track[1]].name, 0);
}

static void write_table(struct text *text, const struct tables *tables, unsigned nth)
{
    const struct table *table = &tables->table[nth];
    int type_follows = nth == 0 ? table->type == 1 : table->type == table[-1].type + 1, type_written = type_follows && in_ten(5);
    add_part(text, "delays", table->name, 0);
    for (unsigned i = 0; i <= table->pairs; i++) {
        if (!type_written && (i == table->pairs || in_ten(3))) {
            add_part(text, "type", NULL, table->type);
            type_written = 1;
        }
        if (i < table->pairs) {
            add_number(text, " +", table->pair[i].delay, "\t");
            add_number(text, "", table->pair[i].weight, "%");
        }
    }
}

static const struct table *named_by(const struct level *level, const struct tables *book, unsigned type)
{
    const struct table *table = table_of(level, book, type);
    return table != NULL && in_ten(7) ? table : NULL;
}

static void write_train(struct text *text, const struct level *level, const struct tables *book, unsigned nth)
{
    const struct train *train = &level->train[nth];
    const struct table *table = named_by(level, book, train->type);
    int priority_first = in_ten(5);
    add_part(text, "train", train->name, 0);
    if (priority_first)
        add_part(text, "priority", NULL, train->priority);
    add_part(text, table != NULL ? "delays" : "type", table != NULL ? table->name : NULL, train->type);
    if (!priority_first)
        add_part(text, "priority", NULL, train->priority);
    for (unsigned i = 0; i < train->stops; i++) {
        if (in_ten(8))
            add_line_end(text);
        add_part(text, "", level->station[train->stop[i].station].name, 0);
        add_number(text, " ", train->stop[i].arrival, "-");
        add_number(text, "", train->stop[i].departure, "");
    }
}

static void write_nth(struct text *text, const struct level *level, const struct tables *book, unsigned kind, unsigned nth)
{
    switch (kind) {
    case 0:
        write_head(text, level, nth);
        break;
    case 1:
        write_station(text, level, nth);
        break;
    case 2:
        write_track(text, level, nth);
        break;
    case 3:
        write_table(text, &level->tables, nth);
        break;
    case 4:
        write_couple(text, level, nth);
        break;
    default:
        write_train(text, level, book, nth);
    }
    add_line_end(text);
}

static void write_freely(const struct level *level, const struct tables *book, struct text *text)
{
    enum { KINDS = 6 };
    const unsigned counts[KINDS] = {4, level->stations, level->tracks, level->tables.count, level->couples, level->trains};
    unsigned written[KINDS] = {0}, left = 0;
    text->length = 0;
    if (in_ten(3))
        add(text, "\xEF\xBB\xBF");
    for (unsigned kind = 0; kind < KINDS; kind++)
        left += counts[kind];
    for (; left > 0; left--) {
        unsigned kind = draw(KINDS);
        while (written[kind] == counts[kind])
            kind = (kind + 1) % KINDS;
        write_nth(text, level, book, kind, written[kind]++);
    }
}

/* ---- damaged texts */

static void cut_out(struct text *text, size_t from, size_t past)
{
    memmove(text->at + from, text->at + past, text->length - past);
    text->length -= past - from;
}

static void put_in(struct text *text, size_t at, const char *words, size_t length)
{
    if (text->length + length > MOST_TEXT)
        return;
    memmove(text->at + at + length, text->at + at, text->length - at);
    memcpy(text->at + at, words, length);
    text->length += length;
}

static int is_space(char byte)
{
    return byte == ' ' || byte == '\t' || byte == '\n' || byte == '\r';
}

/* The place of a drawn word, and of its end. */
static size_t draw_word(const struct text *text, size_t *past)
{
    size_t from = text->length > 0 ? draw((unsigned)text->length) : 0;
    while (from < text->length && is_space(text->at[from]))
        from++;
    while (from > 0 && !is_space(text->at[from - 1]))
        from--;
    for (*past = from; *past < text->length && !is_space(text->at[*past]);)
        ++*past;
    return from;
}

/* Takes a line of a text, with its end. */
static size_t draw_line(const struct text *text, char *line, size_t most, size_t *at)
{
    size_t from = text->length > 0 ? draw((unsigned)text->length) : 0, past, length;
    while (from > 0 && text->at[from - 1] != '\n')
        from--;
    for (past = from; past < text->length && text->at[past++] != '\n';)
        ;
    length = past - from < most ? past - from : most;
    memcpy(line, text->at + from, length);
    *at = from;
    return length;
}

static void damage_line(struct text *text, unsigned how)
{
    char line[300];
    size_t at, length = draw_line(text, line, sizeof line, &at);
    if (how != 0)
        cut_out(text, at, at + length);
    if (how != 1)
        put_in(text, how == 0 ? at : draw((unsigned)text->length + 1), line, length);
}

static void damage_word(struct text *text)
{
    static const char *const words[] = {"train", "holds", "2-3", "3-2-1", "+3", "40%", "256", "65536", "01", "\"", "\"Lower Tip\"", "Face", "Tip", "type",
                                        "99999999999999", "from", "Tpi", "#", "", "delay", "-", "%", "+", "0", "7", "\"\"", "\xC3", "title", "delays",
                                        "couple", "\xC2\xA0"};
    char copied[80];
    size_t past, from = draw_word(text, &past), length;
    const char *word = ONE_OF(words);
    if (in_ten(5)) {
        size_t end, begin = draw_word(text, &end);
        length = end - begin < sizeof copied - 1 ? end - begin : sizeof copied - 1;
        memcpy(copied, text->at + begin, length);
        copied[length] = '\0';
        word = copied;
    }
    cut_out(text, from, past);
    put_in(text, from, word, strlen(word));
}

static void damage_bytes(struct text *text, unsigned how)
{
    static char long_word[5000];
    size_t at = text->length > 0 ? draw((unsigned)text->length) : 0;
    char byte = (char)draw(256);
    if (how == 0 && text->length > 0)
        text->at[at] = (char)(text->at[at] ^ (1 << draw(8)));
    else if (how == 1)
        text->length = at;
    else if (how == 2)
        put_in(text, at, &byte, 1);
    else if (how == 3 && text->length > 0)
        cut_out(text, at, at + 1);
    else if (how == 4) {
        size_t length = draw(sizeof long_word);
        memset(long_word, in_ten(5) ? 'a' : '1', length);
        put_in(text, at, long_word, length);
    } else if (how == 5 && in_ten(2))
        for (text->length = 0; text->length < 200;)
            text->at[text->length++] = (char)draw(256);
}

static void damage(struct text *text)
{
    for (unsigned times = 1 + draw(3); times > 0; times--) {
        unsigned how = draw(14);
        if (how < 6)
            damage_bytes(text, how);
        else if (how < 10)
            damage_line(text, how - 6);
        else
            damage_word(text);
    }
}

#endif
