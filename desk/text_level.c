/* The statements of a level: its window and what else it has once, stations, tracks and couples. */
#include <string.h>

#include "text_compiling.h"

/* ---- statements that a case has once */

/* Stores the line of the statement; an error if there was one before. */
static int only_once(struct compiling *c, const struct word *keyword, unsigned *line)
{
    if (*line != 0)
        return refuse(c->reader.error, keyword, "%s stands in line %u already; a case has it once", said_word(keyword).text, *line);
    *line = keyword->line;
    return 1;
}

static int read_line_end(struct compiling *c)
{
    struct word word;
    return next(c, &word) && (ends(&word) || expected(c->reader.error, &word, "the end of the line is expected"));
}

int read_window(struct compiling *c, const struct word *keyword)
{
    c->level->head.line = keyword->line;
    return only_once(c, keyword, &c->once.window) && read_number_after(c, keyword, MOST_WORD, &c->level->head.last) && read_line_end(c);
}

int read_safety(struct compiling *c, const struct word *keyword)
{
    c->level->head.safety_line = keyword->line;
    return only_once(c, keyword, &c->once.safety) && read_byte(c, keyword, &c->level->head.safety) && read_line_end(c);
}

int read_room(struct compiling *c, const struct word *keyword)
{
    c->level->head.room_line = keyword->line;
    return only_once(c, keyword, &c->once.room) && read_number_after(c, keyword, MOST_WORD, &c->level->head.room) && read_line_end(c);
}

/* A title is the words to the end of the line, with one space between two. */
int read_title(struct compiling *c, const struct word *keyword)
{
    char *title = c->level->title;
    struct word word;
    size_t length = 0;
    if (!only_once(c, keyword, &c->once.title))
        return 0;
    for (c->reader.raw = 1; next(c, &word) && !ends(&word);) {
        if (length + (length > 0) + word.length > TITLE_BYTES)
            return refuse(c->reader.error, &word, "a title has at most %d bytes, and this word goes past them", (int)TITLE_BYTES);
        if (length > 0)
            title[length++] = ' ';
        memcpy(title + length, word.at, word.length);
        length += word.length;
    }
    c->reader.raw = 0;
    title[length] = '\0';
    return ends(&word) && (length > 0 || expected(c->reader.error, &word, "the words of the title are expected after `title`"));
}

/* ---- stations and tracks */

int read_station(struct compiling *c, const struct word *keyword)
{
    struct level *level = c->level;
    struct station *station = &level->station[level->stations];
    struct parts parts = {1, {{"holds", "`holds` with a number", read_byte, &station->capacity, 0}}};
    struct names names = station_names(level);
    struct word word;
    unsigned same;
    if (level->stations == MOST_STATIONS)
        return too_many(c, keyword, "a case has", MOST_STATIONS, "stations");
    if (!read_name(c, keyword, &word))
        return 0;
    same = find_name(&names, &word);
    if (same < names.count)
        return called_already(c, &word, "a station", level->station[same].line);
    store_name(&word, station->name);
    station->line = keyword->line;
    level->stations++;
    return next(c, &word) && read_parts(c, &parts, &word);
}

/* Names a track that has no name by its ends, and sees that no other track is called so. Two tracks with the same ends are left to the reader. */
static int settle_track(struct compiling *c, const struct word *keyword, const struct word *name)
{
    struct track *track = &c->level->track[c->level->tracks - 1];
    struct names names = track_names(c->level);
    struct word called;
    const struct track *same;
    if (name == NULL)
        name_by_ends(c->known, track);
    called = (struct word){PLAIN, track->name, strlen(track->name), keyword->line, keyword->column};
    same = &c->level->track[find_name(&names, &called)];
    if (same == track || (name == NULL && same->from == track->from && same->to == track->to))
        return 1;
    if (name != NULL)
        return called_already(c, name, "a track", same->line);
    return refuse(c->reader.error, keyword, "this track would be called `%s` by its ends, as that of line %u is; give it a name of its own", track->name,
                  same->line);
}

int read_track(struct compiling *c, const struct word *keyword)
{
    struct track *track = &c->level->track[c->level->tracks];
    struct parts parts = {3,
                          {{"from", "`from` with a station", read_end, &track->from, 0},
                           {"to", "`to` with a station", read_end, &track->to, 0},
                           {"holds", "`holds` with a number", read_byte, &track->capacity, 0}}};
    struct word word, name;
    int has_name;
    if (c->level->tracks == MOST_TRACKS)
        return too_many(c, keyword, "a case has", MOST_TRACKS, "tracks");
    if (!next(c, &word))
        return 0;
    has_name = find_part(&parts, &word) == NULL;
    name = word;
    if (has_name && (!judge_name(c, &name, "a name or `from`", keyword) || !next(c, &word)))
        return 0;
    if (has_name)
        store_name(&name, track->name);
    track->line = keyword->line;
    c->level->tracks++;
    return read_parts(c, &parts, &word) && (c->known == NULL || settle_track(c, keyword, has_name ? &name : NULL));
}

/* ---- couples */

/* Sees that the last couple is no other once more. All else that is asked of its tracks is left to the reader. */
static int settle_couple(struct compiling *c, const struct word *first, const struct word *second)
{
    const struct couple *couple = &c->level->couple[c->level->couples - 1];
    for (const struct couple *other = c->level->couple; other < couple; other++)
        for (unsigned turn = 0; turn < 2; turn++)
            if (other->track[turn] == couple->track[0] && other->track[1 - turn] == couple->track[1])
                return refuse(c->reader.error, first, "%s and %s are coupled in line %u already; write each couple once", said_word(first).text,
                              said_word(second).text, other->line);
    return 1;
}

int read_couple(struct compiling *c, const struct word *keyword)
{
    struct couple *couple = &c->level->couple[c->level->couples];
    struct word first, second, end;
    if (c->level->couples == MOST_COUPLES)
        return too_many(c, keyword, "a case has", MOST_COUPLES, "couples");
    couple->line = keyword->line;
    if (!read_coupled(c, keyword, &first, &couple->track[0]) || !read_coupled(c, &first, &second, &couple->track[1]) || !next(c, &end))
        return 0;
    c->level->couples++;
    if (ends(&end))
        return c->named == NULL || settle_couple(c, &first, &second);
    expected(c->reader.error, &end, "the end of the line is expected");
    if (is_name(&end))
        add_words(c->reader.error, "; a name with spaces stands in double quotes");
    return 0;
}
