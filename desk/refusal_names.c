/* What the elements of a refused file are called, and which fields stand in it. */
#include "refusal_words.h"

#include <stdarg.h>
#include <string.h>

static const char *const kinds[] = {NULL, "head", "station", "track", "train", "delay table", "couple"};

const char *kind_of(unsigned tag)
{
    return tag >= TAG_HEAD && tag <= LAST_TAG ? kinds[tag] : NULL;
}

int possible_length(unsigned tag, unsigned size)
{
    switch (tag) {
    case TAG_HEAD:
        return size == 5;
    case TAG_STATION:
        return size == 1;
    case TAG_TRACK:
        return size == 3;
    case TAG_TRAIN:
        return size >= 12 && size <= 42 && size % 5 == 2;
    case TAG_TABLE:
        return size >= 3 && size <= 17 && size % 2 == 1;
    case TAG_COUPLE:
        return size == 2;
    default:
        return 0;
    }
}

unsigned count_before(const struct bytes *bytes, unsigned tag, size_t place)
{
    struct field field;
    unsigned count = 0;
    int whole = field_at(bytes, 0, &field);
    for (; whole && field.place < place; whole = field_at(bytes, field.place + FIELD_HEADER + field.size, &field))
        count += field.tag == tag;
    return count;
}

const uint8_t *body_of(const struct fault *fault)
{
    return fault->whole && possible_length(fault->field.tag, fault->field.size) ? fault->bytes->at + fault->field.place + FIELD_HEADER : NULL;
}

const uint8_t *nth_body(const struct bytes *bytes, unsigned tag, unsigned nth)
{
    struct field field;
    int whole = field_at(bytes, 0, &field);
    for (; whole; whole = field_at(bytes, field.place + FIELD_HEADER + field.size, &field))
        if (field.tag == tag && field.nth == nth)
            return possible_length(tag, field.size) ? bytes->at + field.place + FIELD_HEADER : NULL;
    return NULL;
}

unsigned track_with_ends(const struct fault *fault, unsigned from, unsigned to)
{
    unsigned tracks = count_before(fault->bytes, TAG_TRACK, fault->field.place), track;
    for (track = 0; track < tracks; track++) {
        const uint8_t *body = nth_body(fault->bytes, TAG_TRACK, track);
        if (body != NULL && body[0] == from && body[1] == to)
            break;
    }
    return track;
}

unsigned number_at(const uint8_t *at)
{
    return at[0] * 256u + at[1];
}

/* ---- names */

struct called named(const char *kind, const char *name, unsigned number)
{
    struct called called;
    if (name == NULL)
        snprintf(called.text, sizeof called.text, "%s %u", kind, number);
    else
        snprintf(called.text, sizeof called.text, strchr(name, ' ') != NULL ? "%s \"%s\"" : "%s %s", kind, name);
    return called;
}

const struct level *text_level(const struct fault *fault)
{
    return fault->study->case_is_text && !fault->in_book ? &fault->study->level : NULL;
}

int was_text(const struct fault *fault)
{
    return fault->in_book ? fault->study->book_is_text : fault->study->case_is_text;
}

struct called station_called(const struct fault *fault, unsigned number)
{
    const struct level *level = text_level(fault);
    return named("station", level != NULL && number < level->stations ? level->station[number].name : NULL, number);
}

struct called track_called(const struct fault *fault, unsigned number)
{
    const struct level *level = text_level(fault);
    return named("track", level != NULL && number < level->tracks ? level->track[number].name : NULL, number);
}

struct called train_called(const struct fault *fault, unsigned number)
{
    const struct level *level = text_level(fault);
    return named("train", level != NULL && number < level->trains ? level->train[number].name : NULL, number);
}

static const struct table *text_table(const struct fault *fault, unsigned number)
{
    const struct tables *tables = fault->in_book ? &fault->study->book : &fault->study->level.tables;
    return was_text(fault) && number < tables->count ? &tables->table[number] : NULL;
}

struct called table_called(const struct fault *fault, unsigned number)
{
    const struct table *table = text_table(fault, number);
    return named("delay table", table != NULL ? table->name : NULL, number);
}

struct called couple_called(const struct fault *fault, unsigned number)
{
    const struct level *level = text_level(fault);
    struct called first, second, called;
    if (level == NULL || number >= level->couples)
        return named("couple", NULL, number);
    first = track_called(fault, level->couple[number].track[0]);
    second = track_called(fault, level->couple[number].track[1]);
    snprintf(called.text, sizeof called.text, "couple%s%s", strchr(first.text, ' '), strchr(second.text, ' '));
    return called;
}

struct called element_called(const struct fault *fault)
{
    switch (fault->field.tag) {
    case TAG_STATION:
        return station_called(fault, fault->field.nth);
    case TAG_TRACK:
        return track_called(fault, fault->field.nth);
    case TAG_TRAIN:
        return train_called(fault, fault->field.nth);
    case TAG_TABLE:
        return table_called(fault, fault->field.nth);
    case TAG_COUPLE:
        return couple_called(fault, fault->field.nth);
    default:
        return (struct called){"the head"};
    }
}

unsigned element_line(const struct fault *fault)
{
    const struct level *level = text_level(fault);
    const struct table *table = text_table(fault, fault->field.nth);
    unsigned nth = fault->field.nth;
    if (fault->field.tag == TAG_TABLE)
        return table != NULL ? table->line : 0;
    if (level == NULL)
        return 0;
    if (fault->field.tag == TAG_STATION && nth < level->stations)
        return level->station[nth].line;
    if (fault->field.tag == TAG_TRACK && nth < level->tracks)
        return level->track[nth].line;
    if (fault->field.tag == TAG_COUPLE && nth < level->couples)
        return level->couple[nth].line;
    return fault->field.tag == TAG_TRAIN && nth < level->trains ? level->train[nth].line : 0;
}

/* ---- sentences */

static void add_sentence(char *to, size_t most, const char *format, va_list values)
{
    size_t length = strlen(to);
    vsnprintf(to + length, most - length - 1, format, values);
    length = strlen(to);
    to[length] = '\n';
    to[length + 1] = '\0';
}

void say_wrong(struct words *words, const char *format, ...)
{
    va_list values;
    va_start(values, format);
    add_sentence(words->wrong, sizeof words->wrong, format, values);
    va_end(values);
}

void say_mend(struct words *words, const char *format, ...)
{
    va_list values;
    va_start(values, format);
    add_sentence(words->mend, sizeof words->mend, format, values);
    va_end(values);
}
