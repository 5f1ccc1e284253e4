/* Fields to a level and back. */
#include "bytes.h"

#include <string.h>

#include "lampreysong.h"

enum { HEADER = 3, STOP = 5, PAIR = 2 }; /* bytes of a field's header, of a stop and of a pair */

int field_at(const struct bytes *bytes, size_t place, struct field *field)
{
    unsigned seen[256] = {0};
    field->place = 0;
    for (field->number = 1;; field->number++) {
        struct lampreysong_viewed v = lampreysong_field(bytes->at, bytes->length, field->place);
        field->tag = v.tag;
        field->size = v.size;
        field->nth = v.given ? seen[v.tag & 255]++ : 0;
        if (field->place >= place || !v.given)
            return field->place == place && v.given;
        field->place = (size_t)v.next;
    }
}

/* ---- taking apart */

static unsigned word(const uint8_t *at)
{
    return at[0] * 256u + at[1];
}

static void take_train(const uint8_t *body, unsigned size, struct train *train)
{
    train->priority = body[0];
    train->type = body[1];
    train->stops = (size - 2) / STOP;
    for (unsigned i = 0; i < train->stops; i++) {
        const uint8_t *stop = body + 2 + i * STOP;
        train->stop[i].station = stop[0];
        train->stop[i].arrival = word(stop + 1);
        train->stop[i].departure = word(stop + 3);
    }
}

static void take_table(const uint8_t *body, unsigned size, struct tables *tables)
{
    struct table *table = &tables->table[tables->count++];
    table->type = body[0];
    table->pairs = (size - 1) / PAIR;
    for (unsigned i = 0; i < table->pairs; i++) {
        table->pair[i].delay = body[1 + i * PAIR];
        table->pair[i].weight = body[2 + i * PAIR];
    }
}

static void take_field(unsigned tag, const uint8_t *body, unsigned size, struct level *level)
{
    struct track *track;
    struct couple *couple;
    switch (tag) {
    case TAG_HEAD:
        level->head.last = word(body);
        level->head.safety = body[2];
        level->head.room = word(body + 3);
        break;
    case TAG_STATION:
        level->station[level->stations++].capacity = body[0];
        break;
    case TAG_TRACK:
        track = &level->track[level->tracks++];
        track->from = body[0];
        track->to = body[1];
        track->capacity = body[2];
        break;
    case TAG_TRAIN:
        take_train(body, size, &level->train[level->trains++]);
        break;
    case TAG_COUPLE:
        couple = &level->couple[level->couples++];
        couple->track[0] = body[0];
        couple->track[1] = body[1];
        break;
    default:
        take_table(body, size, &level->tables);
    }
}

void take_case(const struct bytes *bytes, struct level *level)
{
    struct lampreysong_viewed v;
    memset(level, 0, sizeof *level);
    for (size_t place = 0; v = lampreysong_field(bytes->at, bytes->length, place), v.given; place = (size_t)v.next)
        take_field(v.tag, bytes->at + place + HEADER, v.size, level);
    give_names(level);
}

void take_book(const struct bytes *bytes, struct tables *book)
{
    struct lampreysong_viewed v;
    memset(book, 0, sizeof *book);
    for (size_t place = 0; v = lampreysong_field(bytes->at, bytes->length, place), v.given; place = (size_t)v.next)
        take_table(bytes->at + place + HEADER, v.size, book);
    give_table_names(book);
}

/* ---- putting together */

static void put_byte(struct bytes *bytes, unsigned value)
{
    bytes->at[bytes->length++] = (uint8_t)value;
}

static void put_word(struct bytes *bytes, unsigned value)
{
    put_byte(bytes, value / 256);
    put_byte(bytes, value % 256);
}

static void put_header(struct bytes *bytes, enum tag tag, unsigned size)
{
    put_byte(bytes, tag);
    put_word(bytes, size);
}

static void put_head(struct bytes *bytes, const struct head *head)
{
    put_header(bytes, TAG_HEAD, 5);
    put_word(bytes, head->last);
    put_byte(bytes, head->safety);
    put_word(bytes, head->room);
}

static void put_track(struct bytes *bytes, const struct track *track)
{
    put_header(bytes, TAG_TRACK, 3);
    put_byte(bytes, track->from);
    put_byte(bytes, track->to);
    put_byte(bytes, track->capacity);
}

static void put_train(struct bytes *bytes, const struct train *train)
{
    put_header(bytes, TAG_TRAIN, 2 + train->stops * STOP);
    put_byte(bytes, train->priority);
    put_byte(bytes, train->type);
    for (unsigned i = 0; i < train->stops; i++) {
        put_byte(bytes, train->stop[i].station);
        put_word(bytes, train->stop[i].arrival);
        put_word(bytes, train->stop[i].departure);
    }
}

static void put_tables(struct bytes *bytes, const struct tables *tables)
{
    for (unsigned i = 0; i < tables->count; i++) {
        const struct table *table = &tables->table[i];
        put_header(bytes, TAG_TABLE, 1 + table->pairs * PAIR);
        put_byte(bytes, table->type);
        for (unsigned k = 0; k < table->pairs; k++) {
            put_byte(bytes, table->pair[k].delay);
            put_byte(bytes, table->pair[k].weight);
        }
    }
}

static void put_couple(struct bytes *bytes, const struct couple *couple)
{
    put_header(bytes, TAG_COUPLE, 2);
    put_byte(bytes, couple->track[0]);
    put_byte(bytes, couple->track[1]);
}

void put_case(const struct level *level, struct bytes *bytes)
{
    bytes->length = 0;
    put_head(bytes, &level->head);
    for (unsigned i = 0; i < level->stations; i++) {
        put_header(bytes, TAG_STATION, 1);
        put_byte(bytes, level->station[i].capacity);
    }
    for (unsigned i = 0; i < level->tracks; i++)
        put_track(bytes, &level->track[i]);
    for (unsigned i = 0; i < level->trains; i++)
        put_train(bytes, &level->train[i]);
    put_tables(bytes, &level->tables);
    for (unsigned i = 0; i < level->couples; i++)
        put_couple(bytes, &level->couple[i]);
}

void put_book(const struct tables *book, struct bytes *bytes)
{
    bytes->length = 0;
    put_tables(bytes, book);
}

int same_bytes(const struct bytes *a, const struct bytes *b)
{
    return a->length == b->length && memcmp(a->at, b->at, a->length) == 0;
}
