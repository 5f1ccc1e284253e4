/* A case and a book as bytes: taken apart with the fields that the viewer gives, and put together. */
#ifndef DESK_BYTES_H
#define DESK_BYTES_H

#include <stddef.h>
#include <stdint.h>

#include "level.h"

/* At most the first 4,096 bytes of a file are handed on; what stands past them never changes the answer. */
enum { HANDED = 4096 };

struct bytes {
    uint8_t at[HANDED];
    size_t length;
};

enum tag { TAG_HEAD = 1, TAG_STATION, TAG_TRACK, TAG_TRAIN, TAG_TABLE, TAG_COUPLE, LAST_TAG = TAG_COUPLE };

/* A field of a file: where it stands, its number counted from 1, and which of its kind it is, counted from 0 (train 2, say). */
struct field {
    size_t place;
    unsigned number;
    unsigned tag, size;
    unsigned nth;
};

/* The field that begins at a place, by going through the file from its start. False if no whole field begins there; `field` then has the place and the
 * number that a field there would have. */
int field_at(const struct bytes *bytes, size_t place, struct field *field);

/* A case or a book that the reader has accepted, taken apart; names are those of `give_names`. */
void take_case(const struct bytes *bytes, struct level *level);
void take_book(const struct bytes *bytes, struct tables *book);

/* Their bytes. What a level and its tables can hold always fits. */
void put_case(const struct level *level, struct bytes *bytes);
void put_book(const struct tables *book, struct bytes *bytes);

int same_bytes(const struct bytes *a, const struct bytes *b);

#endif
