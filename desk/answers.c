/* The proved calls over a study. */
#include "answers.h"

#include <stdio.h>
#include <string.h>

#include "weights.h"

enum { ROW = 16, COVER = 8 }; /* docs/FORMATS.md: rows */

struct lampreysong_answer ask_run(const struct study *s, unsigned stop, struct lent *lent)
{
    return lampreysong_run(s->case_bytes.at, s->case_bytes.length, s->book_bytes.at, s->book_bytes.length, stop, lent->rows, sizeof lent->rows,
                           lent->weights, sizeof lent->weights);
}

struct lampreysong_answer ask_listing(const struct study *s, struct lent *lent)
{
    return lampreysong_listing(s->case_bytes.at, s->case_bytes.length, s->book_bytes.at, s->book_bytes.length, lent->rows, sizeof lent->rows,
                               lent->weights, sizeof lent->weights, lent->text, sizeof lent->text);
}

struct lampreysong_train_figures ask_figures(const struct study *s, unsigned train, unsigned limit, struct lent *lent)
{
    return lampreysong_figures(s->case_bytes.at, s->case_bytes.length, s->book_bytes.at, s->book_bytes.length, train, (uint16_t)limit, lent->rows,
                               sizeof lent->rows, lent->weights, sizeof lent->weights);
}

struct lampreysong_answer ask_plain_part(const struct study *s, unsigned stop, uint64_t first, uint64_t count, uint8_t *weights)
{
    return lampreysong_plain_part(s->case_bytes.at, s->case_bytes.length, s->book_bytes.at, s->book_bytes.length, stop, first, count, weights,
                                  LAMPREYSONG_WEIGHTS);
}

struct lampreysong_answer ask_plain_none(const struct study *study, unsigned stop, uint8_t *weights)
{
    memset(weights, 0, LAMPREYSONG_WEIGHTS);
    return ask_plain_part(study, stop, choices_of(study), 1, weights);
}

/* A choice without an index is refused 15, which comes right after the files' refusals: no case is without a train. */
static struct lampreysong_answer judge(const uint8_t *case_bytes, size_t length, const struct bytes *book)
{
    struct lampreysong_answer a = lampreysong_single(case_bytes, length, book->at, book->length, NULL, 0, 0);
    if (a.refusal == LAMPREYSONG_WRONG_CHOICE)
        a.refusal = 0;
    return a;
}

struct lampreysong_answer ask_files(const struct study *study)
{
    return judge(study->case_bytes.at, study->case_bytes.length, &study->book_bytes);
}

struct lampreysong_answer ask_book(const struct study *study)
{
    /* A small case that is sound: two stations, a track, a train and its table. */
    static const uint8_t sound[] = {1, 0, 5,  0, 9, 0, 0, 9, 2, 0, 1, 1, 2, 0, 1, 1, 3, 0, 3, 0, 1, 1,
                                    4, 0, 12, 0, 0, 0, 0, 0, 0, 0, 1, 0, 1, 0, 1, 5, 0, 3, 0, 0, 100};
    return judge(sound, sizeof sound, &study->book_bytes);
}

unsigned least_room(const struct study *study)
{
    enum { ROOM = 6, LAST = 3 }; /* where the head's room and last minute stand in a case */
    static struct study with_room;
    static struct lent lent;
    unsigned least = 1, most = MOST_ROOM + 1;
    with_room = *study;
    while (least < most) {
        unsigned room = (least + most) / 2, last = study->case_bytes.at[LAST] * 256u + study->case_bytes.at[LAST + 1];
        with_room.case_bytes.at[ROOM] = (uint8_t)(room / 256);
        with_room.case_bytes.at[ROOM + 1] = (uint8_t)(room % 256);
        if (ask_run(&with_room, last, &lent).refusal == 0)
            most = room;
        else
            least = room + 1;
    }
    return least;
}

uint32_t choices_of(const struct study *study)
{
    uint32_t product = 1;
    for (unsigned i = 0; i < study->level.trains; i++)
        product *= table_of(&study->level, &study->book, study->level.train[i].type)->pairs;
    return product;
}

uint64_t weight_in(const struct lent *lent, unsigned train, unsigned minute)
{
    return weight_at(lent->weights, train, minute);
}

uint64_t weight_by(const struct lent *lent, unsigned train, unsigned minute)
{
    return arrived_by(lent->weights, train, minute);
}

uint64_t whole_weight(const struct level *level)
{
    return whole_of(level->trains);
}

struct entry entry_at(const struct lent *lent, unsigned row)
{
    const uint8_t *at = lent->rows + (size_t)row * ROW;
    struct entry entry = {at[0], at[1] == 2, (enum place_kind)at[2], at[3], at[4] * 256u + at[5], {0}};
    for (unsigned k = 0; k < MOST_TRAINS; k++)
        entry.cover[k] = at[COVER + k];
    return entry;
}

uint64_t entry_weight(const struct study *study, const struct entry *entry)
{
    uint64_t weight = 1;
    for (unsigned k = 0; k < study->level.trains; k++) {
        const struct table *table = table_of(&study->level, &study->book, study->level.train[k].type);
        uint64_t sum = 0;
        for (unsigned d = 0; d < table->pairs; d++)
            if (entry->cover[k] >> d & 1)
                sum += table->pair[d].weight;
        weight *= sum;
    }
    return weight;
}

unsigned share_of(uint64_t part, uint64_t whole)
{
    return (unsigned)((part * 10000 + whole / 2) / whole); /* at most 10^18 and 10^14 / 2: it fits */
}

struct share_text share_text(uint64_t part, uint64_t whole)
{
    struct share_text share;
    unsigned hundredths = share_of(part, whole);
    if (part > 0 && hundredths == 0)
        snprintf(share.text, sizeof share.text, "<0.01");
    else if (part < whole && hundredths == 10000)
        snprintf(share.text, sizeof share.text, ">99.99");
    else
        snprintf(share.text, sizeof share.text, "%u.%02u", hundredths / 100 % 1000, hundredths % 100);
    return share;
}

int minute_by(const struct study *study, const struct lent *lent, unsigned train, unsigned hundredths)
{
    uint64_t sum = 0, asked = whole_weight(&study->level) / 100 * hundredths;
    for (unsigned t = 0; t <= study->level.head.last; t++) {
        sum += weight_in(lent, train, t);
        if (sum >= asked)
            return (int)t;
    }
    return -1;
}
