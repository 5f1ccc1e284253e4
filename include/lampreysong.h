/* The planning desk's calls: the single run, the joint run, the listing and the figures of a shift, and the field viewer; and the plain engine, which runs
 * every choice by itself, whole or in parts.
 *
 * A case and a book are bytes (docs/FORMATS.md); a case that is accepted has at most 919 of them. Every call takes any bytes, damaged ones too: it
 * answers, or it refuses with a number, a file and a place. Nothing is kept between calls, nothing is allocated, and a call needs less than 512 KiB of stack.
 *
 * Each pointer points to as many bytes as the length after it says; where that is 0, it is never followed and may be null. The case, the book and the
 * choice are only read, and may share bytes. Lent memory (rows, weights, text) is written: each of the three must share no byte with another of them,
 * with the case, the book or the choice, and nothing else may change any of these bytes before the call returns. Where that is not kept, nothing is
 * promised: not the answer, not what is refused, and not what any memory holds after the call. */
#ifndef LAMPREYSONG_H
#define LAMPREYSONG_H

#include <stddef.h>
#include <stdint.h>

#ifdef __cplusplus
extern "C" {
#endif

/* Refusals: why a call was not answered. */
enum {
    LAMPREYSONG_OVERRUN = 1,        /* a field's header or body runs past the end */
    LAMPREYSONG_UNKNOWN_TAG = 2,    /* tag 0 or above 6 */
    LAMPREYSONG_MISPLACED = 3,      /* first field no head, a second head, a falling tag; in a book a tag other than 5 */
    LAMPREYSONG_WRONG_LENGTH = 4,   /* length not possible for the tag */
    LAMPREYSONG_WRONG_COUNT = 5,    /* one station, track, train, table or couple too many; at the end of a case no head, station or train */
    LAMPREYSONG_OUT_OF_RANGE = 6,   /* last minute, safety time, room or capacity */
    LAMPREYSONG_WRONG_ENDS = 7,     /* track with an unknown end, equal ends, or the ends of an earlier track */
    LAMPREYSONG_WRONG_PATH = 8,     /* unknown or repeated station, or a missing track */
    LAMPREYSONG_WRONG_TIMES = 9,    /* times out of order or past the last minute */
    LAMPREYSONG_WRONG_TABLE = 10,   /* a delay table breaks a rule */
    LAMPREYSONG_NO_TABLE = 11,      /* a train's type has no table */
    LAMPREYSONG_NO_ROOM = 12,       /* the list of entries passes the room */
    /* 13 is reserved: it is retired, no call gives it, and it is never used again */
    LAMPREYSONG_TOO_SHORT = 14,     /* lent memory too short: nothing was written */
    LAMPREYSONG_WRONG_CHOICE = 15,  /* a choice with a wrong count or an index past the table */
    LAMPREYSONG_NO_TRAIN = 16,      /* no such train */
    LAMPREYSONG_STOP_TOO_LATE = 17, /* stop minute above the last minute */
    LAMPREYSONG_WRONG_COUPLE = 18   /* couple with an unknown track, ends that don't mirror, unequal capacities, or a track already coupled */
};

/* Bytes that a call must be lent. */
#define LAMPREYSONG_ROWS 16384u    /* 1,024 rows of 16 bytes */
#define LAMPREYSONG_WEIGHTS 40320u /* 7 trains by 720 minutes, 8 bytes each */
#define LAMPREYSONG_TEXT 32768u    /* the listing */

/* The single run's answer for a train that does not arrive by the last minute. */
#define LAMPREYSONG_NONE 65535u

/* What the single run, the run, the listing and the plain engine answer: 16 bytes. `refusal` is 0 if the call was answered. */
struct lampreysong_answer {
    uint16_t refusal;
    uint16_t file;  /* of the refusal: 0 case, 1 book */
    uint32_t place; /* of the refusal: an offset in that file */
    uint64_t value; /* minute of arrival, number of entries, of bytes, or of choices run; 0 if refused */
};

/* Punctuality: never, always, or a share. */
enum {
    LAMPREYSONG_REFUSED = 0,
    LAMPREYSONG_NEVER = 1,
    LAMPREYSONG_ALWAYS = 2,
    LAMPREYSONG_SHARE = 3
};

/* What the figures answer: 96 bytes. All but the first three fields are 0 if the call was refused. */
struct lampreysong_train_figures {
    uint16_t refusal;
    uint16_t file;
    uint32_t place;
    uint32_t punctuality;
    uint32_t zero;
    double share;       /* where punctuality is a share, else 0 */
    double on_time;     /* shares of all choices: at most the limit after plan, */
    double late;        /* later than that, */
    double not_arrived; /* and not arrived by the last minute */
    uint64_t lateness;  /* sum of minutes after plan times weight, over the arrived */
    uint64_t arrived;   /* weight of the arrived */
    uint64_t kept[4];   /* 0 */
};

/* What the field viewer gives at a place: 16 bytes. All but `next` is 0 if the file has ended. */
struct lampreysong_viewed {
    uint16_t refusal; /* 1 if the header or the body of the field at the place runs past the end, else 0 */
    uint16_t given;   /* 1 if a field was given; 0 if the file has ended or the field is refused */
    uint16_t tag;     /* of the field; 0 if none was given */
    uint16_t size;    /* of its body; 0 if none was given */
    uint64_t next;    /* the viewer's place afterwards: past the field, or the same place if none was given */
};

/* The minute in which the choice (one index byte a train) brings the train to its last station. Refuses the files' faults (1 to 11 and
 * 18), then 15, 16. */
struct lampreysong_answer lampreysong_single(const uint8_t *case_bytes, size_t case_length, const uint8_t *book, size_t book_length,
                                             const uint8_t *choice, size_t choice_length, uint64_t train);

/* The joint run to a stop minute: rows and weights, and the number of entries. Refuses 14, then the files' faults, then 17, then 12. */
struct lampreysong_answer lampreysong_run(const uint8_t *case_bytes, size_t case_length, const uint8_t *book, size_t book_length, uint64_t stop,
                                          uint8_t *rows, size_t rows_length, uint8_t *weights, size_t weights_length);

/* The listing over the whole window, with rows and weights after the last minute, and its number of bytes. Refuses 14, the files' faults, 12. */
struct lampreysong_answer lampreysong_listing(const uint8_t *case_bytes, size_t case_length, const uint8_t *book, size_t book_length, uint8_t *rows,
                                              size_t rows_length, uint8_t *weights, size_t weights_length, uint8_t *text, size_t text_length);

/* The figures of a train for a limit in minutes, with rows and weights after the last minute. Refuses 14, the files' faults, 16, 12. */
struct lampreysong_train_figures lampreysong_figures(const uint8_t *case_bytes, size_t case_length, const uint8_t *book, size_t book_length, uint64_t train,
                                               uint16_t limit, uint8_t *rows, size_t rows_length, uint8_t *weights, size_t weights_length);

/* Every choice by itself to a stop minute: the weights, as the run fills them, and the number of choices run, which is the product, over the trains, of the
 * sizes of their tables. It keeps no list, so it also answers where the run has no room. Refuses 14, the files' faults, 17; never 12. */
struct lampreysong_answer lampreysong_plain(const uint8_t *case_bytes, size_t case_length, const uint8_t *book, size_t book_length, uint64_t stop,
                                            uint8_t *weights, size_t weights_length);

/* The same for a part: the choices numbered from `first` on, at most `count` of them, are added to the weights as they are lent; and the number of choices run.
 * Choices are numbered from 0, which takes every train's first delay, and the last train's delay changes fastest. Both numbers may be any: a part that reaches
 * past the last choice runs those that there are; one that begins past it runs none, answers 0 and leaves the weights. A sum that would pass 2^64 - 1 becomes
 * 2^64 - 1. Parts may run at the same time in several threads, each on weights of its own. Refuses as the plain engine does. */
struct lampreysong_answer lampreysong_plain_part(const uint8_t *case_bytes, size_t case_length, const uint8_t *book, size_t book_length, uint64_t stop,
                                                 uint64_t first, uint64_t count, uint8_t *weights, size_t weights_length);

/* The field at a place of a case or a book, an offset from its start, and the place of the next. It judges no tag and no length: it gives the field, or
 * says that the file has ended, as it has at every place past the end, or gives refusal 1 and stays. A walk over a file starts at place 0. */
struct lampreysong_viewed lampreysong_field(const uint8_t *file, size_t length, uint64_t place);

#ifdef __cplusplus
}
#endif

#endif
