/* The header as C has it, and as C++ has it: sizes and offsets of the answers, the refusals' numbers, and each exported function called. Prints 'N passed, M failed'. */
#include <stddef.h>
#include <stdio.h>
#include <string.h>

#include "lampreysong.h"
#include "tally.h"

/* The shift example. */
static const uint8_t shift[] = {
    1, 0, 5, 0, 20, 1, 4, 0, 2, 0, 1, 1, 2, 0, 1, 1, 3, 0, 3, 0, 1, 1,
    4, 0, 12, 1, 1, 0, 0, 2, 0, 3, 1, 0, 6, 0, 7, 4, 0, 12, 1, 1, 0, 0, 5, 0, 8, 1, 0, 11, 0, 12, 5, 0, 5, 1, 0, 60, 3, 40};

static const char printed[] = "total 10000\n0 6 6000\n0 9 4000\n0 - 0\n1 11 3600\n1 13 2400\n1 14 4000\n1 - 0\n";

static uint8_t rows[LAMPREYSONG_ROWS], weights[LAMPREYSONG_WEIGHTS], text[LAMPREYSONG_TEXT];

/* As docs/FORMATS.md has them. */
static void layouts(void)
{
    typedef struct lampreysong_answer answer;
    typedef struct lampreysong_train_figures figures;
    typedef struct lampreysong_viewed viewed;
    expect(sizeof(answer) == 16, "an answer has 16 bytes");
    expect(offsetof(answer, refusal) == 0 && offsetof(answer, file) == 2, "an answer's refusal and file");
    expect(offsetof(answer, place) == 4 && offsetof(answer, value) == 8, "an answer's place and value");
    expect(sizeof(figures) == 96, "figures have 96 bytes");
    expect(offsetof(figures, refusal) == 0 && offsetof(figures, file) == 2 && offsetof(figures, place) == 4, "the figures' refusal");
    expect(offsetof(figures, punctuality) == 8 && offsetof(figures, zero) == 12 && offsetof(figures, share) == 16, "the figures' share");
    expect(offsetof(figures, on_time) == 24 && offsetof(figures, late) == 32 && offsetof(figures, not_arrived) == 40, "the three shares");
    expect(offsetof(figures, lateness) == 48 && offsetof(figures, arrived) == 56 && offsetof(figures, kept) == 64, "the lateness");
    expect(sizeof(viewed) == 16, "what is viewed has 16 bytes");
    expect(offsetof(viewed, refusal) == 0 && offsetof(viewed, given) == 2 && offsetof(viewed, tag) == 4, "what is viewed: its tag");
    expect(offsetof(viewed, size) == 6 && offsetof(viewed, next) == 8, "what is viewed: its length and the place then");
    expect(sizeof rows == 16384 && sizeof weights == 40320 && sizeof text == 32768, "the required lengths");
}

/* As 01 and request 1 of 02 have them. 13 is retired, and no refusal has it. */
static void refusals(void)
{
    static const int numbers[] = {
        LAMPREYSONG_OVERRUN, LAMPREYSONG_UNKNOWN_TAG, LAMPREYSONG_MISPLACED, LAMPREYSONG_WRONG_LENGTH, LAMPREYSONG_WRONG_COUNT, LAMPREYSONG_OUT_OF_RANGE,
        LAMPREYSONG_WRONG_ENDS, LAMPREYSONG_WRONG_PATH, LAMPREYSONG_WRONG_TIMES, LAMPREYSONG_WRONG_TABLE, LAMPREYSONG_NO_TABLE, LAMPREYSONG_NO_ROOM,
        LAMPREYSONG_TOO_SHORT, LAMPREYSONG_WRONG_CHOICE, LAMPREYSONG_NO_TRAIN, LAMPREYSONG_STOP_TOO_LATE, LAMPREYSONG_WRONG_COUPLE};
    for (int i = 0; i < 17; i++)
        expect(numbers[i] == (i < 12 ? i + 1 : i + 2), "a refusal has its number");
}

static void calls(void)
{
    const uint8_t choice[2] = {0, 1};
    struct lampreysong_answer a = lampreysong_single(shift, sizeof shift, NULL, 0, choice, sizeof choice, 1);
    expect(a.refusal == 0 && a.value == 14, "the single run");
    a = lampreysong_single(NULL, 0, NULL, 0, NULL, 0, 0);
    expect(a.refusal == LAMPREYSONG_WRONG_COUNT && a.file == 0 && a.place == 0 && a.value == 0, "the single run of no bytes at all");

    a = lampreysong_run(shift, sizeof shift, NULL, 0, 5, rows, sizeof rows, weights, sizeof weights);
    expect(a.refusal == 0 && a.value == 5 && rows[0] == 1 && rows[5 * 16 + 1] == 0, "the run");
    a = lampreysong_run(shift, sizeof shift, NULL, 0, 5, NULL, 0, NULL, 0);
    expect(a.refusal == LAMPREYSONG_TOO_SHORT && a.value == 0, "the run that is lent nothing");

    a = lampreysong_listing(shift, sizeof shift, NULL, 0, rows, sizeof rows, weights, sizeof weights, text, sizeof text);
    expect(a.refusal == 0 && a.value == sizeof printed - 1 && memcmp(text, printed, sizeof printed) == 0, "the listing");
    a = lampreysong_listing(shift, 52, shift + 52, 8, rows, sizeof rows, weights, sizeof weights, text, sizeof text);
    expect(a.refusal == 0 && memcmp(text, printed, sizeof printed) == 0, "the listing with a table from the book");
    a = lampreysong_listing(shift, 52, shift, 52, rows, sizeof rows, weights, sizeof weights, text, sizeof text);
    expect(a.refusal == LAMPREYSONG_MISPLACED && a.file == 1 && a.place == 0 && text[0] == 0, "the listing of a refused book");

    struct lampreysong_train_figures f = lampreysong_figures(shift, sizeof shift, NULL, 0, 1, 0, rows, sizeof rows, weights, sizeof weights);
    expect(f.refusal == 0 && f.punctuality == LAMPREYSONG_SHARE && f.share == 0.36 && f.late == 0.64 && f.arrived == 10000, "the figures");
    f = lampreysong_figures(shift, sizeof shift, NULL, 0, 2, 0, rows, sizeof rows, weights, sizeof weights);
    expect(f.refusal == LAMPREYSONG_NO_TRAIN && f.punctuality == LAMPREYSONG_REFUSED && f.arrived == 0, "the figures of no train");
}

/* The weight of a train in a minute, which in the shift example is below 65,536. */
static unsigned weight(int train, int minute)
{
    const uint8_t *at = weights + (train * 720 + minute) * 8;
    return at[6] * 256u + at[7];
}

static void plain(void)
{
    struct lampreysong_answer a = lampreysong_plain(shift, sizeof shift, NULL, 0, 20, weights, sizeof weights);
    expect(a.refusal == 0 && a.value == 4, "the plain engine runs four choices");
    expect(weight(0, 6) == 6000 && weight(0, 9) == 4000 && weight(1, 11) == 3600 && weight(1, 13) == 2400 && weight(1, 14) == 4000, "the weights of all choices");
    a = lampreysong_plain_part(shift, sizeof shift, NULL, 0, 20, 1, 2, weights, sizeof weights);
    expect(a.refusal == 0 && a.value == 2 && weight(0, 6) == 8400 && weight(0, 9) == 6400 && weight(1, 13) == 4800 && weight(1, 14) == 6400, "a part is added");
    a = lampreysong_plain_part(shift, sizeof shift, NULL, 0, 20, 3, UINT64_MAX, weights, sizeof weights);
    expect(a.refusal == 0 && a.value == 1 && weight(0, 9) == 8000 && weight(1, 13) == 4800 && weight(1, 14) == 8000, "a part that reaches past the last choice");
    a = lampreysong_plain_part(shift, sizeof shift, NULL, 0, 20, UINT64_MAX, UINT64_MAX, weights, sizeof weights);
    expect(a.refusal == 0 && a.value == 0 && weight(0, 9) == 8000, "a part past the last choice");
    a = lampreysong_plain(shift, sizeof shift, NULL, 0, 20, weights, sizeof weights - 1);
    expect(a.refusal == LAMPREYSONG_TOO_SHORT && a.value == 0 && weight(0, 9) == 8000, "the plain engine that is lent too little");
    a = lampreysong_plain_part(shift, sizeof shift, NULL, 0, 21, 0, 1, weights, sizeof weights);
    expect(a.refusal == LAMPREYSONG_STOP_TOO_LATE && a.value == 0 && weight(0, 9) == 0, "a part that would stop too late");
    a = lampreysong_plain(shift, sizeof shift, NULL, 0, 9, weights, sizeof weights);
    expect(a.refusal == 0 && a.value == 4 && weight(0, 9) == 4000 && weight(1, 11) == 0, "the plain engine to a stop minute");
}

static int same(struct lampreysong_viewed v, int refusal, int given, int tag, int size, uint64_t next)
{
    return v.refusal == refusal && v.given == given && v.tag == tag && v.size == size && v.next == next;
}

static void fields(void)
{
    expect(same(lampreysong_field(shift, sizeof shift, 0), 0, 1, 1, 5, 8), "the first field");
    expect(same(lampreysong_field(shift, sizeof shift, 52), 0, 1, 5, 5, 60), "the last field");
    expect(same(lampreysong_field(shift, sizeof shift, 60), 0, 0, 0, 0, 60), "the end");
    expect(same(lampreysong_field(shift, 59, 52), LAMPREYSONG_OVERRUN, 0, 0, 0, 52), "a body past the end");
    expect(same(lampreysong_field(shift, 54, 52), LAMPREYSONG_OVERRUN, 0, 0, 0, 52), "a header past the end");
    expect(same(lampreysong_field(shift, sizeof shift, UINT64_MAX), 0, 0, 0, 0, UINT64_MAX), "the last place that there is");
    expect(same(lampreysong_field(NULL, 0, 0), 0, 0, 0, 0, 0), "no bytes at all");
}

int main(void)
{
    layouts();
    refusals();
    calls();
    plain();
    fields();
    return tally();
}
