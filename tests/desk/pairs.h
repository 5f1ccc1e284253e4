/* A file of pairs of case and book, one after another (docs/FORMATS.md, "What the tools read"). */
#ifndef TESTS_PAIRS_H
#define TESTS_PAIRS_H

#include <string.h>

#include "study.h"
#include "tally.h"

static int read_bytes(FILE *file, size_t length, struct bytes *bytes)
{
    static uint8_t whole[65536];
    bytes->length = length < HANDED ? length : HANDED;
    if (fread(whole, 1, length, file) != length)
        return 0;
    memcpy(bytes->at, whole, bytes->length);
    return 1;
}

/* Reads the next pair as a study that is not taken apart; false at the end, and a failed check if the file ends within a pair. */
static int next_pair(FILE *file, struct study *study)
{
    uint8_t lengths[4];
    memset(study, 0, sizeof *study);
    study->case_name = "drawn.case";
    if (fread(lengths, 1, sizeof lengths, file) != sizeof lengths)
        return 0;
    if (!read_bytes(file, lengths[0] * 256u + lengths[1], &study->case_bytes) || !read_bytes(file, lengths[2] * 256u + lengths[3], &study->book_bytes)) {
        expect(0, "a pair of the file is whole");
        return 0;
    }
    study->book_name = study->book_bytes.length > 0 ? "drawn.book" : NULL;
    return 1;
}

#endif
