/* A small planning desk: prints the listing of a case and the figures of each of its trains.
 *
 * Use: desk CASE [BOOK [LIMIT]]      LIMIT is how many minutes after plan still count as on time; 0 if left out */
#include <inttypes.h>
#include <stdio.h>
#include <stdlib.h>

#include "lampreysong.h"

/* At most the first 4,096 bytes of a file are handed on; what stands past them never changes the answer. */
enum { HANDED = 4096 };

/* A file that can't be opened or read to its end is never taken for a shorter one. */
static void unread(const char *name)
{
    fprintf(stderr, "desk: %s can't be read\n", name);
    exit(2);
}

static size_t read_file(const char *name, uint8_t *bytes)
{
    FILE *file = fopen(name, "rb");
    size_t length;
    if (file == NULL)
        unread(name);
    length = fread(bytes, 1, HANDED, file);
    if (ferror(file))
        unread(name);
    fclose(file);
    return length;
}

/* A limit is a whole number of two bytes, in digits. */
static uint16_t read_limit(const char *word)
{
    char *end;
    unsigned long limit = strtoul(word, &end, 10);
    if (*word < '0' || *word > '9' || *end != '\0' || limit > UINT16_MAX) {
        fprintf(stderr, "desk: a limit is a whole number of 0 to 65535, and %s is none\n", word);
        exit(2);
    }
    return (uint16_t)limit;
}

static void print_punctuality(struct lampreysong_train_figures f)
{
    switch (f.punctuality) {
    case LAMPREYSONG_NEVER:
        printf("never on time");
        break;
    case LAMPREYSONG_ALWAYS:
        printf("always on time");
        break;
    default:
        printf("on time in %.2f of 100", f.share * 100);
    }
}

static void print_figures(uint64_t train, struct lampreysong_train_figures f)
{
    printf("train %" PRIu64 ": ", train);
    print_punctuality(f);
    printf("; late %.2f, not arrived %.2f of 100", f.late * 100, f.not_arrived * 100);
    if (f.arrived > 0)
        printf("; %.2f minutes late on average", (double)f.lateness / (double)f.arrived);
    printf("\n");
}

int main(int count, char **words)
{
    static uint8_t case_bytes[HANDED], book[HANDED], rows[LAMPREYSONG_ROWS], weights[LAMPREYSONG_WEIGHTS], text[LAMPREYSONG_TEXT];
    size_t case_length, book_length;
    uint16_t limit;
    struct lampreysong_answer listing;

    if (count < 2 || count > 4) {
        fprintf(stderr, "use: desk CASE [BOOK [LIMIT]]\n");
        return 2;
    }
    case_length = read_file(words[1], case_bytes);
    book_length = count > 2 ? read_file(words[2], book) : 0;
    limit = count > 3 ? read_limit(words[3]) : 0;

    listing = lampreysong_listing(case_bytes, case_length, book, book_length, rows, sizeof rows, weights, sizeof weights, text, sizeof text);
    if (listing.refusal != 0) {
        printf("refused %u in the %s at byte %u\n", (unsigned)listing.refusal, listing.file == 0 ? "case" : "book", (unsigned)listing.place);
        return 1;
    }
    fwrite(text, 1, (size_t)listing.value, stdout);
    for (uint64_t train = 0;; train++) {
        struct lampreysong_train_figures f =
            lampreysong_figures(case_bytes, case_length, book, book_length, train, limit, rows, sizeof rows, weights, sizeof weights);
        if (f.refusal != 0)
            return 0;
        print_figures(train, f);
    }
}
