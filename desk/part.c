/* A part's choices, and its weights as text. */
#include "part.h"

#include <inttypes.h>
#include <stdarg.h>
#include <string.h>

#include "answers.h"
#include "numbers.h"
#include "weights.h"

uint64_t checksum(const void *bytes, size_t length)
{
    const uint8_t *at = bytes;
    uint64_t sum = 0xcbf29ce484222325u;
    for (size_t i = 0; i < length; i++)
        sum = (sum ^ at[i]) * 0x100000001b3u;
    return sum;
}

/* ---- which choices */

int read_portion(const char *word, struct portion *portion)
{
    enum { NUMBER_BYTES = 8 };
    const char *slash = strchr(word, '/');
    char number[NUMBER_BYTES];
    unsigned long first, second;
    if (slash == NULL || (size_t)(slash - word) >= sizeof number)
        return 0;
    memcpy(number, word, (size_t)(slash - word));
    number[slash - word] = '\0';
    if (!read_number(number, MOST_CHOICES, &first) || !read_number(slash + 1, MOST_CHOICES, &second) || first < 1 || first > second)
        return 0;
    *portion = (struct portion){(unsigned)first, (unsigned)second};
    return 1;
}

void set_choices(struct part *part)
{
    uint64_t end = part->choices * part->portion.number / part->portion.of;
    part->first = part->choices * (part->portion.number - 1) / part->portion.of;
    part->count = end - part->first;
}

static struct mark mark_of(const struct bytes *bytes)
{
    return (struct mark){bytes->length, checksum(bytes->at, bytes->length)};
}

void begin_part(const struct study *study, unsigned stop, struct portion portion, struct part *part)
{
    memset(part, 0, sizeof *part);
    part->case_mark = mark_of(&study->case_bytes);
    part->book_mark = mark_of(&study->book_bytes);
    part->stop = stop;
    part->trains = study->level.trains;
    part->choices = choices_of(study);
    part->portion = portion;
    set_choices(part);
}

static int is_marked(struct mark a, struct mark b)
{
    return a.length == b.length && a.sum == b.sum;
}

int are_of_one(const struct part *a, const struct part *b)
{
    return is_marked(a->case_mark, b->case_mark) && is_marked(a->book_mark, b->book_mark) && a->stop == b->stop && a->trains == b->trains &&
           a->choices == b->choices;
}

void print_whole(FILE *out, const struct part *part)
{
    static char lines[MOST_LINES];
    fprintf(out, "choices %" PRIu64 "\n", part->choices);
    fwrite(lines, 1, put_lines(part->weights, part->trains, part->stop, lines, sizeof lines), out);
}

/* ---- as text */

static void add_line(struct part_text *text, const char *format, ...)
{
    va_list values;
    size_t room = sizeof text->at - text->length;
    int length;
    va_start(values, format);
    length = vsnprintf(text->at + text->length, room, format, values);
    va_end(values);
    if (length > 0 && (size_t)length < room)
        text->length += (size_t)length;
}

void put_part(const struct part *part, struct part_text *text)
{
    unsigned lines = 0;
    text->length = 0;
    add_line(text, "lampreysong part 1\n");
    add_line(text, "case %" PRIu64 " %016" PRIx64 "\n", part->case_mark.length, part->case_mark.sum);
    add_line(text, "book %" PRIu64 " %016" PRIx64 "\n", part->book_mark.length, part->book_mark.sum);
    add_line(text, "stop %u\ntrains %u\nchoices %" PRIu64 "\n", part->stop, part->trains, part->choices);
    add_line(text, "part %u/%u\nfirst %" PRIu64 "\nrun %" PRIu64 "\n", part->portion.number, part->portion.of, part->first, part->count);
    for (unsigned k = 0; k < part->trains; k++)
        for (unsigned t = 0; t <= part->stop; t++)
            if (weight_at(part->weights, k, t) > 0) {
                add_line(text, "%u %u %" PRIu64 "\n", k, t, weight_at(part->weights, k, t));
                lines++;
            }
    add_line(text, "end %u %016" PRIx64 "\n", lines, checksum(text->at, text->length));
}
