/* A part's text taken apart. Each number is judged before it is used, and nothing is believed that the text could have wrong. */
#include <inttypes.h>
#include <stdarg.h>
#include <string.h>

#include "answers.h"
#include "numbers.h"
#include "part.h"
#include "weights.h"

enum { LINE_BYTES = 80, MOST_WORDS = 4 };

static const char first_line[] = "lampreysong part 1";

/* The text, and the words of the line that was read last. A line that is too long or has too many words has none. */
struct lines {
    const char *text;
    size_t length, at;
    unsigned line;
    char own[LINE_BYTES];
    char *word[MOST_WORDS];
    unsigned words;
    struct part_fault *fault;
};

/* ---- lines */

/* How a line begins, as it can be printed on any terminal. */
static void keep_found(struct part_fault *fault, const char *line, size_t length)
{
    size_t kept = length < MOST_FOUND ? length : MOST_FOUND;
    for (size_t i = 0; i < kept; i++)
        fault->found[i] = (char)(line[i] >= ' ' && line[i] <= '~' ? line[i] : '?');
    fault->found[kept] = '\0';
}

static void split(struct lines *lines, const char *line, size_t length)
{
    lines->words = 0;
    if (length >= sizeof lines->own || memchr(line, '\0', length) != NULL)
        return;
    memcpy(lines->own, line, length);
    lines->own[length] = '\0';
    for (char *at = lines->own; at != NULL; lines->words++) {
        char *space = strchr(at, ' ');
        if (lines->words == MOST_WORDS) {
            lines->words = 0;
            return;
        }
        lines->word[lines->words] = at;
        if (space != NULL)
            *space++ = '\0';
        at = space;
    }
}

static int fails(struct lines *lines, enum part_fault_kind kind)
{
    lines->fault->kind = kind;
    lines->fault->line = lines->line;
    return 0;
}

/* The bytes of the next line, without its line feed, or up to the end of the text. */
static size_t line_length(const struct lines *lines)
{
    size_t left = lines->length - lines->at;
    const char *line = lines->text + lines->at, *feed = left > 0 ? memchr(line, '\n', left) : NULL;
    return feed != NULL ? (size_t)(feed - line) : left;
}

/* Goes to the next line; false, and the fault, if the text ends within it or before it. */
static int next_line(struct lines *lines)
{
    const char *line = lines->text + lines->at;
    size_t length = line_length(lines), left = lines->length - lines->at;
    lines->line += left > 0;
    if (length == left)
        return fails(lines, CUT_OFF);
    lines->at += length + 1;
    keep_found(lines->fault, line, length);
    split(lines, line, length);
    return 1;
}

static int wants(struct lines *lines, const char *format, ...)
{
    va_list values;
    va_start(values, format);
    vsnprintf(lines->fault->expected, sizeof lines->fault->expected, format, values);
    va_end(values);
    return fails(lines, WRONG_LINE);
}

/* ---- the lines before the weights */

/* Whether the line is the keyword and so many words more. */
static int is_line(const struct lines *lines, const char *keyword, unsigned more)
{
    return lines->words == more + 1 && strcmp(lines->word[0], keyword) == 0;
}

/* The line that names the format. A text that ends within it is cut off; all else is no part, or one of another version. */
static int take_first(struct lines *lines)
{
    unsigned long version;
    if (!next_line(lines))
        return lines->length <= strlen(first_line) && strncmp(lines->text, first_line, lines->length) == 0 ? 0 : fails(lines, NO_PART);
    if (!is_line(lines, "lampreysong", 2) || strcmp(lines->word[1], "part") != 0)
        return fails(lines, NO_PART);
    if (strcmp(lines->word[2], "1\r") == 0)
        return fails(lines, OTHER_LINE_ENDS);
    if (!read_number(lines->word[2], UINT32_MAX, &version))
        return fails(lines, NO_PART);
    return version == 1 ? 1 : fails(lines, OTHER_VERSION);
}

static int take_sum(const char *word, uint64_t *sum)
{
    static const char digits[] = "0123456789abcdef";
    enum { DIGITS = 16 };
    *sum = 0;
    if (strlen(word) != DIGITS || strspn(word, digits) != DIGITS)
        return 0;
    for (; *word != '\0'; word++)
        *sum = *sum * DIGITS + (uint64_t)(strchr(digits, *word) - digits);
    return 1;
}

static int take_mark(struct lines *lines, const char *keyword, struct mark *mark)
{
    unsigned long length;
    if (!next_line(lines))
        return 0;
    if (!is_line(lines, keyword, 2) || !read_number(lines->word[1], HANDED, &length) || !take_sum(lines->word[2], &mark->sum))
        return wants(lines, "`%s`, its number of bytes and its checksum of 16 digits", keyword);
    mark->length = length;
    return 1;
}

static int take_value(struct lines *lines, const char *keyword, uint64_t least, uint64_t most, uint64_t *value)
{
    unsigned long number;
    if (!next_line(lines))
        return 0;
    if (!is_line(lines, keyword, 1) || !read_number(lines->word[1], most, &number) || number < least) {
        if (least == most)
            return wants(lines, "`%s %" PRIu64 "`", keyword, least);
        return wants(lines, "`%s` and a whole number of %" PRIu64 " to %" PRIu64, keyword, least, most);
    }
    *value = number;
    return 1;
}

/* So many trains have at most so many choices. */
static uint64_t most_choices(unsigned trains)
{
    uint64_t most = 1;
    for (unsigned k = 0; k < trains; k++)
        most *= MOST_PAIRS;
    return most;
}

static int take_portion(struct lines *lines, struct portion *portion)
{
    if (!next_line(lines))
        return 0;
    return (is_line(lines, "part", 1) && read_portion(lines->word[1], portion)) || wants(lines, "`part` and which of how many parts it is, as `part 2/3`");
}

static int take_head(struct lines *lines, struct part *part)
{
    uint64_t stop, trains, value;
    if (!take_first(lines) || !take_mark(lines, "case", &part->case_mark) || !take_mark(lines, "book", &part->book_mark) ||
        !take_value(lines, "stop", 0, MOST_MINUTE, &stop) || !take_value(lines, "trains", 1, MOST_TRAINS, &trains))
        return 0;
    part->stop = (unsigned)stop;
    part->trains = (unsigned)trains;
    if (!take_value(lines, "choices", 1, most_choices(part->trains), &part->choices) || !take_portion(lines, &part->portion))
        return 0;
    set_choices(part);
    return take_value(lines, "first", part->first, part->first, &value) && take_value(lines, "run", part->count, part->count, &value);
}

/* ---- weights */

/* What the lines of weights have come to so far. */
struct taken {
    unsigned lines;
    unsigned after;    /* the place behind that of the last line, train by train and minute by minute */
    unsigned train;    /* of the last line */
    uint64_t arrived; /* the weights of that train */
};

static int take_weight(struct lines *lines, struct part *part, struct taken *taken)
{
    const uint64_t whole = part->count > 0 ? whole_of(part->trains) : 0;
    unsigned long train, minute, weight;
    if (lines->words != 3 || !read_number(lines->word[0], part->trains - 1, &train) || !read_number(lines->word[1], part->stop, &minute) ||
        !read_number(lines->word[2], whole, &weight) || weight == 0)
        return wants(lines, "a train of 0 to %u, a minute of 0 to %u and a weight of 1 to %" PRIu64 ", or `end`,", part->trains - 1, part->stop, whole);
    if (train * (MOST_MINUTE + 1) + minute < taken->after)
        return wants(lines, "a minute or a train behind that of the line before");
    if (train != taken->train)
        taken->arrived = 0;
    if (weight > whole - taken->arrived)
        return wants(lines, "a weight with which those of train %lu come to %" PRIu64 " at most", train, whole);
    add_weight(part->weights, (unsigned)train, (unsigned)minute, weight);
    *taken = (struct taken){taken->lines + 1, (unsigned)(train * (MOST_MINUTE + 1) + minute + 1), (unsigned)train, taken->arrived + weight};
    return 1;
}

/* The last line: how many weights there are, and the checksum of all that stands before it. */
static int take_end(struct lines *lines, size_t before, unsigned weights)
{
    unsigned long counted;
    uint64_t sum;
    if (!is_line(lines, "end", 2) || !read_number(lines->word[1], UINT32_MAX, &counted) || counted != weights || !take_sum(lines->word[2], &sum))
        return wants(lines, "`end %u` and a checksum of 16 digits", weights);
    if (sum != checksum(lines->text, before))
        return fails(lines, WRONG_SUM);
    if (lines->at == lines->length)
        return 1;
    lines->line++;
    return fails(lines, MORE_BEHIND);
}

int take_part(const char *text, size_t length, struct part *part, struct part_fault *fault)
{
    struct lines lines = {text, length, 0, 0, "", {NULL}, 0, fault};
    struct taken taken = {0, 0, 0, 0};
    memset(part, 0, sizeof *part);
    memset(fault, 0, sizeof *fault);
    if (!take_head(&lines, part))
        return 0;
    for (;;) {
        size_t before = lines.at;
        if (!next_line(&lines))
            return 0;
        if (lines.words > 0 && strcmp(lines.word[0], "end") == 0)
            return take_end(&lines, before, taken.lines);
        if (!take_weight(&lines, part, &taken))
            return 0;
    }
}
