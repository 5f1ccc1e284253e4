/* The words for parts that can't be summed. */
#include "refusal_parts.h"

#include <inttypes.h>
#include <string.h>

#include "refusal_words.h"

enum { MOST_GAPS = 6, CHOICES_BYTES = 64, PORTIONS_BYTES = 80 };

static void print_words(FILE *out, const char *name, const struct words *words)
{
    fputs("lampreysong: nothing was summed\n", out);
    if (name != NULL)
        fprintf(out, "  where  %s", strcmp(name, "-") == 0 ? "standard input" : name);
    if (name != NULL && words->line > 0)
        fprintf(out, ", line %u", words->line);
    fputs(name != NULL ? "\n" : "", out);
    print_sentences(out, "wrong", words->wrong);
    print_sentences(out, "mend", words->mend);
}

/* ---- one file */

/* A file that is not in the form of this program's parts. */
static void words_of_form(const struct part_fault *fault, struct words *words)
{
    if (fault->kind == NO_PART) {
        say_wrong(words, "this is no part: a part's first line is `lampreysong part 1`.");
        say_mend(words, "give the files that `lampreysong plain CASE --part I/N` has written.");
    } else if (fault->kind == OTHER_VERSION) {
        say_wrong(words, "the first line is `%s`; this program knows parts of version 1 only.", fault->found);
        say_mend(words, "sum with the program that wrote this part, or run the part again with this one.");
    } else if (fault->kind == OTHER_LINE_ENDS) {
        say_wrong(words, "the line ends were changed: a carriage return stands before the line feed.");
        say_mend(words, "copy the file again, as bytes and not as text.");
    } else {
        say_wrong(words, "the part has ended, and more stands behind it.");
        say_mend(words, "give each part as a file of its own.");
    }
}

/* A part that is damaged. */
static void words_of_damage(const struct part_fault *fault, struct words *words)
{
    if (fault->kind == CUT_OFF)
        say_wrong(words, fault->line == 0 ? "the file is empty." : "the file ends here, before its last line, which begins with `end`.");
    else if (fault->kind == WRONG_LINE)
        say_wrong(words, "%s is expected, and `%s` stands here.", fault->expected, fault->found);
    else
        say_wrong(words, "the checksum is not that of the lines before: at least one of them is not as it was written.");
    say_mend(words, "copy the file again, or run this part again.");
}

void say_part_fault(FILE *out, const char *name, const struct part_fault *fault)
{
    struct words words = {fault->line, "", ""};
    if (fault->kind == CUT_OFF || fault->kind == WRONG_LINE || fault->kind == WRONG_SUM)
        words_of_damage(fault, &words);
    else
        words_of_form(fault, &words);
    print_words(out, name, &words);
}

/* ---- two files */

/* What differs between the marks of two files. */
static void say_marks(struct words *words, const char *what, const char *first_name, struct mark mark, struct mark first)
{
    if (mark.length != first.length)
        say_wrong(words, "it is of another %s than %s: of %" PRIu64 " bytes, not of %" PRIu64 ".", what, first_name, mark.length, first.length);
    else if (mark.sum != first.sum)
        say_wrong(words, "it is of another %s than %s: of as many bytes, but not the same.", what, first_name);
}

void say_other_part(FILE *out, const char *name, const struct part *part, const char *first_name, const struct part *first)
{
    struct words words = {0, "", ""};
    if (strcmp(first_name, "-") == 0)
        first_name = "standard input";
    say_marks(&words, "case", first_name, part->case_mark, first->case_mark);
    say_marks(&words, "book", first_name, part->book_mark, first->book_mark);
    if (part->stop != first->stop)
        say_wrong(&words, "it was run to minute %u, and %s to minute %u.", part->stop, first_name, first->stop);
    if (words.wrong[0] == '\0')
        say_wrong(&words, "it has not as many trains and choices as %s, though the case is the same.", first_name);
    say_mend(&words, "sum parts of one case, with one book and one stop minute.");
    print_words(out, name, &words);
}

/* `choice 3`, or `choices 3 to 5`. */
struct choices_text {
    char text[CHOICES_BYTES];
};

static struct choices_text choices_text(uint64_t first, uint64_t end)
{
    struct choices_text said;
    if (end - first == 1)
        snprintf(said.text, sizeof said.text, "choice %" PRIu64 " is", first);
    else
        snprintf(said.text, sizeof said.text, "choices %" PRIu64 " to %" PRIu64 " are", first, end - 1);
    return said;
}

void say_overlap(FILE *out, const struct given *first, const struct given *second)
{
    struct words words = {0, "", ""};
    uint64_t first_end = first->first + first->count, second_end = second->first + second->count;
    say_wrong(&words, "%s in %s and again in %s.", choices_text(second->first, first_end < second_end ? first_end : second_end).text, first->name, second->name);
    if (first->portion.number == second->portion.number && first->portion.of == second->portion.of)
        say_mend(&words, "both are part %u/%u: leave one of them out.", first->portion.number, first->portion.of);
    else
        say_mend(&words, "they are parts %u/%u and %u/%u: give parts of one N only.", first->portion.number, first->portion.of, second->portion.number,
                 second->portion.of);
    print_words(out, NULL, &words);
}

/* ---- all files */

/* The N of all parts; 0 if they have several. */
static unsigned common_of(const struct all_given *all)
{
    for (unsigned i = 1; i < all->count; i++)
        if (all->part[i].portion.of != all->part[0].portion.of)
            return 0;
    return all->part[0].portion.of;
}

/* Which of N parts the missing choices are: `; part 2/3` or `; parts 2/9 to 4/9`. Of parts that begin at one choice only the last one has any. */
struct portions_text {
    char text[PORTIONS_BYTES];
};

static struct portions_text portions_text(const struct all_given *all, unsigned of, uint64_t first, uint64_t end)
{
    struct portions_text said = {""};
    unsigned from = 0, to = 0;
    for (unsigned number = 1; of > 0 && number <= of; number++) {
        uint64_t begins = all->choices * (number - 1) / of, ends = all->choices * number / of;
        if (begins < first || ends > end || begins == ends)
            continue;
        from = from == 0 ? number : from;
        to = number;
    }
    if (from > 0 && from == to)
        snprintf(said.text, sizeof said.text, ": part %u/%u", from, of);
    else if (from > 0)
        snprintf(said.text, sizeof said.text, ": parts %u/%u to %u/%u", from, of, to, of);
    return said;
}

void say_missing(FILE *out, const struct all_given *all)
{
    struct words words = {0, "", ""};
    const unsigned of = common_of(all);
    unsigned gaps = 0;
    uint64_t end = 0; /* of the choices that are there, without a gap */
    for (unsigned i = 0; i <= all->count; i++) {
        uint64_t next = i < all->count ? all->part[i].first : all->choices;
        if (next > end && gaps++ < MOST_GAPS)
            say_wrong(&words, "%s in none of the files%s.", choices_text(end, next).text, portions_text(all, of, end, next).text);
        if (i < all->count && all->part[i].first + all->part[i].count > end)
            end = all->part[i].first + all->part[i].count;
    }
    if (gaps > MOST_GAPS)
        say_wrong(&words, "so are others, in %u more places.", gaps - MOST_GAPS);
    say_mend(&words, "run what is missing with --part, and sum all files again. There are choices 0 to %" PRIu64 ".", all->choices - 1);
    print_words(out, NULL, &words);
}

void say_too_heavy(FILE *out)
{
    struct words words = {0, "", ""};
    say_wrong(&words, "the weights of a train come to more than all choices weigh, so a file is not what this program has written.");
    say_mend(&words, "run the parts again.");
    print_words(out, NULL, &words);
}
