/* `sum`: the weights of all choices, from the parts that they were run in. */
#include <stdio.h>
#include <stdlib.h>
#include <string.h>

#include "input.h"
#include "part.h"
#include "refusal_parts.h"
#include "weights.h"

/* What is summed: the first part's case, book and stop minute, and the weights of all that were read. */
static struct part whole;

/* Reads the i-th file and adds it; ANSWERED, or refused or misused and said. */
static int add_file(const struct request *request, unsigned i, struct given *given)
{
    const char *name = request->files[i];
    static struct part_text text;
    static struct part part;
    struct part_fault fault;
    int longer; /* is of no use: no part has as many bytes as are read */
    if (!read_up_to(name, sizeof text.at, text.at, &text.length, &longer))
        return MISUSED;
    if (!take_part(text.at, text.length, &part, &fault)) {
        say_part_fault(stderr, name, &fault);
        return REFUSED;
    }
    *given = (struct given){name, part.portion, part.first, part.count};
    if (i == 0)
        whole = part;
    else if (are_of_one(&whole, &part))
        add_weights(whole.weights, part.weights);
    else {
        say_other_part(stderr, name, &part, request->files[0], &whole);
        return REFUSED;
    }
    return ANSWERED;
}

static int by_first(const void *a, const void *b)
{
    const struct given *one = a, *other = b;
    if (one->first != other->first)
        return one->first < other->first ? -1 : 1;
    return (one->count > other->count) - (one->count < other->count);
}

/* Whether the parts, sorted, have each choice once; if not, it is said. */
static int have_each_once(const struct all_given *all)
{
    uint64_t end = 0;
    int gaps = 0;
    const struct given *last = NULL;
    for (unsigned i = 0; i < all->count; i++) {
        const struct given *given = &all->part[i];
        if (given->count == 0)
            continue;
        if (last != NULL && given->first < end) {
            say_overlap(stderr, last, given);
            return 0;
        }
        gaps |= given->first > end;
        end = given->first + given->count;
        last = given;
    }
    if (gaps || end < all->choices)
        say_missing(stderr, all);
    return !gaps && end == all->choices;
}

/* Whether standard input is given once at most: what was read is gone. */
static int reads_once(const struct request *request)
{
    unsigned times = 0;
    for (unsigned i = 0; i < request->file_count; i++)
        times += strcmp(request->files[i], "-") == 0;
    if (times > 1)
        misused("standard input is given twice, and can be read once only");
    return times <= 1;
}

static int sum_files(const struct request *request, struct given *given)
{
    struct all_given all = {given, request->file_count, 0};
    for (unsigned i = 0; i < all.count; i++) {
        int status = add_file(request, i, &given[i]);
        if (status != ANSWERED)
            return status;
    }
    all.choices = whole.choices;
    qsort(given, all.count, sizeof *given, by_first);
    if (!have_each_once(&all))
        return REFUSED;
    if (!are_possible(whole.weights, whole.trains, whole.stop)) {
        say_too_heavy(stderr);
        return REFUSED;
    }
    print_whole(stdout, &whole);
    return end_output(stdout, NULL);
}

int command_sum(const struct request *request)
{
    struct given *given;
    int status;
    if (!reads_once(request))
        return MISUSED;
    given = calloc(request->file_count, sizeof *given);
    if (given == NULL)
        return misused("there is no memory for %u files", request->file_count);
    status = sum_files(request, given);
    free(given);
    return status;
}
