/* `single`: one choice of delays, run alone. */
#include <inttypes.h>
#include <stdio.h>
#include <string.h>

#include "answers.h"
#include "columns.h"
#include "input.h"
#include "numbers.h"
#include "refusal.h"

enum { MOST_ITEMS = 255, MOST_ITEM = 255, ITEM_BYTES = 8, MOST_SAID = 40, DELAYS_BYTES = MOST_PAIRS * 8 };

/* The numbers of a list: `+3,+0` or `1,0`. */
struct items {
    unsigned number[MOST_ITEMS];
    unsigned count;
};

/* ---- the list of the command line */

static int read_item(const char *at, size_t length, struct items *items)
{
    char item[ITEM_BYTES];
    unsigned long number;
    if (length >= sizeof item)
        return 0;
    memcpy(item, at, length);
    item[length] = '\0';
    if (!read_number(item, MOST_ITEM, &number))
        return 0;
    items->number[items->count++] = (unsigned)number;
    return 1;
}

/* Says which item of a list is none; `length` bytes from `at` on are the item. */
static void say_item(const char *option, const char *list, const char *at, size_t length)
{
    const char *item = strcmp(option, "--delays") == 0 ? "a delay" : "an index";
    if (length == 0)
        misused("%s %s: an item is empty; %s of 0 to %d is expected", option, list, item, (int)MOST_ITEM);
    else
        misused("%s %s: `%.*s` is not %s of 0 to %d", option, list, (int)(length < MOST_SAID ? length : MOST_SAID), at, item, (int)MOST_ITEM);
}

/* Reads a list; false, and said, if it is none. A delay may have a plus sign. */
static int read_items(const char *option, const char *list, struct items *items)
{
    int delays = strcmp(option, "--delays") == 0;
    const char *at = list, *end;
    items->count = 0;
    for (;; at = end + 1) {
        const char *digits = delays && *at == '+' ? at + 1 : at;
        end = digits + strcspn(digits, ",");
        if (items->count == MOST_ITEMS) {
            misused("%s has more than %d items; give one for each train", option, (int)MOST_ITEMS);
            return 0;
        }
        if (!read_item(digits, (size_t)(end - digits), items)) {
            say_item(option, list, at, (size_t)(end - at));
            return 0;
        }
        if (*end == '\0')
            return 1;
    }
}

/* ---- from delays to a choice */

static const struct table *table_of_train(const struct study *study, unsigned k)
{
    return table_of(&study->level, &study->book, study->level.train[k].type);
}

static void say_delays(const struct study *study, unsigned k, unsigned delay)
{
    const struct table *table = table_of_train(study, k);
    char delays[DELAYS_BYTES] = "";
    for (unsigned d = 0; d < table->pairs; d++)
        sprintf(delays + strlen(delays), d == 0 ? "+%u" : ", +%u", table->pair[d].delay % 256);
    misused("%s has no delay of %u %s; its table %s has %s", study->level.train[k].name, delay, delay == 1 ? "minute" : "minutes", table->name, delays);
}

/* The index of a delay in a train's table; the table's length if it is not there. */
static unsigned index_of(const struct table *table, unsigned delay)
{
    unsigned d = 0;
    while (d < table->pairs && table->pair[d].delay != delay)
        d++;
    return d;
}

/* Puts the index of each delay in its place; false, and said, if a train's table does not have it. A list of a wrong count stays as it is. */
static int find_delays(const struct study *study, struct items *items)
{
    if (items->count != study->level.trains)
        return 1;
    for (unsigned k = 0; k < items->count; k++) {
        unsigned d = index_of(table_of_train(study, k), items->number[k]);
        if (d == table_of_train(study, k)->pairs) {
            say_delays(study, k, items->number[k]);
            return 0;
        }
        items->number[k] = d;
    }
    return 1;
}

/* ---- the answer */

struct view {
    FILE *out;
    const struct study *study;
    uint8_t choice[MOST_ITEMS];
    unsigned count;
    unsigned arrival[MOST_TRAINS];
    unsigned first, end; /* the trains that are asked for */
};

/* Asks for the arrivals of the trains; ANSWERED, or refused and said. */
static int ask_arrivals(struct view *view)
{
    const struct study *s = view->study;
    for (unsigned k = view->first; k < view->end; k++) {
        struct lampreysong_answer a =
            lampreysong_single(s->case_bytes.at, s->case_bytes.length, s->book_bytes.at, s->book_bytes.length, view->choice, view->count, k);
        struct asked asked = {k, 0, view->choice, view->count};
        if (a.refusal != 0) {
            say_call_refusal(stderr, s, (struct refusal){a.refusal, a.file, a.place}, &asked);
            return REFUSED;
        }
        view->arrival[k] = (unsigned)a.value;
    }
    return ANSWERED;
}

static uint64_t choice_weight(const struct view *view)
{
    uint64_t weight = 1;
    for (unsigned k = 0; k < view->count; k++)
        weight *= table_of_train(view->study, k)->pair[view->choice[k]].weight;
    return weight;
}

static void print_arrival(const struct view *view, unsigned k)
{
    const struct level *level = &view->study->level;
    const struct train *train = &level->train[k];
    unsigned plan = planned_arrival(train);
    print_left(view->out, train->name, train_columns(level));
    fprintf(view->out, "  %+5d  %7u  ", (int)table_of_train(view->study, k)->pair[view->choice[k]].delay, plan);
    if (view->arrival[k] == LAMPREYSONG_NONE)
        fprintf(view->out, "not arrived by minute %u\n", level->head.last);
    else
        fprintf(view->out, "%7u  %+5d  %s\n", view->arrival[k], (int)view->arrival[k] - (int)plan, last_station(level, train));
}

static void print_choice(const struct view *view)
{
    const struct level *level = &view->study->level;
    uint64_t weight = choice_weight(view), whole = whole_weight(level);
    print_title(view->out, level);
    fprintf(view->out, "This choice weighs %" PRIu64 " of %" PRIu64 ": %s of 100.\nLate is in minutes after plan.\n\n", weight, whole,
            share_text(weight, whole).text);
    print_left(view->out, "train", train_columns(level));
    fputs("  delay  planned  arrives   late  at\n", view->out);
    for (unsigned k = view->first; k < view->end; k++)
        print_arrival(view, k);
}

/* Reads the one list that is given; false, and said, if it is not one or not a list. */
static int read_list(const struct request *request, struct items *items)
{
    if (request->delays != NULL && request->choice != NULL)
        misused("--delays and --choice both give a choice; leave one of them out");
    else if (request->delays != NULL)
        return read_items("--delays", request->delays, items);
    else if (request->choice != NULL)
        return read_items("--choice", request->choice, items);
    else
        misused("single needs a delay for each train: --delays +3,+0 by minutes, or --choice 1,0 by index");
    return 0;
}

int command_single(const struct request *request)
{
    static struct study study;
    struct view view = {stdout, &study, {0}, 0, {0}, 0, 0};
    struct items items;
    int status;
    if (!read_list(request, &items))
        return MISUSED;
    status = judge_study(request, &study);
    if (status != ANSWERED)
        return status;
    if ((request->train != NULL && !find_train(&study, request->train, &view.first)) || (request->delays != NULL && !find_delays(&study, &items)))
        return MISUSED;
    view.end = request->train != NULL ? view.first + 1 : study.level.trains;
    view.count = items.count;
    for (unsigned i = 0; i < items.count; i++)
        view.choice[i] = (uint8_t)items.number[i];
    status = ask_arrivals(&view);
    if (status != ANSWERED)
        return status;
    print_choice(&view);
    return end_output(stdout, NULL);
}
