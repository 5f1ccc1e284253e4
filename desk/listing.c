/* `listing`: the minutes in which each train can arrive, with their weights. */
#include <inttypes.h>
#include <stdio.h>
#include <string.h>

#include "answers.h"
#include "columns.h"
#include "input.h"
#include "refusal.h"
#include "weights.h"

enum { LINE_COLUMNS = 80, LEAST_WEIGHT_COLUMNS = 6, OTHER_COLUMNS = 28 }; /* the last are those of a row beside its weight and its bar */

struct view {
    FILE *out;
    const struct level *level;
    const struct lent *lent;
    uint64_t whole;
    int weight_columns;
    uint64_t longest; /* the weight of the longest bar; 0 without bars */
};

static uint64_t not_arrived(const struct level *level, const struct lent *lent, unsigned train)
{
    return whole_weight(level) - weight_by(lent, train, level->head.last);
}

/* Whether the text of the listing says what the weights say. */
static int weights_agree(const struct level *level, const struct lent *lent)
{
    static char seen[LAMPREYSONG_TEXT];
    memset(seen, 0, sizeof seen);
    return put_lines(lent->weights, level->trains, level->head.last, seen, sizeof seen) < sizeof seen && memcmp(seen, lent->text, sizeof seen) == 0;
}

/* ---- for a person */

static uint64_t heaviest(const struct level *level, const struct lent *lent)
{
    uint64_t most = 1;
    for (unsigned k = 0; k < level->trains; k++) {
        for (unsigned t = 0; t <= level->head.last; t++)
            most = weight_in(lent, k, t) > most ? weight_in(lent, k, t) : most;
        most = not_arrived(level, lent, k) > most ? not_arrived(level, lent, k) : most;
    }
    return most;
}

/* A bar in proportion to the weight, to the nearest mark; what has weight has a mark. */
static void print_bar(const struct view *view, uint64_t weight)
{
    unsigned room = (unsigned)(LINE_COLUMNS - OTHER_COLUMNS - view->weight_columns);
    uint64_t marks = (weight * room + view->longest / 2) / view->longest;
    if (weight > 0 && marks == 0)
        marks = 1;
    fputs(marks > 0 ? "  " : "", view->out);
    for (; marks > 0; marks--)
        fputc('#', view->out);
}

static void print_weight(const struct view *view, uint64_t weight)
{
    fprintf(view->out, "  %*" PRIu64 "  %7s", view->weight_columns, weight, share_text(weight, view->whole).text);
    if (view->longest > 0)
        print_bar(view, weight);
    fputc('\n', view->out);
}

static void print_train(const struct view *view, unsigned k)
{
    const struct train *train = &view->level->train[k];
    int plan = (int)planned_arrival(train);
    fprintf(view->out, "\n%s, planned at %s in minute %d\n", train->name, last_station(view->level, train), plan);
    fprintf(view->out, "  minute   late  %*s  %7s\n", view->weight_columns, "weight", "of 100");
    for (unsigned t = 0; t <= view->level->head.last; t++)
        if (weight_in(view->lent, k, t) > 0) {
            fprintf(view->out, "  %6u  %+5d", t, (int)t - plan);
            print_weight(view, weight_in(view->lent, k, t));
        }
    fputs("  not arrived  ", view->out);
    print_weight(view, not_arrived(view->level, view->lent, k));
}

static void print_listing(const struct view *view)
{
    print_title(view->out, view->level);
    fprintf(view->out, "All choices of delays together weigh %" PRIu64 ".\nLate is in minutes after plan.\n", view->whole);
    if (view->longest > 0)
        fprintf(view->out, "The longest bar is %s of 100.\n", share_text(view->longest, view->whole).text);
    for (unsigned k = 0; k < view->level->trains; k++)
        print_train(view, k);
}

int command_listing(const struct request *request)
{
    static struct study study;
    static struct lent lent;
    int status = judge_study(request, &study);
    struct lampreysong_answer a;
    struct view view = {stdout, &study.level, &lent, 0, 0, 0};
    if (status != ANSWERED)
        return status;
    if (request->plain && request->bars)
        return misused("--plain prints no bars: leave one of --plain and --bars out");
    a = ask_listing(&study, &lent);
    if (a.refusal != 0) {
        say_refusal(stderr, &study, (struct refusal){a.refusal, a.file, a.place});
        return REFUSED;
    }
    if (!weights_agree(&study.level, &lent))
        return misused("the listing and the weights don't agree. This is an error of this program; nothing is printed.");
    if (request->plain)
        fwrite(lent.text, 1, (size_t)a.value, stdout);
    else {
        view.whole = whole_weight(&study.level);
        view.weight_columns = (int)(digits_of(view.whole) > LEAST_WEIGHT_COLUMNS ? digits_of(view.whole) : LEAST_WEIGHT_COLUMNS);
        view.longest = request->bars ? heaviest(&study.level, &lent) : 0;
        print_listing(&view);
    }
    return end_output(stdout, NULL);
}
