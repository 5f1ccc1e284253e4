/* `figures`: the punctuality of each train, or of one. */
#include <inttypes.h>
#include <stdio.h>
#include <string.h>

#include "answers.h"
#include "columns.h"
#include "input.h"
#include "refusal.h"

enum { MEAN_BYTES = 24, MINUTE_BYTES = 8 };

/* The figures of a train in whole weights. */
struct counted {
    uint64_t on_time, late, not_arrived;
    uint64_t arrived, lateness; /* the weight of the arrived; minutes after plan times weight, summed over them */
};

struct view {
    FILE *out;
    const struct study *study;
    struct lent *lent;
    unsigned limit;
    uint64_t whole;
};

static struct counted count(const struct view *view, unsigned k)
{
    struct counted counted = {0, 0, 0, 0, 0};
    unsigned plan = planned_arrival(&view->study->level.train[k]);
    for (unsigned t = 0; t <= view->study->level.head.last; t++) {
        uint64_t weight = weight_in(view->lent, k, t);
        unsigned after = t > plan ? t - plan : 0;
        *(after <= view->limit ? &counted.on_time : &counted.late) += weight;
        counted.lateness += after * weight;
    }
    counted.arrived = counted.on_time + counted.late;
    counted.not_arrived = view->whole - counted.arrived;
    return counted;
}

static int same_double(double given, uint64_t part, uint64_t whole)
{
    double seen = (double)part / (double)whole;
    return memcmp(&given, &seen, sizeof seen) == 0;
}

/* Whether the doubles of the call are those of the weights, each one division. */
static int figures_agree(const struct view *view, const struct lampreysong_train_figures *given, const struct counted *counted)
{
    uint64_t whole = view->whole;
    unsigned punctuality = counted->on_time == 0 ? LAMPREYSONG_NEVER : counted->on_time == whole ? LAMPREYSONG_ALWAYS : LAMPREYSONG_SHARE;
    return given->punctuality == punctuality && same_double(given->share, punctuality == LAMPREYSONG_SHARE ? counted->on_time : 0, whole) &&
           same_double(given->on_time, counted->on_time, whole) && same_double(given->late, counted->late, whole) &&
           same_double(given->not_arrived, counted->not_arrived, whole) && given->lateness == counted->lateness && given->arrived == counted->arrived;
}

/* Asks for a train's figures; ANSWERED if they are there and agree with the weights, otherwise said. */
static int ask(const struct view *view, unsigned k, struct counted *counted)
{
    struct lampreysong_train_figures given = ask_figures(view->study, k, view->limit, view->lent);
    struct asked asked = {k, 0, NULL, 0};
    if (given.refusal != 0) {
        say_call_refusal(stderr, view->study, (struct refusal){given.refusal, given.file, given.place}, &asked);
        return REFUSED;
    }
    *counted = count(view, k);
    if (!figures_agree(view, &given, counted))
        return misused("the figures of train %u and the weights don't agree. This is an error of this program; they are not printed.", k);
    return ANSWERED;
}

/* ---- numbers as text */

struct mean_text {
    char text[MEAN_BYTES];
};

/* The mean lateness in minutes, rounded to the nearest hundredth; `-` if nothing arrived. What is not nothing is never `0.00`. */
static struct mean_text mean_text(const struct counted *counted)
{
    struct mean_text mean = {"-"};
    uint64_t hundredths;
    if (counted->arrived == 0)
        return mean;
    hundredths = (counted->lateness * 100 + counted->arrived / 2) / counted->arrived; /* at most 7.2 * 10^18: it fits */
    if (hundredths == 0 && counted->lateness > 0)
        snprintf(mean.text, sizeof mean.text, "<0.01");
    else
        snprintf(mean.text, sizeof mean.text, "%u.%02u", (unsigned)(hundredths / 100), (unsigned)(hundredths % 100));
    return mean;
}

struct minute_text {
    char text[MINUTE_BYTES];
};

static struct minute_text minute_text(const struct view *view, unsigned k, unsigned of_hundred)
{
    struct minute_text minute = {"-"};
    int found = minute_by(view->study, view->lent, k, of_hundred);
    if (found >= 0)
        snprintf(minute.text, sizeof minute.text, "%u", (unsigned)found % 10000);
    return minute;
}

/* ---- all trains */

static void print_row(const struct view *view, unsigned k, const struct counted *counted)
{
    const struct level *level = &view->study->level;
    print_left(view->out, level->train[k].name, train_columns(level));
    fprintf(view->out, "  %7u  %7s  %7s  %11s  %13s", planned_arrival(&level->train[k]), share_text(counted->on_time, view->whole).text,
            share_text(counted->late, view->whole).text, share_text(counted->not_arrived, view->whole).text, mean_text(counted).text);
    fprintf(view->out, "  %6s  %4s  %4s\n", minute_text(view, k, 50).text, minute_text(view, k, 80).text, minute_text(view, k, 95).text);
}

static void print_limit(const struct view *view)
{
    fprintf(view->out, "On time: at most %u %s after plan. Shares are of 100 choices, by weight, rounded.\n\n", view->limit,
            view->limit == 1 ? "minute" : "minutes");
}

static void print_heading(const struct view *view)
{
    unsigned columns = train_columns(&view->study->level);
    print_title(view->out, &view->study->level);
    print_limit(view);
    print_left(view->out, "", columns);
    fprintf(view->out, "  %7s  %7s  %7s  %11s  %13s  %s\n", "", "", "", "", "mean lateness", "minute by which");
    print_left(view->out, "train", columns);
    fprintf(view->out, "  %7s  %7s  %7s  %11s  %13s  %6s  %4s  %4s  of 100 arrived\n", "planned", "on time", "late", "not arrived", "of arrived", "50",
            "80", "95");
}

/* Nothing is printed before every train's figures are there. */
static int print_all(const struct view *view)
{
    struct counted counted[MOST_TRAINS];
    for (unsigned k = 0; k < view->study->level.trains; k++) {
        int status = ask(view, k, &counted[k]);
        if (status != ANSWERED)
            return status;
    }
    print_heading(view);
    for (unsigned k = 0; k < view->study->level.trains; k++)
        print_row(view, k, &counted[k]);
    return end_output(view->out, NULL);
}

/* ---- one train */

static void print_share(const struct view *view, const char *what, uint64_t weight)
{
    fprintf(view->out, "  %-13s  %7s of 100, weight %" PRIu64 "\n", what, share_text(weight, view->whole).text, weight);
}

static void print_punctuality(const struct view *view, const struct counted *counted)
{
    if (counted->on_time == 0)
        fputs("  It is never on time.\n", view->out);
    else if (counted->on_time == view->whole)
        fputs("  It is always on time.\n", view->out);
}

static void print_minutes(const struct view *view, unsigned k)
{
    static const unsigned of_hundred[] = {50, 80, 95};
    for (unsigned i = 0; i < sizeof of_hundred / sizeof *of_hundred; i++)
        if (minute_by(view->study, view->lent, k, of_hundred[i]) >= 0)
            fprintf(view->out, "  In %u of 100 choices it has arrived by minute %s.\n", of_hundred[i], minute_text(view, k, of_hundred[i]).text);
        else
            fprintf(view->out, "  In fewer than %u of 100 choices it arrives by the last minute, %u.\n", of_hundred[i], view->study->level.head.last);
}

static int print_one(const struct view *view, unsigned k)
{
    const struct level *level = &view->study->level;
    const struct train *train;
    struct counted counted;
    int status = ask(view, k, &counted);
    if (status != ANSWERED)
        return status;
    train = &level->train[k];
    print_title(view->out, level);
    print_limit(view);
    fprintf(view->out, "%s, planned at %s in minute %u\n", train->name, last_station(level, train), planned_arrival(train));
    print_punctuality(view, &counted);
    print_share(view, "on time", counted.on_time);
    print_share(view, "late", counted.late);
    print_share(view, "not arrived", counted.not_arrived);
    fprintf(view->out, "  %-13s  %7s%s\n", "mean lateness", mean_text(&counted).text,
            counted.arrived > 0 ? " minutes, over the choices in which it arrives" : " (it never arrives)");
    print_minutes(view, k);
    return end_output(view->out, NULL);
}

int command_figures(const struct request *request)
{
    static struct study study;
    static struct lent lent;
    int status = judge_study(request, &study);
    struct view view = {stdout, &study, &lent, request->limit < 0 ? 0 : (unsigned)request->limit, 0};
    unsigned train;
    if (status != ANSWERED)
        return status;
    view.whole = whole_weight(&study.level);
    if (request->train == NULL)
        return print_all(&view);
    return find_train(&study, request->train, &train) ? print_one(&view, train) : MISUSED;
}
