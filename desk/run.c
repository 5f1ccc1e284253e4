/* `run`: the list of entries after a minute, and what has arrived by then. */
#include <inttypes.h>
#include <stdio.h>

#include "answers.h"
#include "columns.h"
#include "input.h"
#include "refusal.h"

enum { LEAST_WEIGHT_COLUMNS = 6, PLACE_BYTES = NAME_BYTES + 16, MINUTE_BYTES = 16, MINUTE_COLUMNS = 9 };

struct view {
    FILE *out;
    const struct study *study;
    const struct lent *lent;
    unsigned stop, entries;
    unsigned place_columns;
    int weight_columns;
    uint64_t whole;
};

/* ---- an entry in words */

struct place_text {
    char text[PLACE_BYTES];
};

static struct place_text place_text(const struct level *level, const struct entry *entry)
{
    struct place_text place = {"outside"};
    if (entry->kind == ON_STATION)
        snprintf(place.text, sizeof place.text, "station %s", level->station[entry->number].name);
    else if (entry->kind == ON_TRACK)
        snprintf(place.text, sizeof place.text, "track %s", level->track[entry->number].name);
    else if (entry->kind == GONE)
        snprintf(place.text, sizeof place.text, "gone");
    return place;
}

struct minute_text {
    char text[MINUTE_BYTES];
};

/* What the entry's minute is: the end of a block, the minute in which a train left, or the minute in which it is due. */
static struct minute_text minute_text(const struct entry *entry)
{
    struct minute_text minute;
    snprintf(minute.text, sizeof minute.text, "%s %u", entry->blocking ? "until" : entry->kind == GONE ? "left" : "due", entry->minute % 100000);
    return minute;
}

/* The choices that an entry covers: the delays of each train whose set is not whole. */
static void print_cover(const struct view *view, const struct entry *entry)
{
    const struct level *level = &view->study->level;
    int some = 0;
    for (unsigned k = 0; k < level->trains; k++) {
        const struct table *table = table_of(level, &view->study->book, level->train[k].type);
        if (entry->cover[k] == (1u << table->pairs) - 1)
            continue;
        fprintf(view->out, "%s%s:", some ? "; " : "", level->train[k].name);
        for (unsigned d = 0; d < table->pairs; d++)
            if (entry->cover[k] >> d & 1)
                fprintf(view->out, " +%u", table->pair[d].delay);
        some = 1;
    }
    fputs(some ? "\n" : "every choice\n", view->out);
}

/* ---- tables */

/* What the entry does after the minute `stop`: a train that is due and still here waits. */
static const char *does(const struct entry *entry, unsigned stop)
{
    if (entry->blocking)
        return "blocks";
    if (entry->kind == GONE)
        return "is";
    if (entry->minute <= stop)
        return "waits";
    return entry->kind == OUTSIDE ? "comes" : "stands";
}

static void print_entry(const struct view *view, const struct entry *entry)
{
    const struct level *level = &view->study->level;
    uint64_t weight = entry_weight(view->study, entry);
    print_left(view->out, level->train[entry->train].name, train_columns(level));
    fprintf(view->out, "  %-6s  ", does(entry, view->stop));
    print_left(view->out, place_text(level, entry).text, view->place_columns);
    fprintf(view->out, "  %-*s  %*" PRIu64 "  %7s  ", (int)MINUTE_COLUMNS, minute_text(entry).text, view->weight_columns, weight,
            share_text(weight, view->whole).text);
    print_cover(view, entry);
}

static void print_entries(const struct view *view)
{
    const struct level *level = &view->study->level;
    fprintf(view->out, "After minute %u the list has %u %s. There is room for %u.\n\n", view->stop, view->entries, view->entries == 1 ? "entry" : "entries",
            level->head.room);
    print_left(view->out, "train", train_columns(level));
    fputs("          ", view->out);
    print_left(view->out, "place", view->place_columns);
    fprintf(view->out, "  %-*s  %*s  %7s  in the choices\n", (int)MINUTE_COLUMNS, "minute", view->weight_columns, "weight", "of 100");
    for (unsigned row = 0; row < view->entries; row++) {
        struct entry entry = entry_at(view->lent, row);
        print_entry(view, &entry);
    }
}

static void print_arrived(const struct view *view)
{
    const struct level *level = &view->study->level;
    int some = 0;
    for (unsigned k = 0; k < level->trains; k++)
        for (unsigned t = 0; t <= view->stop; t++) {
            uint64_t weight = weight_in(view->lent, k, t);
            if (weight == 0)
                continue;
            if (!some)
                fprintf(view->out, "\nArrived by minute %u:\n\n%-*s  minute  %*s  %7s\n", view->stop, (int)train_columns(level), "train", view->weight_columns,
                        "weight", "of 100");
            some = 1;
            print_left(view->out, level->train[k].name, train_columns(level));
            fprintf(view->out, "  %6u  %*" PRIu64 "  %7s\n", t, view->weight_columns, weight, share_text(weight, view->whole).text);
        }
    if (!some)
        fprintf(view->out, "\nNo train has arrived by minute %u in any choice.\n", view->stop);
}

static unsigned place_columns(const struct view *view)
{
    unsigned most = columns_of("place");
    for (unsigned row = 0; row < view->entries; row++) {
        struct entry entry = entry_at(view->lent, row);
        unsigned columns = columns_of(place_text(&view->study->level, &entry).text);
        most = columns > most ? columns : most;
    }
    return most;
}

int command_run(const struct request *request)
{
    static struct study study;
    static struct lent lent;
    int status = judge_study(request, &study);
    struct lampreysong_answer a;
    struct view view = {stdout, &study, &lent, request->stop < 0 ? study.level.head.last : (unsigned)request->stop, 0, 0, 0, 0};
    struct asked asked = {0, view.stop, NULL, 0};
    if (status != ANSWERED)
        return status;
    a = ask_run(&study, view.stop, &lent);
    if (a.refusal != 0) {
        say_call_refusal(stderr, &study, (struct refusal){a.refusal, a.file, a.place}, &asked);
        return REFUSED;
    }
    view.entries = (unsigned)a.value;
    view.whole = whole_weight(&study.level);
    view.weight_columns = (int)(digits_of(view.whole) > LEAST_WEIGHT_COLUMNS ? digits_of(view.whole) : LEAST_WEIGHT_COLUMNS);
    view.place_columns = place_columns(&view);
    print_title(stdout, &study.level);
    print_entries(&view);
    print_arrived(&view);
    return end_output(stdout, NULL);
}
