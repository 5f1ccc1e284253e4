/* `check`: whether a case is sound and its room suffices, and what it holds. */
#include <inttypes.h>
#include <stdio.h>

#include "answers.h"
#include "input.h"
#include "refusal.h"
#include "request.h"
#include "said.h"
#include "study.h"

static struct study study;
static struct lent lent;

static void print_count(unsigned count, const char *one, const char *more)
{
    printf("%u %s", count, count == 1 ? one : more);
}

static void print_sound(void)
{
    const struct level *level = &study.level;
    uint32_t choices = choices_of(&study);
    if (level->title[0] != '\0')
        printf("%s\n", level->title);
    fputs("sound: ", stdout);
    print_count(level->stations, "station", "stations");
    fputs(", ", stdout);
    print_count(level->tracks, "track", "tracks");
    fputs(", ", stdout);
    if (level->couples > 0) {
        print_count(level->couples, "couple", "couples");
        fputs(", ", stdout);
    }
    print_count(level->trains, "train", "trains");
    printf("; window 0 to %u\n%" PRIu32 " combination%s of delays; the run needs %u of %u rows\n", level->head.last, choices, choices == 1 ? "" : "s",
           least_room(&study), level->head.room);
}

/* Whether the plan stands in its own way: who is held up by others even where each train has its least delay. */
static void print_conflicts(void)
{
    static const uint8_t least[MOST_TRAINS];
    unsigned held = 0;
    for (unsigned k = 0; k < study.level.trains; k++) {
        const struct train *train = &study.level.train[k];
        const unsigned due = planned_arrival(train) + table_of(&study.level, &study.book, train->type)->pair[0].delay;
        const struct lampreysong_answer a = lampreysong_single(study.case_bytes.at, study.case_bytes.length, study.book_bytes.at, study.book_bytes.length,
                                                               least, study.level.trains, k);
        if (a.value == due || (a.value == LAMPREYSONG_NONE && due > study.level.head.last))
            continue;
        fputs(held++ == 0 ? "held up by another train even with the least delays: " : ", ", stdout);
        if (a.value == LAMPREYSONG_NONE)
            printf("%s (not arrived)", train->name);
        else
            printf("%s (+%u)", train->name, (unsigned)a.value - due);
    }
    puts(held == 0 ? "with the least delays no train is held up by another" : "");
}

static int is_driven_on(unsigned track)
{
    for (unsigned k = 0; k < study.level.trains; k++)
        for (unsigned i = 1; i < study.level.train[k].stops; i++)
            if (track_between(&study.level, study.level.train[k].stop[i - 1].station, study.level.train[k].stop[i].station) == track)
                return 1;
    return 0;
}

/* Couples that make no difference, because trains drive one way at most. */
static void print_idle_couples(void)
{
    for (unsigned i = 0; i < study.level.couples; i++) {
        const unsigned *track = study.level.couple[i].track;
        const char *first = study.level.track[track[0]].name, *second = study.level.track[track[1]].name;
        int driven[2] = {is_driven_on(track[0]), is_driven_on(track[1])};
        if (driven[0] && driven[1])
            continue;
        printf("that %s and %s are coupled makes no difference: no train drives on %s", first, second, driven[0] ? second : first);
        puts(driven[0] || driven[1] ? "" : " or back");
    }
}

static int is_of_case(const struct table *table)
{
    for (unsigned i = 0; i < study.level.tables.count; i++)
        if (table == &study.level.tables.table[i])
            return 1;
    return 0;
}

/* A train's path with its times, its delays and its priority. */
static void print_train(const struct train *train)
{
    const struct table *table = table_of(&study.level, &study.book, train->type);
    printf("\n%s, priority %u\n    path    ", train->name, train->priority);
    for (unsigned i = 0; i < train->stops; i++)
        printf("%s%s %u-%u", i > 0 ? ", " : "", study.level.station[train->stop[i].station].name, train->stop[i].arrival, train->stop[i].departure);
    printf("\n    delays  %s%s:", table->name, is_of_case(table) ? "" : " of the book");
    for (unsigned i = 0; i < table->pairs; i++)
        printf("%s +%u %u%%", i > 0 ? "," : "", table->pair[i].delay, table->pair[i].weight);
    fputc('\n', stdout);
}

int command_check(const struct request *request)
{
    struct lampreysong_answer a;
    int status = judge_study(request, &study);
    if (status != ANSWERED)
        return status;
    a = ask_run(&study, study.level.head.last, &lent);
    if (a.refusal != 0) {
        say_refusal(stderr, &study, (struct refusal){a.refusal, a.file, a.place});
        return REFUSED;
    }
    print_sound();
    print_conflicts();
    print_idle_couples();
    for (unsigned i = 0; i < study.level.trains; i++)
        print_train(&study.level.train[i]);
    return end_output(stdout, NULL);
}
