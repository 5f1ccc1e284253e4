/* Refusals in words, and shares and minutes at their edges. The words of damaged files are compared with what is written here; thousands of files damaged by
 * chance, and those of a file of pairs that is given, are said without a byte past their end. */
#include <stdint.h>
#include <stdio.h>
#include <string.h>

#include "answers.h"
#include "refusal.h"
#include "pairs.h"
#include "refusals_said.h"
#include "tally.h"

enum { SAID_BYTES = 8192, MUTATIONS = 10000, GUESSES = 10000, MOST_EDITS = 6, TRACK_BYTES = 6, COUPLE_BYTES = 5 };

/* ---- files */

static const uint8_t shift[] = {1, 0, 5, 0, 20, 1, 4, 0, 2, 0, 1, 1, 2, 0, 1, 1, 3, 0, 3, 0, 1, 1, 4, 0, 12, 1, 1, 0, 0, 2,
                                0, 3, 1, 0, 6, 0, 7, 4, 0, 12, 1, 1, 0, 0, 5, 0, 8, 1, 0, 11, 0, 12, 5, 0, 5, 1, 0, 60, 3, 40};

static unsigned hex_digit(char digit)
{
    return (unsigned)(digit <= '9' ? digit - '0' : digit - 'a' + 10);
}

/* Appends bytes written as hex; `*N` after a piece in brackets, `[020001ff]*25`, repeats it. */
static void append_hex(struct bytes *bytes, const char *hex)
{
    size_t begin = 0;
    for (; *hex != '\0'; hex++) {
        if (*hex == '[')
            begin = bytes->length;
        else if (*hex == ']') {
            unsigned times = hex_digit(hex[2]) * 10 + hex_digit(hex[3]);
            size_t size = bytes->length - begin;
            for (hex += 3; times > 1; times--, bytes->length += size)
                memcpy(bytes->at + bytes->length, bytes->at + begin, size);
        } else if (*hex != ' ') {
            bytes->at[bytes->length++] = (uint8_t)(hex_digit(hex[0]) * 16 + hex_digit(hex[1]));
            hex++;
        }
    }
}

/* The shift example with `taken` bytes at a place taken out, and others put in. */
static void edit_shift(struct bytes *bytes, size_t place, size_t taken, const char *put)
{
    memcpy(bytes->at, shift, place);
    bytes->length = place;
    append_hex(bytes, put);
    memcpy(bytes->at + bytes->length, shift + place + taken, sizeof shift - place - taken);
    bytes->length += sizeof shift - place - taken;
}

static struct refusal refusal_of(const struct study *study)
{
    struct lampreysong_answer a = ask_files(study);
    struct refusal refusal = {a.refusal, a.file, a.place};
    return refusal;
}

/* ---- what is said */

static char said[SAID_BYTES];

/* Calls a saying function and keeps what it printed; `asked` is null for a refusal of the files. */
static void say(const struct study *study, struct refusal refusal, const struct asked *asked)
{
    static FILE *paper;
    size_t length;
    if (paper == NULL && (paper = tmpfile()) == NULL) {
        expect(0, "a file for what is said can be had");
        return;
    }
    rewind(paper);
    if (asked != NULL)
        say_call_refusal(paper, study, refusal, asked);
    else
        say_refusal(paper, study, refusal);
    length = (size_t)ftell(paper);
    rewind(paper);
    length = fread(said, 1, length < SAID_BYTES - 1 ? length : SAID_BYTES - 1, paper);
    said[length] = '\0';
}

/* What was said after 01's line and the general meaning; null if these two are not what they must be. */
static const char *words_after(struct refusal refusal)
{
    char begin[200];
    snprintf(begin, sizeof begin, "refused %u %u %u\n%s\n", refusal.number, refusal.file, refusal.place, refusal_meaning(refusal.number));
    return strncmp(said, begin, strlen(begin)) == 0 ? said + strlen(begin) : NULL;
}

static int has_words(void)
{
    return strstr(said, "\n  wrong  ") != NULL && strstr(said, "\n  mend   ") != NULL;
}

/* The number and the words of what was said are those that are written. */
static void expect_said(const char *what, struct refusal refusal, unsigned number, const char *words)
{
    const char *found = words_after(refusal);
    int same = refusal.number == number && found != NULL && strcmp(found, words) == 0;
    expect(same, what);
    if (!same)
        printf("said:\n%sexpected: %u\n%s", said, number, words);
}

/* ---- damaged bytes */

/* A damaged file with names of its own, and the book if there is one. */
static void set_damaged(struct study *study, const struct damage *damage)
{
    memset(study, 0, sizeof *study);
    study->case_name = "shift.case";
    edit_shift(&study->case_bytes, damage->place, damage->taken, damage->put);
    if (damage->book != NULL) {
        study->book_name = "types.book";
        append_hex(&study->book_bytes, damage->book);
    }
}

static void try_damages(void)
{
    static struct study study;
    for (size_t i = 0; i < sizeof damages / sizeof *damages; i++) {
        set_damaged(&study, &damages[i]);
        say(&study, refusal_of(&study), NULL);
        expect_said(damages[i].what, refusal_of(&study), damages[i].number, damages[i].words);
    }
}

/* 24 stations and 41 tracks between them. */
static void try_many_tracks(void)
{
    static struct study study;
    memset(&study, 0, sizeof study);
    study.case_name = "shift.case";
    append_hex(&study.case_bytes, "01 0005 0014 01 0400 [02 0001 01]*24");
    for (unsigned k = 0; k <= MOST_TRACKS; k++) {
        const uint8_t track[TRACK_BYTES] = {3, 0, 3, (uint8_t)(k % MOST_STATIONS), (uint8_t)((k + 1 + k / MOST_STATIONS) % MOST_STATIONS), 1};
        memcpy(study.case_bytes.at + study.case_bytes.length, track, sizeof track);
        study.case_bytes.length += sizeof track;
    }
    say(&study, refusal_of(&study), NULL);
    expect_said("5, tracks", refusal_of(&study), 5, many_tracks_said);
}

/* 40 tracks, each beside the one that leads back, and 21 couples; the last is none that there could be. */
static void try_many_couples(void)
{
    static struct study study;
    memset(&study, 0, sizeof study);
    study.case_name = "shift.case";
    append_hex(&study.case_bytes, "01 0005 0014 01 0400 [02 0001 01]*24");
    for (unsigned k = 0; k < MOST_TRACKS; k++) {
        const uint8_t track[TRACK_BYTES] = {3, 0, 3, (uint8_t)(k / 2 + k % 2), (uint8_t)(k / 2 + 1 - k % 2), 1};
        memcpy(study.case_bytes.at + study.case_bytes.length, track, sizeof track);
        study.case_bytes.length += sizeof track;
    }
    for (unsigned k = 0; k <= MOST_COUPLES; k++) {
        const uint8_t couple[COUPLE_BYTES] = {6, 0, 2, (uint8_t)(2 * k % MOST_TRACKS), (uint8_t)(2 * k % MOST_TRACKS + 1)};
        memcpy(study.case_bytes.at + study.case_bytes.length, couple, sizeof couple);
        study.case_bytes.length += sizeof couple;
    }
    say(&study, refusal_of(&study), NULL);
    expect_said("5, couples", refusal_of(&study), 5, many_couples_said);
}

/* ---- texts */

/* The shift example as a text would have it: names, and lines 8 to 20. */
static void set_text(struct study *study)
{
    struct level *level = &study->level;
    memset(study, 0, sizeof *study);
    memcpy(study->case_bytes.at, shift, sizeof shift);
    study->case_bytes.length = sizeof shift;
    study->case_name = "early.txt";
    take_case(&study->case_bytes, level);
    study->case_is_text = 1;
    level->head.line = 8;
    level->head.safety_line = 9;
    level->head.room_line = 10;
    for (unsigned i = 0; i < 2; i++) {
        strcpy(level->station[i].name, i == 0 ? "Face" : "Lower Tip");
        strcpy(level->train[i].name, i == 0 ? "Ore-1" : "Ore-2");
        level->station[i].line = 11 + i;
        level->train[i].line = 14 + 3 * i;
        level->train[i].stop[0].line = 15 + 3 * i;
        level->train[i].stop[1].line = 16 + 3 * i;
    }
    strcpy(level->track[0].name, "Incline");
    level->track[0].line = 13;
    strcpy(level->tables.table[0].name, "Ore");
    level->tables.table[0].line = 20;
}

static void spoil_window(struct study *study)
{
    study->level.head.last = 720;
}

static void spoil_safety(struct study *study)
{
    study->level.head.safety = 31;
}

static void spoil_room(struct study *study)
{
    study->level.head.room = 0;
}

static void spoil_station(struct study *study)
{
    study->level.station[1].capacity = 0;
}

static void spoil_stops(struct study *study)
{
    study->level.train[1].stops = 1;
}

static void spoil_all_stops(struct study *study)
{
    study->level.train[0].stops = 0;
}

static void spoil_pairs(struct study *study)
{
    study->level.tables.table[0].pairs = 0;
}

static void spoil_trains(struct study *study)
{
    study->level.trains = study->level.tables.count = 0;
}

static void spoil_ends(struct study *study)
{
    study->level.track[0].to = 0;
}

static void spoil_path(struct study *study)
{
    study->level.train[1].stop[1].station = 0;
}

static void spoil_tracks(struct study *study)
{
    study->level.tracks = 0;
}

static void spoil_last(struct study *study)
{
    study->level.head.last = 11;
}

static void spoil_times(struct study *study)
{
    study->level.train[0].stop[1].arrival = 2;
}

static void spoil_weights(struct study *study)
{
    study->level.tables.table[0].pair[1].weight = 41;
}

static void spoil_type(struct study *study)
{
    study->level.train[1].type = 9;
}

static void spoil_same_ends(struct study *study)
{
    study->level.track[1] = study->level.track[0];
    strcpy(study->level.track[1].name, "Second incline");
    study->level.track[1].line = 30;
    study->level.tracks = 2;
}

static void spoil_couple(struct study *study)
{
    study->level.couple[0] = (struct couple){{0, 0}, 31};
    study->level.couples = 1;
}

/* The track back, which holds two trains, is coupled with the track there. */
static void spoil_capacity(struct study *study)
{
    study->level.track[1] = (struct track){"Way back", 1, 0, 2, 30};
    study->level.tracks = 2;
    study->level.couple[0] = (struct couple){{0, 1}, 31};
    study->level.couples = 1;
}

static void spoil_coupled_ends(struct study *study)
{
    spoil_capacity(study);
    study->level.station[2] = (struct station){"Shaft", 1, 29};
    study->level.stations = 3;
    study->level.track[1] = (struct track){"Way back", 2, 0, 1, 30};
}

static void spoil_book(struct study *study)
{
    study->book = study->level.tables;
    strcpy(study->book.table[0].name, "Men");
    study->book.table[0].line = 3;
    study->book.table[0].pair[0].weight = 0;
    study->book_is_text = 1;
    study->book_name = "types.txt";
}

/* In the order of `texts_said`. */
static void (*const spoils[])(struct study *study) = {spoil_window, spoil_safety, spoil_room, spoil_station, spoil_stops,     spoil_all_stops, spoil_pairs,
                                                      spoil_trains, spoil_ends,   spoil_path,    spoil_tracks,    spoil_last,      spoil_times,
                                                      spoil_weights, spoil_type,  spoil_same_ends, spoil_book,
                                                      spoil_couple, spoil_capacity, spoil_coupled_ends};

static void try_texts(void)
{
    static struct study study;
    for (size_t i = 0; i < sizeof spoils / sizeof *spoils; i++) {
        set_text(&study);
        spoils[i](&study);
        put_case(&study.level, &study.case_bytes);
        put_book(&study.book, &study.book_bytes);
        say(&study, refusal_of(&study), NULL);
        expect_said(texts_said[i].what, refusal_of(&study), texts_said[i].number, texts_said[i].words);
    }
}

/* A book of bytes beside a case that is text: its fields are not called by the case's names. */
static void try_bytes_beside_text(void)
{
    static struct study study;
    set_text(&study);
    study.book_name = "types.book";
    append_hex(&study.book_bytes, "02 0001 01");
    say(&study, refusal_of(&study), NULL);
    expect_said("3, a station in a book beside a text", refusal_of(&study), 3, station_in_book_said);
}

/* ---- calls */

/* Seven trains of eight delays each, all on one way: the list passes any room. */
static void fill_level(struct study *study)
{
    struct level *level = &study->level;
    struct table *table = &level->tables.table[0];
    set_text(study);
    level->head.last = MOST_MINUTE;
    for (table->pairs = 0; table->pairs < MOST_PAIRS; table->pairs++)
        table->pair[table->pairs] = (struct pair){table->pairs * 3, table->pairs == 0 ? 30 : 10};
    for (level->trains = 0; level->trains < MOST_TRAINS; level->trains++) {
        level->train[level->trains] = level->train[0];
        level->train[level->trains].priority = level->trains;
    }
    put_case(level, &study->case_bytes);
}

static void try_room(void)
{
    static struct study study;
    static struct lent lent;
    struct lampreysong_answer a;
    set_text(&study);
    study.level.head.room = 6;
    put_case(&study.level, &study.case_bytes);
    a = ask_run(&study, 20, &lent);
    say(&study, (struct refusal){a.refusal, a.file, a.place}, NULL);
    expect_said("12, room 6", (struct refusal){a.refusal, a.file, a.place}, 12, little_room_said);
    fill_level(&study);
    a = ask_run(&study, MOST_MINUTE, &lent);
    say(&study, (struct refusal){a.refusal, a.file, a.place}, NULL);
    expect_said("12, room 1024", (struct refusal){a.refusal, a.file, a.place}, 12, all_room_said);
}

static struct refusal refusal_of_single(const struct study *s, const struct asked *asked)
{
    struct lampreysong_answer a = lampreysong_single(s->case_bytes.at, s->case_bytes.length, s->book_bytes.at, s->book_bytes.length, asked->choice,
                                                     asked->count, asked->train);
    struct refusal refusal = {a.refusal, a.file, a.place};
    return refusal;
}

static void try_calls(void)
{
    static const uint8_t choice[] = {1, 2, 0}, sound[] = {1, 0};
    static const struct asked asked[] = {{0, 0, choice, 1}, {0, 0, choice, 3}, {0, 0, NULL, 0}, {0, 0, choice, 2}, {2, 0, sound, 2}, {65535, 0, sound, 2}};
    static struct study study;
    static struct lent lent;
    static const struct asked late = {0, 21, NULL, 0};
    struct lampreysong_answer a;
    set_text(&study);
    for (size_t i = 0; i < sizeof calls_said / sizeof *calls_said; i++) {
        struct refusal refusal = refusal_of_single(&study, &asked[i]);
        say(&study, refusal, &asked[i]);
        expect_said(calls_said[i].what, refusal, calls_said[i].number, calls_said[i].words);
    }
    a = ask_run(&study, late.stop, &lent);
    say(&study, (struct refusal){a.refusal, a.file, a.place}, &late);
    expect_said("17, a stop past the last minute", (struct refusal){a.refusal, a.file, a.place}, 17, late_stop_said);
}

/* ---- files damaged by chance */

static uint32_t chance_state = 20240229;

/* A number below `below`, the same in every run. */
static unsigned chance(unsigned below)
{
    chance_state = chance_state * 1664525u + 1013904223u;
    return (chance_state >> 8) % below;
}

/* Changes, takes out, puts in or doubles a byte, or cuts the file off. */
static void damage_byte(struct bytes *bytes)
{
    unsigned place = bytes->length > 0 ? chance((unsigned)bytes->length) : 0;
    size_t after = bytes->length - place;
    switch (chance(8)) {
    case 0:
        memmove(bytes->at + place + 1, bytes->at + place, after);
        bytes->length++;
        bytes->at[place] = (uint8_t)chance(chance(2) ? 8 : 256);
        break;
    case 1:
        if (after > 0) {
            memmove(bytes->at + place, bytes->at + place + 1, after - 1);
            bytes->length--;
        }
        break;
    case 2:
        bytes->length = chance(4) == 0 ? place : bytes->length;
        break;
    default:
        if (after > 0)
            bytes->at[place] = (uint8_t)chance(chance(2) ? 16 : 256);
    }
}

/* Fills what stands past the files' ends. */
static void fill_rest(struct study *study, int value)
{
    memset(study->case_bytes.at + study->case_bytes.length, value, HANDED - study->case_bytes.length);
    memset(study->book_bytes.at + study->book_bytes.length, value, HANDED - study->book_bytes.length);
}

/* Says a refusal, and says it again over other bytes past the ends: the words must be the same. */
static int says_alike(struct study *study, struct refusal refusal)
{
    static char before[SAID_BYTES];
    fill_rest(study, 0);
    say(study, refusal, NULL);
    strcpy(before, said);
    fill_rest(study, 5);
    say(study, refusal, NULL);
    return strcmp(before, said) == 0;
}

/* Whether a refused file is said as it must be; an accepted one is left alone. */
static int said_right(struct study *study)
{
    struct refusal refusal = refusal_of(study);
    return refusal.number == 0 || (says_alike(study, refusal) && words_after(refusal) != NULL && has_words());
}

static void try_mutations(void)
{
    static struct study study;
    unsigned wrong = 0;
    for (unsigned i = 0; i < MUTATIONS; i++) {
        memset(&study, 0, sizeof study);
        study.case_name = "shift.case";
        edit_shift(&study.case_bytes, 22, 0, i % 3 == 0 ? "03 0003 01 00 01" : "");
        append_hex(&study.case_bytes, i % 3 == 0 ? "06 0002 01 00" : "");
        if (i % 4 == 0) {
            study.book_name = "types.book";
            append_hex(&study.book_bytes, "05 0005 02 00 0a 05 5a 05 0003 07 09 64");
        }
        for (unsigned edits = 1 + chance(MOST_EDITS); edits > 0; edits--)
            damage_byte(study.book_name != NULL && chance(2) ? &study.book_bytes : &study.case_bytes);
        wrong += !said_right(&study);
    }
    expect(wrong == 0, "files damaged by chance are said right");
}

/* A refusal that no file has given is said without a step past the files' ends, whatever its number and place. */
static void try_guesses(void)
{
    static struct study study;
    unsigned wrong = 0;
    for (unsigned i = 0; i < GUESSES; i++) {
        struct refusal guess = {chance(20), chance(2), chance(chance(2) ? 70 : 5000)};
        memset(&study, 0, sizeof study);
        edit_shift(&study.case_bytes, 0, 0, "");
        append_hex(&study.book_bytes, "05 0005 02 00 0a 05 5a 05 0003 07 09 64");
        for (unsigned edits = chance(MOST_EDITS); edits > 0; edits--)
            damage_byte(chance(2) ? &study.book_bytes : &study.case_bytes);
        wrong += !says_alike(&study, guess) || words_after(guess) == NULL;
    }
    expect(wrong == 0, "guessed refusals are said within the files");
}

/* ---- a file of pairs */

static void try_pairs(const char *name)
{
    static struct study study;
    unsigned pairs = 0, wrong = 0;
    FILE *file = fopen(name, "rb");
    expect(file != NULL, "the file of pairs can be opened");
    if (file == NULL)
        return;
    for (; next_pair(file, &study); pairs++)
        wrong += !said_right(&study);
    fclose(file);
    expect(pairs > 0 && wrong == 0, "the pairs are said right");
    printf("%u pairs\n", pairs);
}

/* ---- meanings, shares, minutes and weights */

static void try_meanings(void)
{
    static const unsigned without[] = {0, 13, 19};
    for (unsigned number = 1; number <= LAMPREYSONG_WRONG_COUPLE; number++) {
        if (number == 13)
            continue;
        expect(is_refusal(number) && refusal_meaning(number)[0] != '\0', "a number has a meaning");
        for (unsigned other = 1; other < number; other++)
            expect(strcmp(refusal_meaning(number), refusal_meaning(other)) != 0, "two numbers have two meanings");
    }
    for (size_t i = 0; i < sizeof without / sizeof *without; i++)
        expect(!is_refusal(without[i]) && strcmp(refusal_meaning(without[i]), "a number that has no meaning") == 0, "0, 13 and 19 have no meaning");
}

static void try_shares(void)
{
    static const uint64_t most = 100000000000000;
    static const struct {
        uint64_t part, whole;
        const char *text;
    } shares[] = {{0, 100, "0.00"},         {1, 100, "1.00"},        {100, 100, "100.00"},       {99, 100, "99.00"},
                  {0, most, "0.00"},        {1, most, "<0.01"},      {most, most, "100.00"},     {most - 1, most, ">99.99"},
                  {4999999999, most, "<0.01"}, {5000000000, most, "0.01"}, {14999999999, most, "0.01"}, {15000000000, most, "0.02"},
                  {99995000000000, most, ">99.99"}, {99994999999999, most, "99.99"}, {3600, 10000, "36.00"}, {33333333333333, most, "33.33"}};
    for (size_t i = 0; i < sizeof shares / sizeof *shares; i++) {
        expect(strcmp(share_text(shares[i].part, shares[i].whole).text, shares[i].text) == 0, shares[i].text);
        expect(share_of(shares[i].part, shares[i].whole) <= 10000, "a share in hundredths");
    }
}

static void try_minutes(void)
{
    static struct study study;
    static struct lent lent;
    set_text(&study);
    expect(ask_listing(&study, &lent).refusal == 0, "the shift example is answered");
    expect(minute_by(&study, &lent, 0, 50) == 6, "50 of 100 of the first train");
    expect(minute_by(&study, &lent, 0, 60) == 6, "60 of 100 of the first train");
    expect(minute_by(&study, &lent, 0, 61) == 9, "61 of 100 of the first train");
    expect(minute_by(&study, &lent, 0, 100) == 9, "100 of 100 of the first train");
    expect(minute_by(&study, &lent, 1, 36) == 11, "36 of 100 of the second train");
    expect(weight_by(&lent, 0, 5) == 0 && weight_by(&lent, 0, 6) == 6000 && weight_by(&lent, 0, 719) == 10000, "weight by a minute");
    expect(weight_in(&lent, 1, 14) == 4000 && weight_in(&lent, 1, 13) == 2400 && weight_in(&lent, 1, 12) == 0, "weight in a minute");
    study.level.head.last = 13;
    put_case(&study.level, &study.case_bytes);
    expect(ask_listing(&study, &lent).refusal == 0, "a window of 13 minutes is answered");
    expect(minute_by(&study, &lent, 1, 60) == 13, "60 of 100 arrive by minute 13");
    expect(minute_by(&study, &lent, 1, 61) == -1, "61 of 100 don't");
    memset(&lent, 0, sizeof lent);
    expect(minute_by(&study, &lent, 0, 1) == -1 && minute_by(&study, &lent, 1, 100) == -1, "where nothing has arrived there is no minute");
}

static void try_entries(void)
{
    static struct study study;
    static struct lent lent;
    struct entry entry = {0, 0, OUTSIDE, 0, 0, {1, 3}};
    set_text(&study);
    expect(whole_weight(&study.level) == 10000, "all choices weigh 100 to the power of the trains");
    expect(entry_weight(&study, &entry) == 6000, "one delay of a train");
    entry.cover[1] = 2;
    expect(entry_weight(&study, &entry) == 2400, "one choice");
    entry.cover[0] = entry.cover[1] = 3;
    expect(entry_weight(&study, &entry) == 10000, "every choice");
    expect(ask_run(&study, 5, &lent).value == 5, "five entries after minute 5");
    entry = entry_at(&lent, 0);
    expect(entry.train == 1 && !entry.blocking && entry.kind == OUTSIDE && entry.minute == 5 && entry_weight(&study, &entry) == 2400, "the first entry");
    entry = entry_at(&lent, 2);
    expect(entry.train == 0 && entry.kind == ON_TRACK && entry.number == 0 && entry.minute == 6 && entry_weight(&study, &entry) == 6000, "the third entry");
    study.level.trains = MOST_TRAINS;
    expect(whole_weight(&study.level) == 100000000000000, "seven trains weigh 10^14");
    for (unsigned k = 0; k < MOST_TRAINS; k++) {
        study.level.train[k].type = 1;
        entry.cover[k] = 3;
    }
    expect(entry_weight(&study, &entry) == 100000000000000, "every choice of seven trains");
}

int main(int count, char **words)
{
    try_damages();
    try_many_tracks();
    try_many_couples();
    try_texts();
    try_bytes_beside_text();
    try_room();
    try_calls();
    try_mutations();
    try_guesses();
    if (count > 1)
        try_pairs(words[1]);
    try_meanings();
    try_shares();
    try_minutes();
    try_entries();
    return tally();
}
