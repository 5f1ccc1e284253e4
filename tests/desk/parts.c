/* The plain engine at the desk: which choices a part has, its text taken apart however damaged, sums, both engines side by side, and the line that shows how far
 * it is. Takes a file of pairs of case and book (docs/FORMATS.md, "What the tools read"), or none. Prints 'N passed, M failed'. */
#define _POSIX_C_SOURCE 200809L
#include <inttypes.h>
#include <stdio.h>
#include <stdlib.h>
#include <string.h>
#include <unistd.h>

#include "answers.h"
#include "compare.h"
#include "pairs.h"
#include "part.h"
#include "plain_run.h"
#include "progress.h"
#include "request.h"
#include "tally.h"
#include "weights.h"

/* The shift example. */
static const uint8_t shift[] = {
    1, 0, 5, 0, 20, 1, 4, 0, 2, 0, 1, 1, 2, 0, 1, 1, 3, 0, 3, 0, 1, 1,
    4, 0, 12, 1, 1, 0, 0, 2, 0, 3, 1, 0, 6, 0, 7, 4, 0, 12, 1, 1, 0, 0, 5, 0, 8, 1, 0, 11, 0, 12, 5, 0, 5, 1, 0, 60, 3, 40};

static struct study study;

static void set_shift(void)
{
    memset(&study, 0, sizeof study);
    study.case_name = "shift.case";
    memcpy(study.case_bytes.at, shift, sizeof shift);
    study.case_bytes.length = sizeof shift;
    take_case(&study.case_bytes, &study.level);
}

/* What was printed to a file of its own. */
enum { MOST_PRINTED = 1 << 19 };
static char printed[MOST_PRINTED];

static void read_printed(FILE *file)
{
    size_t length;
    rewind(file);
    length = fread(printed, 1, MOST_PRINTED - 1, file);
    printed[length] = '\0';
    fclose(file);
}

/* ---- which choices */

/* Whether the parts of so many choices are all of them, one after another, and equal but for one choice. */
static int are_all(uint64_t choices, unsigned of)
{
    static struct part part;
    uint64_t end = 0;
    part.choices = choices;
    for (unsigned i = 1; i <= of; i++) {
        part.portion = (struct portion){i, of};
        set_choices(&part);
        if (part.first != end || part.count < choices / of || part.count > choices / of + (choices % of > 0))
            return 0;
        end += part.count;
    }
    return end == choices;
}

static void try_choices(void)
{
    static const unsigned many[] = {1, 2, 3, 7, 64, 1000003, MOST_CHOICES - 1, MOST_CHOICES};
    int holds = 1;
    for (uint64_t choices = 1; choices <= 70; choices++)
        for (unsigned of = 1; of <= 80; of++)
            holds &= are_all(choices, of);
    expect(holds, "parts are all choices, whatever their number");
    for (size_t i = 0; i < sizeof many / sizeof *many; i++)
        expect(are_all(MOST_CHOICES, many[i]), "parts are all of the most choices");
}

static void try_portions(void)
{
    static const char *const wrong[] = {"",     "/",     "1",    "1/",     "/1",  "0/1",  "2/1",  "01/2", "1/02", "1 /2", "1/2 ",
                                        "+1/2", "1/2/3", "a/2",  "1/b",    "-1/2", "1/0", "0/0",  "1//2", "1/2097153", "2097153/2097153",
                                        "18446744073709551617/18446744073709551617", "99999999999999999999/3"};
    struct portion portion = {0, 0};
    expect(read_portion("1/1", &portion) && portion.number == 1 && portion.of == 1, "the portion 1/1");
    expect(read_portion("2097152/2097152", &portion) && portion.number == MOST_CHOICES && portion.of == MOST_CHOICES, "the last of the most portions");
    for (size_t i = 0; i < sizeof wrong / sizeof *wrong; i++)
        expect(!read_portion(wrong[i], &portion), wrong[i]);
}

/* ---- weights */

static uint32_t drawn_last = 1;

/* A drawn number below a bound. */
static uint32_t draw(uint32_t bound)
{
    drawn_last = drawn_last * 1664525u + 1013904223u;
    return (drawn_last >> 8) % bound;
}

static void try_sums(void)
{
    static uint8_t weights[LAMPREYSONG_WEIGHTS], others[LAMPREYSONG_WEIGHTS];
    add_weight(weights, 6, 719, UINT64_MAX - 1);
    expect(weight_at(weights, 6, 719) == UINT64_MAX - 1 && weights[LAMPREYSONG_WEIGHTS - 1] == 254, "a weight stands at its place");
    add_weight(weights, 6, 719, 1);
    expect(weight_at(weights, 6, 719) == UINT64_MAX, "a sum of 2^64 - 1");
    add_weight(weights, 6, 719, 1);
    expect(weight_at(weights, 6, 719) == UINT64_MAX, "a sum that would pass 2^64 - 1");
    add_weight(others, 6, 719, UINT64_MAX);
    add_weight(others, 0, 0, 7);
    add_weights(weights, others);
    expect(weight_at(weights, 6, 719) == UINT64_MAX && weight_at(weights, 0, 0) == 7 && weight_at(weights, 0, 1) == 0, "images are added");
    add_weight(weights, 6, 0, UINT64_MAX);
    expect(arrived_by(weights, 6, 719) == UINT64_MAX && arrived_by(weights, 6, 718) == UINT64_MAX && arrived_by(weights, 0, 719) == 7, "what has arrived");
    expect(!are_possible(weights, 7, 719) && are_possible(weights, 6, 719), "weights that come to more than all choices weigh");
    expect(whole_of(1) == 100 && whole_of(7) == 100000000000000u, "all choices together");
}

/* ---- a part as text */

static struct part_text text, again;
static struct part part, taken;
static struct part_fault fault;

/* A part with so many weights at drawn places, which together are at most all. */
static void draw_part(unsigned trains, unsigned weights)
{
    set_shift();
    begin_part(&study, draw(MOST_MINUTE + 1), (struct portion){1, 1}, &part);
    part.trains = trains;
    part.portion = (struct portion){1 + draw(3), 3};
    part.choices = 3 + draw(5);
    set_choices(&part);
    for (unsigned i = 0; i < weights; i++)
        add_weight(part.weights, draw(trains), draw(part.stop + 1), 1 + draw(100) % (whole_of(trains) / weights));
    put_part(&part, &text);
}

static int is_taken(void)
{
    return take_part(text.at, text.length, &taken, &fault);
}

static void try_whole_texts(void)
{
    for (unsigned i = 0; i < 200; i++) {
        draw_part(1 + i % MOST_TRAINS, 1 + i % 50);
        expect(is_taken() && memcmp(&part, &taken, sizeof part) == 0, "a part that is taken apart is the part that was put");
        put_part(&taken, &again);
        expect(again.length == text.length && memcmp(again.at, text.at, text.length) == 0, "and is put the same again");
    }
    draw_part(MOST_TRAINS, 0);
    part.stop = MOST_MINUTE;
    part.portion = (struct portion){MOST_CHOICES, MOST_CHOICES};
    part.choices = MOST_CHOICES;
    set_choices(&part);
    for (unsigned k = 0; k < MOST_TRAINS; k++)
        for (unsigned t = 0; t <= MOST_MINUTE; t++)
            add_weight(part.weights, k, t, t == 0 ? 99999999999281u : 1);
    put_part(&part, &text);
    expect(is_taken() && memcmp(&part, &taken, sizeof part) == 0, "the part with the most lines");
}

/* Whether the text with the bytes from a place on put in place of so many is refused. */
static int is_refused(size_t place, size_t out, const char *in, size_t size)
{
    memcpy(again.at, text.at, place);
    memcpy(again.at + place, in, size);
    memcpy(again.at + place + size, text.at + place + out, text.length - place - out);
    again.length = text.length - out + size;
    return !take_part(again.at, again.length, &taken, &fault) && fault.kind != NO_FAULT;
}

/* Each cut, each byte changed to any other, taken out, put in or doubled. */
static void try_damaged_texts(void)
{
    draw_part(2, 5);
    for (size_t place = 0; place < text.length; place++) {
        int refused = !take_part(text.at, place, &taken, &fault) && fault.kind == CUT_OFF;
        expect(refused, "a part that is cut off is refused, as cut off");
        for (unsigned byte = 0; byte < 256; byte++) {
            const char in = (char)byte;
            refused &= in == text.at[place] || is_refused(place, 1, &in, 1);
            refused &= is_refused(place, 0, &in, 1);
        }
        refused &= is_refused(place, 1, "", 0) && (place == 0 || is_refused(place, 0, text.at, place)) && is_refused(place, text.length - place, "\0\0\0", 3);
        expect(refused, "a part with a byte changed, taken out or put in is refused");
    }
    expect(is_taken(), "the part itself is not");
    for (unsigned i = 0; i < 20000; i++) {
        again.length = draw(300);
        for (size_t at = 0; at < again.length; at++)
            again.at[at] = (char)(draw(4) > 0 && at < text.length ? text.at[at] : "\n 0129ed/\r\377"[draw(12)]);
        if (again.length == text.length && memcmp(again.at, text.at, text.length) == 0)
            continue;
        if (take_part(again.at, again.length, &taken, &fault))
            expect(0, "drawn bytes are no part");
    }
}

/* A text whose checksum is right, of lines that can't be. */
static int is_forged(const char *lines)
{
    again.length = (size_t)snprintf(again.at, sizeof again.at, "%s", lines);
    again.length += (size_t)snprintf(again.at + again.length, sizeof again.at - again.length, "end 1 %016" PRIx64 "\n", checksum(again.at, again.length));
    return take_part(again.at, again.length, &taken, &fault);
}

#define MARKS "lampreysong part 1\ncase 60 0000000000000000\nbook 0 0000000000000000\n"

static void try_forged_texts(void)
{
    expect(is_forged(MARKS "stop 9\ntrains 1\nchoices 2\npart 1/2\nfirst 0\nrun 1\n0 9 100\n"), "a part that is sound");
    expect(!is_forged(MARKS "stop 9\ntrains 1\nchoices 1\npart 1/2\nfirst 0\nrun 0\n0 9 100\n"), "weights of no choices");
    expect(!is_forged(MARKS "stop 9\ntrains 1\nchoices 2\npart 1/2\nfirst 0\nrun 1\n0 10 100\n"), "a minute past the stop");
    expect(!is_forged(MARKS "stop 9\ntrains 1\nchoices 2\npart 1/2\nfirst 0\nrun 1\n1 9 100\n"), "a train that there is not");
    expect(!is_forged(MARKS "stop 9\ntrains 1\nchoices 2\npart 1/2\nfirst 0\nrun 1\n0 9 101\n"), "a weight of more than all");
    expect(!is_forged(MARKS "stop 9\ntrains 1\nchoices 2\npart 1/2\nfirst 0\nrun 1\n0 9 18446744073709551615\n"), "a weight of 2^64 - 1");
    expect(!is_forged(MARKS "stop 9\ntrains 1\nchoices 2\npart 1/2\nfirst 0\nrun 1\n0 9 18446744073709551617\n"), "a weight past 2^64");
    expect(!is_forged(MARKS "stop 9\ntrains 1\nchoices 9\npart 1/2\nfirst 0\nrun 4\n0 9 100\n"), "more choices than one train has");
    expect(!is_forged(MARKS "stop 9\ntrains 8\nchoices 2\npart 1/2\nfirst 0\nrun 1\n0 9 100\n"), "eight trains");
    expect(!is_forged(MARKS "stop 9\ntrains 0\nchoices 1\npart 1/1\nfirst 0\nrun 1\n0 9 1\n"), "no train");
    expect(!is_forged(MARKS "stop 9\ntrains 1\nchoices 2\npart 2/2\nfirst 0\nrun 1\n0 9 100\n"), "a first choice that is not the part's");
    expect(!is_forged(MARKS "stop 9\ntrains 1\nchoices 2\npart 1/2\nfirst 0\nrun 2\n0 9 100\n"), "a number of choices that is not the part's");
}

/* Two parts, each of which could be, that together weigh too much. */
static void try_heavy_parts(void)
{
    static char names[2][32] = {"/tmp/lampreysong-XXXXXX", "/tmp/lampreysong-XXXXXX"};
    char *files[] = {names[0], names[1], NULL};
    struct request request;
    set_shift();
    memset(&request, 0, sizeof request);
    request.files = files;
    request.file_count = 2;
    for (unsigned i = 0; i < 2; i++) {
        int file = mkstemp(names[i]);
        begin_part(&study, 20, (struct portion){i + 1, 2}, &part);
        add_weight(part.weights, 1, 20, 10000);
        put_part(&part, &text);
        expect(file >= 0 && write(file, text.at, text.length) == (ssize_t)text.length && close(file) == 0, "a part is written");
    }
    expect(command_sum(&request) == REFUSED, "parts that together weigh more than all choices are refused");
    remove(names[0]);
    remove(names[1]);
}

/* ---- side by side */

static int compare_images(const uint8_t *joint, const uint8_t *plain)
{
    FILE *file = tmpfile();
    struct comparison comparison = {&study.level, 20, 4, joint, plain};
    int status;
    if (file == NULL)
        return MISUSED;
    status = print_comparison(file, &comparison);
    read_printed(file);
    return status;
}

static void try_comparison(void)
{
    static uint8_t joint[LAMPREYSONG_WEIGHTS], plain[LAMPREYSONG_WEIGHTS];
    unsigned lines = 0;
    set_shift();
    add_weight(joint, 0, 6, 6000);
    add_weight(plain, 0, 6, 6000);
    expect(compare_images(joint, plain) == ANSWERED, "the same weights agree");
    expect(strcmp(printed, "agree: the joint run and the plain engine give the same weights to minute 20\n"
                           "4 choices run, 2 trains, 42 weights compared, 1 of them not 0\n") == 0, "and that is said");
    add_weight(plain, 1, 14, 1);
    expect(compare_images(joint, plain) == DIFFERENT, "one weight that is not the same");
    expect(strcmp(printed, "differ: 1 weight is not the same to minute 20\n4 choices run, 2 trains, 42 weights compared, 2 of them not 0\n\n"
                           "train  minute  joint run  plain engine\nT1         14          0             1\n") == 0, "is said with its train and minute");
    add_weight(joint, 0, 6, 1);
    add_weight(joint, 0, 19, 100000000000000u);
    add_weight(plain, 6, 719, UINT64_MAX);
    expect(compare_images(joint, plain) == DIFFERENT, "several weights that are not the same");
    expect(strcmp(printed, "differ: 4 weights are not the same to minute 20\n4 choices run, 2 trains, 42 weights compared, 4 of them not 0\n\n"
                           "train  minute  joint run  plain engine\n"
                           "T0          6       6001          6000\n"
                           "T0         19  100000000000000             0\n"
                           "T1         14          0             1\n"
                           "none      719          0  18446744073709551615\n") == 0, "are each on a line");
    memset(joint, 0, sizeof joint);
    memset(plain, 1, sizeof plain);
    expect(compare_images(joint, plain) == DIFFERENT, "all weights that are not the same");
    for (const char *at = printed; (at = strchr(at, '\n')) != NULL; at++)
        lines++;
    expect(lines == 4 + 5040, "are all said");
    for (size_t place = 0; place < sizeof plain; place += 631) {
        memset(plain, 0, sizeof plain);
        plain[place] = 1;
        expect(compare_images(joint, plain) == DIFFERENT && compare_images(plain, joint) == DIFFERENT, "a byte that is not the same anywhere");
    }
}

/* ---- the engine */

/* Both ways to run all choices, with one thread and with three, whole and in parts, give the joint run's weights wherever that answers. */
static void try_study(unsigned stop)
{
    static uint8_t whole[LAMPREYSONG_WEIGHTS], sum[LAMPREYSONG_WEIGHTS];
    static struct lent lent;
    const struct lampreysong_answer a = lampreysong_plain(study.case_bytes.at, study.case_bytes.length, study.book_bytes.at, study.book_bytes.length, stop,
                                                          whole, sizeof whole);
    expect(a.refusal == 0 && a.value == choices_of(&study), "the plain engine runs every choice");
    for (unsigned jobs = 1; jobs <= 3; jobs += 2) {
        const struct plain_run asked = {&study, stop, 0, a.value, jobs};
        expect(run_plain(&asked, part.weights) == ANSWERED && memcmp(part.weights, whole, sizeof whole) == 0, "and the threads' sum is the same");
    }
    memset(sum, 0, sizeof sum);
    for (unsigned i = 1; i <= 3; i++) {
        begin_part(&study, stop, (struct portion){i, 3}, &part);
        const struct plain_run asked = {&study, stop, part.first, part.count, 2};
        expect(run_plain(&asked, part.weights) == ANSWERED, "a part is run");
        add_weights(sum, part.weights);
    }
    expect(memcmp(sum, whole, sizeof whole) == 0, "and the parts' sum is the same");
    expect(ask_run(&study, stop, &lent).refusal == LAMPREYSONG_NO_ROOM || memcmp(lent.weights, whole, sizeof whole) == 0, "and the joint run's weights");
}

/* Files that are refused are refused by the plain engine just so, and the weights are 0 then. */
static void try_refused(void)
{
    const struct lampreysong_answer files = ask_files(&study);
    struct lampreysong_answer a;
    memset(part.weights, 1, sizeof part.weights);
    a = ask_plain_part(&study, 0, 0, 1, part.weights);
    expect(a.refusal == files.refusal && a.file == files.file && a.place == files.place && a.value == 0, "what is refused is refused by the plain engine");
    expect(part.weights[0] == 0 && memcmp(part.weights, part.weights + 1, sizeof part.weights - 1) == 0, "and the weights are 0");
}

/* Every eighth drawn pair: refused alike, or, if it has not too many choices, run by both engines. */
static void try_pairs(const char *name)
{
    enum { APART = 8, CHOICES = 200 };
    FILE *pairs = fopen(name, "rb");
    unsigned tried = 0, number = 0;
    expect(pairs != NULL, "the pairs can be read");
    while (pairs != NULL && next_pair(pairs, &study)) {
        if (number++ % APART != 0)
            continue;
        if (ask_files(&study).refusal != 0) {
            try_refused();
            continue;
        }
        take_book(&study.book_bytes, &study.book);
        take_case(&study.case_bytes, &study.level);
        if (choices_of(&study) > CHOICES)
            continue;
        try_study(study.level.head.last);
        try_study(study.level.head.last / 2);
        tried++;
    }
    if (pairs != NULL)
        fclose(pairs);
    expect(tried > 100, "drawn cases are run by both engines");
}

/* ---- how far it is */

static void try_progress(void)
{
    int fits = 1, has_share = 1;
    for (unsigned columns = 0; columns <= 130; columns++)
        for (uint64_t done = 0; done <= MOST_CHOICES; done += 65536) {
            const struct progress_line line = progress_line(done, MOST_CHOICES, 0.001 * (double)done * (columns % 7), columns);
            fits &= strlen(line.text) <= (columns > 5 ? columns : 5);
            has_share &= strstr(line.text, " %") != NULL;
        }
    expect(fits, "the line fits in its columns");
    expect(has_share, "the line has the share that is done");
    expect(strcmp(progress_line(0, 4096, 0, 79).text, "[------------------------------]    0 %") == 0, "before the first choice");
    expect(strcmp(progress_line(2048, 4096, 2, 79).text, "[###############---------------]   50 %  1024 choices a second  3 s left") == 0, "at half of it");
    expect(strcmp(progress_line(1, 1000, 1, 79).text, "[------------------------------]    0 %  1.0 choices a second  16 min 40 s left") == 0, "minutes");
    expect(strcmp(progress_line(100000, 2097152, 1000, 60).text, "[------------]    4 %  100 choices a second  5 h 32 min left") == 0, "hours");
    expect(strcmp(progress_line(4095, 4096, 1, 30).text, "[####################-]   99 %") == 0, "few columns");
    expect(strcmp(progress_line(4095, 4096, 1, 10).text, " 99 %") == 0, "ten columns");
    expect(strcmp(progress_line(4096, 4096, 1, 79).text, "[##############################]  100 %  4096 choices a second  0 s left") == 0, "all of it");
    expect(strcmp(progress_line(0, 0, 0, 79).text, "[##############################]  100 %") == 0, "no choices");
}

int main(int count, char **words)
{
    try_choices();
    try_portions();
    try_sums();
    try_whole_texts();
    try_damaged_texts();
    try_forged_texts();
    try_heavy_parts();
    try_comparison();
    set_shift();
    for (unsigned stop = 0; stop <= 20; stop++)
        try_study(stop);
    if (count > 1)
        try_pairs(words[1]);
    try_progress();
    return tally();
}
