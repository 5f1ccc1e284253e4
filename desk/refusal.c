/* How a refusal is said: the line of 01, its meaning, where it is, what is wrong there and what to mend. */
#include "refusal.h"

#include <ctype.h>
#include <string.h>

#include "refusal_words.h"

enum { MOST_SHOWN = 16 }; /* bytes of a field */

static const char *const meanings[] = {
    [LAMPREYSONG_OVERRUN] = "a field's header or body runs past the end",
    [LAMPREYSONG_UNKNOWN_TAG] = "tag 0 or above 6",
    [LAMPREYSONG_MISPLACED] = "in a case: first field no head, a second head or a falling tag; in a book: a tag other than 5",
    [LAMPREYSONG_WRONG_LENGTH] = "length not possible for the tag",
    [LAMPREYSONG_WRONG_COUNT] = "one station, track, train, table or couple too many; at the end of a case, no head, station or train",
    [LAMPREYSONG_OUT_OF_RANGE] = "last minute, safety time, room or capacity out of range",
    [LAMPREYSONG_WRONG_ENDS] = "track with an unknown end, equal ends, or the ends of an earlier track",
    [LAMPREYSONG_WRONG_PATH] = "path with an unknown or repeated station or a missing track",
    [LAMPREYSONG_WRONG_TIMES] = "times out of order or past the last minute",
    [LAMPREYSONG_WRONG_TABLE] = "delay table breaks a rule",
    [LAMPREYSONG_NO_TABLE] = "a train's type has no table",
    [LAMPREYSONG_NO_ROOM] = "list of entries passes the room",
    [LAMPREYSONG_TOO_SHORT] = "lent memory too short",
    [LAMPREYSONG_WRONG_CHOICE] = "choice with a wrong count or an index past the table",
    [LAMPREYSONG_NO_TRAIN] = "no such train",
    [LAMPREYSONG_STOP_TOO_LATE] = "stop minute above the last minute",
    [LAMPREYSONG_WRONG_COUPLE] = "couple with an unknown track, ends that don't mirror, unequal capacities, or a track already coupled",
};

static void (*const words_of[])(const struct fault *fault, struct words *words) = {
    [LAMPREYSONG_OVERRUN] = words_of_overrun,
    [LAMPREYSONG_UNKNOWN_TAG] = words_of_tag,
    [LAMPREYSONG_MISPLACED] = words_of_order,
    [LAMPREYSONG_WRONG_LENGTH] = words_of_length,
    [LAMPREYSONG_WRONG_COUNT] = words_of_count,
    [LAMPREYSONG_OUT_OF_RANGE] = words_of_range,
    [LAMPREYSONG_WRONG_ENDS] = words_of_ends,
    [LAMPREYSONG_WRONG_PATH] = words_of_path,
    [LAMPREYSONG_WRONG_TIMES] = words_of_times,
    [LAMPREYSONG_WRONG_TABLE] = words_of_table,
    [LAMPREYSONG_NO_TABLE] = words_of_type,
    [LAMPREYSONG_NO_ROOM] = words_of_room,
    [LAMPREYSONG_WRONG_COUPLE] = words_of_couple,
};

#define COUNT(list) (sizeof(list) / sizeof *(list))

int is_refusal(unsigned number)
{
    return number < COUNT(meanings) && meanings[number] != NULL;
}

const char *refusal_meaning(unsigned number)
{
    return is_refusal(number) ? meanings[number] : "a number that has no meaning";
}

static struct fault fault_at(const struct study *study, struct refusal refusal)
{
    struct fault fault = {study, refusal.file == 1 ? &study->book_bytes : &study->case_bytes, refusal.file == 1, {0, 0, 0, 0, 0}, 0, 0, 0};
    fault.whole = field_at(fault.bytes, refusal.place, &fault.field);
    fault.reached = fault.field.place == refusal.place;
    fault.has_header = fault.reached && fault.bytes->length - refusal.place >= FIELD_HEADER;
    fault.field.tag = fault.has_header ? fault.bytes->at[refusal.place] : 0;
    fault.field.size = fault.has_header ? number_at(fault.bytes->at + refusal.place + 1) : 0;
    fault.field.nth = count_before(fault.bytes, fault.field.tag, refusal.place);
    return fault;
}

/* ---- layout */

static void print_file(FILE *out, const struct fault *fault)
{
    const char *name = fault->in_book ? fault->study->book_name : fault->study->case_name;
    if (name == NULL)
        fputs(fault->in_book ? "the book" : "the case", out);
    else
        fputs(strcmp(name, "-") == 0 ? "standard input" : name, out);
}

/* The file, and the line and name or number of the element if a field was refused. */
static void print_where(FILE *out, const struct fault *fault, unsigned line)
{
    const char *kind = fault->has_header ? kind_of(fault->field.tag) : NULL;
    fputs("  where  ", out);
    print_file(out, fault);
    if (line > 0)
        fprintf(out, ", line %u", line);
    if (kind != NULL && fault->field.tag == TAG_HEAD)
        fprintf(out, ": %s", was_text(fault) ? "window, safety and room" : kind);
    else if (kind != NULL && was_text(fault))
        fprintf(out, ": %s (%s %u, counted from 0)", element_called(fault).text, kind, fault->field.nth);
    else if (kind != NULL)
        fprintf(out, ": %s %u, counted from 0", kind, fault->field.nth);
    fputc('\n', out);
}

static void print_bytes(FILE *out, const struct fault *fault)
{
    size_t place = fault->field.place, left = fault->bytes->length - place;
    size_t size = fault->whole ? FIELD_HEADER + (size_t)fault->field.size : left;
    const char *of = !was_text(fault) ? "" : fault->in_book ? " of the compiled book" : " of the compiled case";
    if (left == 0) {
        if (place > 0)
            fprintf(out, "  bytes  the end%s, at byte %lu, after field %u\n", of, (unsigned long)place, fault->field.number - 1);
        return;
    }
    fprintf(out, "  bytes  field %u%s, at byte %lu:", fault->field.number, of, (unsigned long)place);
    for (size_t i = 0; i < size && i < MOST_SHOWN; i++)
        fprintf(out, " %02x", fault->bytes->at[place + i]);
    fputs(size > MOST_SHOWN ? " ..\n" : "\n", out);
}

void print_sentences(FILE *out, const char *label, const char *sentences)
{
    int begins = 1;
    if (*sentences == '\0')
        return;
    fprintf(out, "  %-5s  ", label);
    for (; *sentences != '\0'; sentences++) {
        fputc(begins ? toupper((unsigned char)*sentences) : *sentences, out);
        begins = *sentences == '\n';
        if (begins && sentences[1] != '\0')
            fputs("         ", out);
    }
}

static void print_refusal(FILE *out, struct refusal refusal)
{
    fprintf(out, "refused %u %u %u\n%s\n", refusal.number, refusal.file, refusal.place, refusal_meaning(refusal.number));
}

void say_refusal(FILE *out, const struct study *study, struct refusal refusal)
{
    struct fault fault;
    struct words words = {0, "", ""};
    print_refusal(out, refusal);
    if (refusal.number >= COUNT(words_of) || words_of[refusal.number] == NULL)
        return;
    fault = fault_at(study, refusal);
    words_of[refusal.number](&fault, &words);
    if (refusal.number == LAMPREYSONG_NO_ROOM) {
        fault.has_header = 0;
        print_where(out, &fault, 0);
    } else if (fault.reached) {
        print_where(out, &fault, words.line > 0 ? words.line : element_line(&fault));
        print_bytes(out, &fault);
    }
    print_sentences(out, "wrong", words.wrong);
    print_sentences(out, "mend", words.mend);
}

/* ---- arguments of a call */

static void words_of_choice(const struct study *study, const struct asked *asked, struct words *words)
{
    const struct level *level = &study->level;
    if (asked->count != level->trains) {
        say_wrong(words, "the choice has %lu %s, but the case has %u %s.", (unsigned long)asked->count, asked->count == 1 ? "item" : "items", level->trains,
                  level->trains == 1 ? "train" : "trains");
        say_mend(words, "give one item for each train, in the order of the case, with commas between.");
        return;
    }
    for (unsigned k = 0; k < level->trains; k++) {
        const struct table *table = table_of(level, &study->book, level->train[k].type);
        if (table == NULL || asked->choice[k] < table->pairs)
            continue;
        say_wrong(words, "%s is given index %u, but its %s has %u %s.", named("train", level->train[k].name, k).text, asked->choice[k],
                  named("delay table", table->name, k).text, table->pairs, table->pairs == 1 ? "delay" : "delays");
        say_mend(words, "indices count from 0 in the table; --delays takes the delays themselves.");
        return;
    }
}

static void words_of_train(const struct level *level, const struct asked *asked, struct words *words)
{
    if (asked->train < level->trains)
        return;
    say_wrong(words, "there is no train %u: the case has %u %s.", asked->train, level->trains, level->trains == 1 ? "train" : "trains");
    if (level->trains == 1)
        say_mend(words, "its number is 0 (%s).", level->train[0].name);
    else
        say_mend(words, "ask for one of 0 (%s) to %u (%s), or by name.", level->train[0].name, level->trains - 1, level->train[level->trains - 1].name);
}

static void words_of_stop(const struct level *level, const struct asked *asked, struct words *words)
{
    if (asked->stop <= level->head.last)
        return;
    say_wrong(words, "the run is to stop after minute %u, but the last minute is %u.", asked->stop, level->head.last);
    say_mend(words, "give a minute of 0 to %u, or leave --stop out.", level->head.last);
}

void say_call_refusal(FILE *out, const struct study *study, struct refusal refusal, const struct asked *asked)
{
    struct words words = {0, "", ""};
    if (refusal.number == LAMPREYSONG_WRONG_CHOICE)
        words_of_choice(study, asked, &words);
    else if (refusal.number == LAMPREYSONG_NO_TRAIN)
        words_of_train(&study->level, asked, &words);
    else if (refusal.number == LAMPREYSONG_STOP_TOO_LATE)
        words_of_stop(&study->level, asked, &words);
    else {
        say_refusal(out, study, refusal);
        return;
    }
    print_refusal(out, refusal);
    print_sentences(out, "wrong", words.wrong);
    print_sentences(out, "mend", words.mend);
}
