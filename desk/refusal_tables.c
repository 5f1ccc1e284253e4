/* Refusals 10 to 12 in words: delay tables, types without a table, and the room. */
#include <string.h>

#include "answers.h"
#include "refusal_words.h"

enum { PAIR_BYTES = 2, WHOLE_TABLE = 100, TYPE_BYTES = NAME_BYTES + 16, TYPES_BYTES = MOST_TABLES * TYPE_BYTES };

/* ---- 10 */

static unsigned pairs_of(const struct fault *fault)
{
    return (fault->field.size - 1) / PAIR_BYTES;
}

static struct pair pair_at(const uint8_t *body, unsigned i)
{
    struct pair pair = {body[1 + (size_t)i * PAIR_BYTES], body[2 + (size_t)i * PAIR_BYTES]};
    return pair;
}

static int does_not_rise(const struct fault *fault, const uint8_t *body, struct words *words)
{
    for (unsigned i = 1; i < pairs_of(fault); i++) {
        unsigned before = pair_at(body, i - 1).delay, delay = pair_at(body, i).delay;
        if (before < delay)
            continue;
        say_wrong(words, "the delays of %s don't rise: +%u stands after +%u.", element_called(fault).text, delay, before);
        say_mend(words, "write the delays from the shortest to the longest, each once.");
        return 1;
    }
    return 0;
}

static int has_no_weight(const struct fault *fault, const uint8_t *body, struct words *words)
{
    for (unsigned i = 0; i < pairs_of(fault); i++) {
        if (pair_at(body, i).weight > 0)
            continue;
        say_wrong(words, "delay +%u of %s has weight 0; a weight is at least 1.", pair_at(body, i).delay, element_called(fault).text);
        say_mend(words, "leave that delay out, or give it a weight.");
        return 1;
    }
    return 0;
}

static int has_wrong_sum(const struct fault *fault, const uint8_t *body, struct words *words)
{
    unsigned sum = 0;
    for (unsigned i = 0; i < pairs_of(fault); i++)
        sum += pair_at(body, i).weight;
    if (sum == WHOLE_TABLE)
        return 0;
    say_wrong(words, "the %s of %s sum to %u, not to 100: %u too %s.", was_text(fault) ? "percents" : "weights", element_called(fault).text, sum,
              sum > WHOLE_TABLE ? sum - WHOLE_TABLE : WHOLE_TABLE - sum, sum > WHOLE_TABLE ? "many" : "few");
    say_mend(words, "change them so that they sum to 100.");
    return 1;
}

void words_of_table(const struct fault *fault, struct words *words)
{
    const uint8_t *body = body_of(fault), *before;
    unsigned nth = fault->field.nth;
    if (body == NULL || fault->field.tag != TAG_TABLE)
        return;
    if (does_not_rise(fault, body, words) || has_no_weight(fault, body, words) || has_wrong_sum(fault, body, words) || nth == 0)
        return;
    before = nth_body(fault->bytes, TAG_TABLE, nth - 1);
    if (before == NULL || before[0] < body[0])
        return;
    say_wrong(words, "%s has type %u, and %s before it has type %u: types must rise.", element_called(fault).text, body[0], table_called(fault, nth - 1).text,
              before[0]);
    say_mend(words, "put the tables in the order of their types, each type once.");
}

/* ---- 11 */

/* Whether a file has a table of the type. */
static int has_type(const struct bytes *bytes, unsigned type)
{
    const uint8_t *body;
    for (unsigned i = 0; (body = nth_body(bytes, TAG_TABLE, i)) != NULL; i++)
        if (body[0] == type)
            return 1;
    return 0;
}

/* The types of a file's tables: `1 (Ore), 2 (Men)`; `named` has their names, and is null if there are none. */
static void say_types(struct words *words, const char *file, const struct bytes *bytes, const struct tables *named)
{
    char types[TYPES_BYTES] = "";
    unsigned count = 0;
    const uint8_t *body;
    for (; count < MOST_TABLES && (body = nth_body(bytes, TAG_TABLE, count)) != NULL; count++) {
        sprintf(types + strlen(types), "%s%u", count == 0 ? "" : ", ", body[0]);
        if (named != NULL && count < named->count)
            sprintf(types + strlen(types), " (%.*s)", (int)NAME_BYTES, named->table[count].name);
    }
    if (count == 0)
        say_wrong(words, "the %s has no delay tables.", file);
    else
        say_wrong(words, "the %s has %s %s.", file, count == 1 ? "a delay table of type" : "delay tables of types", types);
}

void words_of_type(const struct fault *fault, struct words *words)
{
    const uint8_t *body = body_of(fault);
    const struct study *study = fault->study;
    if (body == NULL || fault->field.tag != TAG_TRAIN || has_type(&study->case_bytes, body[1]) || has_type(&study->book_bytes, body[1]))
        return;
    say_wrong(words, "%s has type %u, but no delay table has type %u.", train_called(fault, fault->field.nth).text, body[1], body[1]);
    say_types(words, "case", &study->case_bytes, study->case_is_text ? &study->level.tables : NULL);
    if (study->book_name != NULL)
        say_types(words, "book", &study->book_bytes, study->book_is_text ? &study->book : NULL);
    else
        say_wrong(words, "no book was given.");
    say_mend(words, "%sadd a delay table of that type, or change the train's type.", study->book_name != NULL ? "" : "give the book with --book, or ");
}

/* ---- 12 */

void words_of_room(const struct fault *fault, struct words *words)
{
    const uint8_t *head = nth_body(&fault->study->case_bytes, TAG_HEAD, 0);
    unsigned room = head != NULL ? number_at(head + 3) : 0, least = least_room(fault->study);
    if (head == NULL)
        return;
    say_wrong(words, "the run needs more than %u %s, which is the room of this case.", room, room == 1 ? "row" : "rows");
    if (least <= MOST_ROOM)
        say_mend(words, fault->study->case_is_text ? "write `room %u`; it can be up to %d." : "set the room to %u; it can be up to %d.", least, (int)MOST_ROOM);
    else
        say_mend(words, "the most that a case can ask for, %d rows, does not suffice.", (int)MOST_ROOM);
    say_mend(words, "fewer delays in the tables or fewer trains make the list shorter.");
    say_mend(words, "`lampreysong plain` runs every choice by itself, and needs no room.");
}
