/* Refusals 1 to 5 in words: fields that run past the end, are unknown, misplaced, of a wrong length, or too many or too few. */
#include <string.h>

#include "refusal_words.h"

static const char *const several[] = {NULL, "heads", "stations", "tracks", "trains", "delay tables", "couples"};

static const char *file_kind(const struct fault *fault)
{
    return fault->in_book ? "book" : "case";
}

/* ---- 1 */

void words_of_overrun(const struct fault *fault, struct words *words)
{
    size_t left = fault->bytes->length - fault->field.place;
    if (!fault->reached || fault->whole || left == 0)
        return;
    if (!fault->has_header)
        say_wrong(words, "a field begins with 3 bytes, its tag and its length, but only %lu %s left.", (unsigned long)left, left == 1 ? "is" : "are");
    else if (left == FIELD_HEADER)
        say_wrong(words, "its length announces %u %s, but the file ends here.", fault->field.size, fault->field.size == 1 ? "byte" : "bytes");
    else
        say_wrong(words, "its length announces %u bytes, but the file has only %lu more.", fault->field.size, (unsigned long)(left - FIELD_HEADER));
    say_mend(words, "the file was cut off, or a length in it is wrong. Compile its text again, or copy it again.");
}

/* ---- 2 */

enum { LOOKED_AT = 16 }; /* bytes at the beginning of a file that tell what it may be */

static int is_printed(uint8_t byte)
{
    return (byte >= 32 && byte != 127) || byte == '\t' || byte == '\n' || byte == '\r';
}

/* Whether every second byte of the file's beginning is 0, from the first or the second on, and the others are not; or it has a byte order mark. */
static int looks_like_utf16(const struct bytes *bytes)
{
    const uint8_t *at = bytes->at;
    if ((at[0] == 0xff && at[1] == 0xfe) || (at[0] == 0xfe && at[1] == 0xff))
        return 1;
    for (size_t i = 0; i < LOOKED_AT; i += 2)
        if (i + 1 >= bytes->length || (at[i] == 0) != (at[0] == 0) || (at[i] == 0) == (at[i + 1] == 0))
            return 0;
    return 1;
}

static int looks_like_hex(const struct bytes *bytes)
{
    unsigned digits = 0;
    size_t i;
    for (i = 0; i < bytes->length && i < LOOKED_AT && bytes->at[i] != '#'; i++) {
        if (bytes->at[i] == '\0' || strchr("0123456789abcdefABCDEF \t\r\n", bytes->at[i]) == NULL)
            return 0;
        digits += bytes->at[i] > ' ';
    }
    return digits >= 4;
}

/* The first byte that is no text; the length if there is none. */
static size_t first_unprinted(const struct bytes *bytes)
{
    size_t i = 0;
    while (i < bytes->length && is_printed(bytes->at[i]))
        i++;
    return i;
}

/* What a file may be whose first tag is none. */
static void words_of_first_tag(const struct fault *fault, struct words *words)
{
    const struct bytes *bytes = fault->bytes;
    size_t odd = first_unprinted(bytes);
    int is_hex = looks_like_hex(bytes);
    if (is_hex || (odd >= LOOKED_AT && odd < bytes->length)) {
        say_wrong(words, is_hex ? "this looks like hex written as text." : "this looks like text.");
        if (odd < bytes->length)
            say_wrong(words, "byte %lu is the control character %02x, so the file was not read as text.", (unsigned long)odd, bytes->at[odd]);
        if (is_hex)
            say_mend(words, "make bytes of it first (examples/to-bytes does so), or write the %s as text.", file_kind(fault));
        else
            say_mend(words, "take the control character out.");
    } else
        say_mend(words, "is this a %s? The bytes of a %s begin with %s.", file_kind(fault), file_kind(fault), fault->in_book ? "05 00" : "01 00 05");
}

void words_of_tag(const struct fault *fault, struct words *words)
{
    if (!fault->has_header || kind_of(fault->field.tag) != NULL)
        return;
    if (fault->field.place == 0 && looks_like_utf16(fault->bytes)) {
        say_wrong(words, "the file is text that was saved as UTF-16, it seems.");
        say_mend(words, "save the text as UTF-8.");
        return;
    }
    say_wrong(words, "the tag is %u; tags are 1 head, 2 station, 3 track, 4 train, 5 delay table and 6 couple.", fault->field.tag);
    if (fault->field.place == 0)
        words_of_first_tag(fault, words);
    else
        say_mend(words, "a length before this place may be wrong. `lampreysong show --fields` prints the file field by field.");
}

/* ---- 3 */

static void words_of_book_order(const struct fault *fault, struct words *words)
{
    unsigned tag = fault->field.tag;
    if (tag == TAG_TABLE)
        return;
    say_wrong(words, "a %s (tag %u) stands here, but a book has delay tables (tag 5) only.", kind_of(tag), tag);
    if (tag == TAG_HEAD && fault->field.place == 0)
        say_mend(words, "this may be a case. The book is the file after --book.");
    else
        say_mend(words, "take it out of the book.");
}

/* The highest tag before the field is that of the field right before it. */
static unsigned tag_before(const struct fault *fault)
{
    unsigned tag = LAST_TAG;
    while (tag > 0 && count_before(fault->bytes, tag, fault->field.place) == 0)
        tag--;
    return tag;
}

/* A length that its tag can't have comes most likely of a byte that was lost or added. */
static void look_before(struct words *words)
{
    say_mend(words, "perhaps a byte was lost or added, here or before: `lampreysong show --fields` prints the file field by field.");
}

void words_of_order(const struct fault *fault, struct words *words)
{
    unsigned tag = fault->field.tag, before = tag_before(fault);
    if (!fault->has_header || kind_of(tag) == NULL)
        return;
    if (fault->in_book)
        words_of_book_order(fault, words);
    else if (fault->field.place > 0 && !possible_length(tag, fault->field.size)) {
        say_wrong(words, "what stands here can be no field: it begins as a %s (tag %u), but then says that its length is %u.", kind_of(tag), tag,
                  fault->field.size);
        look_before(words);
    } else if (fault->field.place == 0 && tag != TAG_HEAD) {
        say_wrong(words, "the first field is a %s (tag %u), but a case begins with its head (tag 1).", kind_of(tag), tag);
        say_mend(words, tag == TAG_TABLE ? "this may be a book. A book is given by --book, beside a case." : "put the head first.");
    } else if (fault->field.place > 0 && tag == TAG_HEAD) {
        say_wrong(words, "this is a second head, but a case has one.");
        say_mend(words, "take one of the two out.");
    } else if (tag < before) {
        say_wrong(words, "a %s (tag %u) stands after a %s (tag %u).", kind_of(tag), tag, kind_of(before), before);
        say_mend(words, "the order is head, stations, tracks, trains, delay tables, couples: put it before the first %s.", kind_of(before));
    }
}

/* ---- 4 */

static const char *const lengths[] = {NULL, "5 bytes", "1 byte", "3 bytes", "12, 17, 22, 27, 32, 37 or 42 bytes (2 to 8 stops)",
                                      "3, 5, 7, 9, 11, 13, 15 or 17 bytes (1 to 8 delays)", "2 bytes"};

/* A text has no lengths, but stops and delays. */
static void words_of_text_length(const struct fault *fault, struct words *words)
{
    unsigned stops = fault->field.size / 5;
    if (fault->field.tag == TAG_TRAIN && stops < 2) {
        say_wrong(words, "%s has %s; a train has 2 to %d stops.", element_called(fault).text, stops == 0 ? "no stops" : "1 stop", (int)MOST_STOPS);
        say_mend(words, "write the stations that it comes to, the first and the last at least.");
    } else if (fault->field.tag == TAG_TABLE && fault->field.size == 1) {
        say_wrong(words, "%s has no delays; a table has 1 to %d.", element_called(fault).text, (int)MOST_PAIRS);
        say_mend(words, "write each delay with its weight; +0 100%% is the table of trains without delay.");
    }
}

void words_of_length(const struct fault *fault, struct words *words)
{
    unsigned tag = fault->field.tag, size = fault->field.size;
    if (!fault->has_header || kind_of(tag) == NULL || possible_length(tag, size))
        return;
    if (was_text(fault)) {
        words_of_text_length(fault, words);
        return;
    }
    say_wrong(words, "its length is %u %s; the length of a %s is %s.", size, size == 1 ? "byte" : "bytes", kind_of(tag), lengths[tag]);
    look_before(words);
}

/* ---- 5 */

static const unsigned most[] = {0, 1, MOST_STATIONS, MOST_TRACKS, MOST_TRAINS, MOST_TABLES, MOST_COUPLES};

static void words_of_many(const struct fault *fault, struct words *words)
{
    unsigned tag = fault->field.tag;
    if (kind_of(tag) == NULL || fault->field.nth < most[tag])
        return;
    say_wrong(words, "a %s has at most %u %s, and this is one more.", file_kind(fault), most[tag], several[tag]);
    if (tag == TAG_COUPLE)
        say_mend(words, "take it out: after %u couples every track that a case can have is in one.", most[tag]);
    else if (tag != TAG_TABLE)
        say_mend(words, "take out a %s that can be spared.", kind_of(tag));
    else
        say_mend(words, fault->in_book ? "take out a table whose type no train has." : "take out a table whose type no train has, or put tables into a book.");
}

/* What is missing at the end of a case. */
static void words_of_end(const struct fault *fault, struct words *words)
{
    unsigned stations = count_before(fault->bytes, TAG_STATION, fault->field.place), trains = count_before(fault->bytes, TAG_TRAIN, fault->field.place);
    if (fault->bytes->length == 0) {
        say_wrong(words, "the case is empty.");
        say_mend(words, "is this the right file? A case has a head, stations and trains.");
    } else if (trains == 0) {
        say_wrong(words, stations == 0 ? "the case has no station and no train." : "the case has no train.");
        say_mend(words, stations == 0 ? "add stations, the tracks between them, and the trains." : "add a train.");
    }
}

void words_of_count(const struct fault *fault, struct words *words)
{
    if (fault->whole)
        words_of_many(fault, words);
    else if (fault->reached && fault->field.place == fault->bytes->length && !fault->in_book)
        words_of_end(fault, words);
}
