/* Texts of cases and books: drawn levels shown and compiled again, drawn and damaged texts, errors word for word, and the check by showing again, which must
 * see every word that is changed. Given a file of pairs of case and book (docs/FORMATS.md, "What the tools read"), it shows and compiles each accepted one. */
#include <stdint.h>
#include <stdio.h>
#include <string.h>

#include "answers.h"
#include "bytes.h"
#include "pairs.h"
#include "tally.h"
#include "text.h"
#include "texts_drawn.h"
#include "texts_wrong.h"

enum { LEVELS = 6000, DAMAGED = 12000, MOST_WORDS = 400 };

static const struct tables no_book;

/* One check of many that are alike, by number. */
static void expect_nth(int holds, const char *what, unsigned nth)
{
    expect(holds, what);
    if (!holds)
        printf("    it is number %u\n", nth);
}

/* ---- levels compared */

static int same_tables(const struct tables *a, const struct tables *b)
{
    for (unsigned i = 0; i < a->count && i < b->count; i++)
        if (strcmp(a->table[i].name, b->table[i].name) != 0)
            return 0;
    return a->count == b->count;
}

static int same_names(const struct level *a, const struct level *b)
{
    if (strcmp(a->title, b->title) != 0 || a->stations != b->stations || a->tracks != b->tracks || a->trains != b->trains)
        return 0;
    for (unsigned i = 0; i < a->stations; i++)
        if (strcmp(a->station[i].name, b->station[i].name) != 0)
            return 0;
    for (unsigned i = 0; i < a->tracks; i++)
        if (strcmp(a->track[i].name, b->track[i].name) != 0)
            return 0;
    for (unsigned i = 0; i < a->trains; i++)
        if (strcmp(a->train[i].name, b->train[i].name) != 0)
            return 0;
    return same_tables(&a->tables, &b->tables);
}

static int same_text(const struct text *a, const struct text *b)
{
    return a->length == b->length && memcmp(a->at, b->at, a->length) == 0;
}

static struct text shown, shown_twice, damaged, example, branch;
static struct level again, seen;
static struct bytes bytes, bytes_again;
static struct text_error error;

/* Whether a text is compiled to this very level. */
static int leads_to(const struct text *text, const struct tables *book, const struct level *level)
{
    put_case(level, &bytes);
    if (!compile_case(text, book, &again, &error)) {
        printf("line %u, column %u: %s\n", error.line, error.column, error.words);
        return 0;
    }
    put_case(&again, &bytes_again);
    return same_bytes(&bytes, &bytes_again) && same_names(level, &again);
}

/* Whether a level's bytes, taken apart and named, are shown as the level is. */
static int is_shown_the_same(const struct level *level, const struct tables *book)
{
    put_case(level, &bytes);
    take_case(&bytes, &seen);
    take_names(&seen, level);
    show_case(&seen, book, &shown_twice);
    return same_text(&shown, &shown_twice);
}

/* The first byte of a line; the text's length if there is none such. */
static size_t line_at(const struct text *text, unsigned line)
{
    size_t i = 0;
    for (; line > 1 && i < text->length; i++)
        line -= text->at[i] == '\n' || (text->at[i] == '\r' && !(i + 1 < text->length && text->at[i + 1] == '\n'));
    return line > 1 ? text->length : i;
}

static int has_on_line(const struct text *text, unsigned line, const char *word)
{
    char whole[600];
    size_t at = line_at(text, line), past = line_at(text, line + 1), length = past - at < sizeof whole - 1 ? past - at : sizeof whole - 1;
    memcpy(whole, text->at + at, length);
    whole[length] = '\0';
    return line > 0 && strstr(whole, word) != NULL;
}

/* Whether each element of `again` has the line of the text that says it. */
static int has_lines(const struct text *text)
{
    const struct head *head = &again.head;
    int holds = has_on_line(text, head->line, "window") && has_on_line(text, head->safety_line, "safety");
    holds &= head->room_line == 0 || has_on_line(text, head->room_line, "room");
    for (unsigned i = 0; i < again.stations; i++)
        holds &= has_on_line(text, again.station[i].line, "station") && has_on_line(text, again.station[i].line, again.station[i].name);
    for (unsigned i = 0; i < again.tracks; i++)
        holds &= has_on_line(text, again.track[i].line, "track") && has_on_line(text, again.track[i].line, again.station[again.track[i].from].name);
    for (unsigned i = 0; i < again.couples; i++)
        for (unsigned k = 0; k < 2; k++)
            holds &= has_on_line(text, again.couple[i].line, "couple") && has_on_line(text, again.couple[i].line, again.track[again.couple[i].track[k]].name);
    for (unsigned i = 0; i < again.tables.count; i++)
        holds &= has_on_line(text, again.tables.table[i].line, "delays") && has_on_line(text, again.tables.table[i].line, again.tables.table[i].name);
    for (unsigned i = 0; i < again.trains; i++) {
        const struct train *train = &again.train[i];
        holds &= has_on_line(text, train->line, "train") && has_on_line(text, train->line, train->name);
        for (unsigned k = 0; k < train->stops; k++)
            holds &= has_on_line(text, train->stop[k].line, again.station[train->stop[k].station].name);
    }
    return holds;
}

static int leads_to_book(const struct text *text, const struct tables *book)
{
    static struct tables compiled;
    put_book(book, &bytes);
    if (!compile_book(text, &compiled, &error))
        return 0;
    put_book(&compiled, &bytes_again);
    return same_bytes(&bytes, &bytes_again) && same_tables(book, &compiled);
}

static void drawn_books(const struct tables *book, unsigned nth)
{
    show_book(book, &shown);
    damaged.length = 0;
    for (unsigned i = 0; i < book->count; i++) {
        write_table(&damaged, book, i);
        add_line_end(&damaged);
    }
    expect_nth(leads_to_book(&shown, book), "a shown book leads back to its bytes and names", nth);
    expect_nth(leads_to_book(&damaged, book), "a book written freely leads to its bytes and names", nth);
    expect_nth(shown_again(&damaged, &shown, &no_book, &error), "a book written freely is shown again", nth);
}

/* ---- damaged texts */

/* The characters of a line, without its end. */
static unsigned characters_of(const struct text *text, unsigned line)
{
    unsigned characters = 0;
    for (size_t i = line_at(text, line); i < text->length && text->at[i] != '\n' && text->at[i] != '\r'; i++)
        characters += ((unsigned char)text->at[i] & 0xC0) != 0x80;
    return characters;
}

static unsigned lines_of(const struct text *text)
{
    unsigned lines = 1;
    for (size_t i = 0; i < text->length; i++)
        lines += text->at[i] == '\n' || (text->at[i] == '\r' && !(i + 1 < text->length && text->at[i + 1] == '\n'));
    return lines;
}

static int is_error_within(const struct text *text)
{
    size_t length = strlen(error.words);
    return error.line >= 1 && error.line <= lines_of(text) && error.column >= 1 && error.column <= characters_of(text, error.line) + 1 && length > 0 &&
           length < MOST_WORDS && memchr(error.words, '\n', length) == NULL;
}

static unsigned compiled_though_damaged;

/* A damaged text has an error, or is compiled to a level that is shown as the text says it. */
static void damaged_text(const struct tables *book, unsigned nth)
{
    static struct level level;
    memset(&error, 0, sizeof error);
    damage(&damaged);
    if (!compile_case(&damaged, book, &level, &error)) {
        expect_nth(is_error_within(&damaged), "the error of a damaged text has its place and words", nth);
        return;
    }
    compiled_though_damaged++;
    show_case(&level, book, &shown);
    expect_nth(leads_to(&shown, book, &level) && is_shown_the_same(&level, book), "a damaged text that is compiled is shown and compiled again", nth);
    expect_nth(shown_again(&damaged, &shown, book, &error), "a damaged text that is compiled is shown again", nth);
}

/* ---- drawn levels */

static void drawn_level(unsigned nth)
{
    static struct level level;
    static struct tables book;
    if (in_ten(5))
        draw_tables(&book, &no_book);
    else
        book = no_book;
    draw_level(&level, &book);
    show_case(&level, &book, &shown);
    expect_nth(leads_to(&shown, &book, &level) && has_lines(&shown), "a shown level leads back to its bytes, names and lines", nth);
    expect_nth(is_shown_the_same(&level, &book), "a level that is taken from its bytes is shown the same", nth);
    expect_nth(shown_again(&shown, &shown, &book, &error), "what is shown is shown again", nth);
    write_freely(&level, &book, &damaged);
    expect_nth(leads_to(&damaged, &book, &level) && has_lines(&damaged), "a level written freely leads to its bytes, names and lines", nth);
    show_case(&again, &book, &shown);
    expect_nth(shown_again(&damaged, &shown, &book, &error), "a level written freely is shown again", nth);
    damaged_text(&book, nth);
    drawn_books(&book, nth);
}

/* Stations in a line, a track there and one back between the first of them, and their couples. */
static void fill_places(struct level *level)
{
    for (level->stations = 0; level->stations < MOST_STATIONS; level->stations++)
        level->station[level->stations].capacity = 255;
    for (unsigned i = 0; i < MOST_COUPLES; i++) {
        level->track[2 * i] = (struct track){"", i, i + 1, 9, 0};
        level->track[2 * i + 1] = (struct track){"", i + 1, i, 9, 0};
        level->couple[i] = (struct couple){{2 * i, 2 * i + 1}, 0};
    }
    level->tracks = MOST_TRACKS;
    level->couples = MOST_COUPLES;
}

static void fill_trains(struct level *level)
{
    for (level->trains = 0; level->trains < MOST_TRAINS; level->trains++)
        for (struct train *train = &level->train[level->trains]; train->stops < MOST_STOPS; train->stops++)
            train->stop[train->stops] = (struct stop){train->stops, 2 * train->stops, 2 * train->stops + 1, 0};
    for (level->tables.count = 0; level->tables.count < MOST_TABLES; level->tables.count++) {
        struct table *table = &level->tables.table[level->tables.count];
        table->type = level->tables.count;
        for (table->pairs = 0; table->pairs < MOST_PAIRS; table->pairs++)
            table->pair[table->pairs] = (struct pair){table->pairs, table->pairs == 0 ? 30 : 10};
    }
}

/* All that a case can hold: 919 bytes, which are accepted, and as many statements as there can be. */
static void fullest_level(void)
{
    static struct study study;
    struct level *level = &study.level;
    level->head = (struct head){.last = MOST_MINUTE, .safety = MOST_SAFETY, .room = MOST_ROOM};
    for (unsigned i = 0; i < TITLE_BYTES - 1; i++)
        level->title[i] = i % 2 == 0 ? 'x' : ' ';
    fill_places(level);
    fill_trains(level);
    give_names(level);
    put_case(level, &study.case_bytes);
    show_case(level, &no_book, &shown);
    expect(study.case_bytes.length == 919 && ask_files(&study).refusal == 0, "the fullest case has 919 bytes and is accepted");
    expect(leads_to(&shown, &no_book, level) && shown_again(&shown, &shown, &no_book, &error), "the fullest case is shown and compiled again");
}

static void damaged_examples(void)
{
    for (unsigned nth = 0; nth < DAMAGED; nth++) {
        damaged = nth % 3 == 0 ? branch : example;
        damaged_text(&no_book, nth);
    }
    expect_nth(compiled_though_damaged > DAMAGED / 50, "some damaged texts are compiled", compiled_though_damaged);
}

/* ---- spoiled texts */

/* Every word of a text in turn is left out, doubled, or another: the check by showing again must see it. */
static void spoiled_words(const struct text *text)
{
    static struct level level;
    unsigned nth = 0;
    compile_case(text, &no_book, &level, &error);
    show_case(&level, &no_book, &shown);
    for (size_t from = 0, past; from < shown.length; from = past) {
        while (from < shown.length && is_space(shown.at[from]))
            from++;
        for (past = from; past < shown.length && !is_space(shown.at[past]);)
            past++;
        if (past == from)
            break;
        nth++;
        damaged = shown;
        cut_out(&damaged, from, past);
        expect_nth(!shown_again(&shown, &damaged, &no_book, &error), "a word that is left out is seen", nth);
        expect_nth(!shown_again(&damaged, &shown, &no_book, &error), "a word that is put in is seen", nth);
        damaged = shown;
        damaged.at[past - 1] = damaged.at[past - 1] == '7' ? '8' : '7';
        expect_nth(!shown_again(&shown, &damaged, &no_book, &error), "a word that is another is seen", nth);
        damaged = shown;
        put_in(&damaged, past, " 9", 2);
        expect_nth(!shown_again(&shown, &damaged, &no_book, &error), "a word more is seen", nth);
    }
}

/* The place of some words in the shown example. */
static size_t place_of(const char *words)
{
    size_t length = strlen(words), at = 0;
    while (at + length < shown.length && memcmp(shown.at + at, words, length) != 0)
        at++;
    return at;
}

/* Kinds of errors that a compiler could make: what is shown has `wrong` where it should have `right`, and the check by showing again must see it. */
static void spoiled_statements(void)
{
    static const char *const spoiled[][2] = {{"    Tip     6-9\n", ""},
                                             {"    Tip     6-9\n    Shaft  14-16\n", "    Shaft  14-16\n    Tip     6-9\n"},
                                             {"    Tip     6-9\n", "    Face    6-9\n"},
                                             {"6-9", "9-6"},
                                             {"from Face   to Tip ", "from Tip    to Face"},
                                             {"Incline", "Decline"},
                                             {"Incline", "       "},
                                             {"delays Men    priority 0", "delays Ore    priority 0"},
                                             {"delays Men    priority 0", "type 2        priority 0"},
                                             {"delays Men    priority 0", "delays Men type 2 priority 0"},
                                             {"priority 2", "priority 1"},
                                             {"+1 16%", "+1 17%"},
                                             {"+1 16%  +4  4%", "+4  4%  +1 16%"},
                                             {"type 2", "type 4"},
                                             {"room    1024", "room    1023"},
                                             {"window  60", "window  61"},
                                             {"station Tip    holds 1\n", ""},
                                             {"station Tip    holds 1\nstation Shaft  holds 2\n", "station Shaft  holds 2\nstation Tip    holds 1\n"},
                                             {"title   Level 3, early shift\n", ""},
                                             {"early shift", "late shift"},
                                             {"\n\ntrain Ore-2", "\n    Face   24-30\n\ntrain Ore-2"},
                                             {"    Face   15-20\n", "    Face   15-20\n\ntrain Ore-3  type 1  priority 0\n"}};
    for (unsigned i = 0; i < sizeof spoiled / sizeof *spoiled; i++) {
        size_t at = place_of(spoiled[i][0]), length = strlen(spoiled[i][0]);
        int there = at + length <= shown.length && memcmp(shown.at + at, spoiled[i][0], length) == 0;
        damaged = shown;
        cut_out(&damaged, at, there ? at + length : at);
        put_in(&damaged, at, spoiled[i][1], strlen(spoiled[i][1]));
        expect_nth(there && shown_again(&example, &shown, &no_book, &error), "the example is shown", i);
        expect_nth(!shown_again(&example, &damaged, &no_book, &error), "a spoiled statement is seen", i);
    }
}

static void set_text(struct text *text, const char *words)
{
    text->length = 0;
    add(text, words);
}

/* What a text leaves out may be shown in one way only, and a train's type only as the table that has it. */
static void spoiled_left_out(void)
{
    static const struct tables book = {1, {{"Coal", 9, 1, {{0, 100}}, 0}}};
    static const struct {
        const char *text, *shown;
        int seen;
    } tried[] = {{"window 9", "window 9\nroom 1024", 1},
                 {"window 9", "window 9\nroom 1023", 0},
                 {"window 9", "window 9\nsafety 0", 0},
                 {"delays Ore\ndelays Men", "delays Ore type 1\ndelays Men type 2", 1},
                 {"delays Ore\ndelays Men", "delays Ore type 1\ndelays Men type 3", 0},
                 {"delays Ore\ndelays Men", "delays Ore type 2\ndelays Men type 3", 0},
                 {"delays Ore type 3\ntrain A type 3", "delays Ore type 3\ntrain A delays Ore", 1},
                 {"delays Ore type 3\ntrain A type 4", "delays Ore type 3\ntrain A delays Ore", 0},
                 {"train A type 9", "train A delays Coal", 1},
                 {"train A type 8", "train A delays Coal", 0},
                 {"train A type 9", "train A delays Ore", 0},
                 {"train A delays Coal", "train A type 9", 0},
                 {"track A-B from A to B", "track from A to B", 1},
                 {"track A-C from A to B", "track from A to B", 0},
                 {"track from A to B", "track A-B from A to B", 0},
                 {"title a \"b c\" # d", "title a \"b c\"", 1},
                 {"title a \"b c\"", "title a b c", 0},
                 {"couple \"A-B\" B-A # both ways", "couple A-B B-A", 1},
                 {"couple A-B B-A", "couple B-A A-B", 0},
                 {"couple A-B B-A", "couple A-B A-B", 0},
                 {"couple A-B B-A", "couple A-B B-A\ncouple C-D D-C", 0},
                 {"couple A-B B-A\ncouple C-D D-C", "couple A-B B-A", 0},
                 {"couple A-B B-A\ncouple C-D D-C", "couple C-D D-C\ncouple A-B B-A", 0}};
    for (unsigned i = 0; i < sizeof tried / sizeof *tried; i++) {
        set_text(&damaged, tried[i].text);
        set_text(&shown, tried[i].shown);
        expect_nth(shown_again(&damaged, &shown, &book, &error) == tried[i].seen, "what a text leaves out is shown in one way", i);
    }
}

/* A train whose table's name would lead to another table is shown by its type. */
static void shown_by_type(void)
{
    static const struct tables book = {1, {{"D1", 5, 1, {{0, 100}}, 0}}};
    static struct level level;
    set_text(&damaged, "window 9\nsafety 0\ndelays D1 +0 100%\ntrain A type 1 priority 0\ntrain B type 5 priority 0\n");
    expect(compile_case(&damaged, &no_book, &level, &error), "a case with types is compiled");
    show_case(&level, &book, &shown);
    set_text(&damaged, "window  9\nsafety  0\nroom    1024\n\ndelays D1  type 1  +0 100%\n\n"
                       "train A  delays D1  priority 0\n\ntrain B  type 5     priority 0\n");
    expect(same_text(&shown, &damaged), "a train whose table's name leads to another is shown by its type");
}

/* ---- errors */

/* Whether a wrong text has the very error that is expected. */
static int has_error(const struct wrong_text *wrong_text)
{
    static const struct tables book = {2, {{"Ore", 1, 1, {{0, 100}}, 0}, {"Coal", 9, 1, {{0, 100}}, 0}}};
    static struct level level;
    static struct tables compiled;
    memset(&error, 0, sizeof error);
    damaged.length = 0;
    add(&damaged, wrong_text->text);
    if (wrong_text->kind == A_BOOK ? compile_book(&damaged, &compiled, &error)
                                   : compile_case(&damaged, wrong_text->kind == WITH_BOOK ? &book : &no_book, &level, &error))
        return 0;
    return error.line == wrong_text->line && error.column == wrong_text->column && strcmp(error.words, wrong_text->words) == 0;
}

static void wrong_texts(void)
{
    for (unsigned i = 0; i < sizeof wrong / sizeof *wrong; i++) {
        int holds = has_error(&wrong[i]);
        if (!holds)
            printf("%s\n  %u:%u: %s\n", wrong[i].text, error.line, error.column, error.words);
        expect_nth(holds, "a wrong text has this very error", i);
    }
}

/* ---- files */

static int read_example(const char *name, struct text *text)
{
    FILE *file = fopen(name, "rb");
    if (file == NULL)
        return 0;
    text->length = fread(text->at, 1, MOST_TEXT, file);
    return fclose(file) == 0 && text->length > 0;
}

static void examples(void)
{
    static struct text text;
    static struct level level;
    expect(read_example("examples/shift.txt", &text) && compile_case(&text, &no_book, &level, &error), "the shift example is compiled");
    put_case(&level, &bytes);
    expect(read_example("examples/shift.case", &text) && text.length == bytes.length && memcmp(text.at, bytes.at, bytes.length) == 0,
           "its bytes are those of its case");
    expect(read_example("examples/branch.txt", &branch) && compile_case(&branch, &no_book, &level, &error), "the branch is compiled");
    put_case(&level, &bytes);
    expect(read_example("examples/branch.case", &text) && text.length == bytes.length && memcmp(text.at, bytes.at, bytes.length) == 0,
           "its bytes are those of its case");
    expect(read_example("examples/level.txt", &example), "the level is there");
}

static void accepted_pair(struct study *study, unsigned nth)
{
    take_case(&study->case_bytes, &study->level);
    take_book(&study->book_bytes, &study->book);
    show_case(&study->level, &study->book, &shown);
    expect_nth(leads_to(&shown, &study->book, &study->level) && same_bytes(&bytes_again, &study->case_bytes), "an accepted case leads back to its bytes", nth);
    show_book(&study->book, &shown);
    expect_nth(leads_to_book(&shown, &study->book) && same_bytes(&bytes_again, &study->book_bytes), "an accepted book leads back to its bytes", nth);
}

static void pairs(const char *name)
{
    static struct study study;
    FILE *file = fopen(name, "rb");
    unsigned nth = 0, accepted = 0;
    for (; file != NULL && next_pair(file, &study); nth++)
        if (ask_files(&study).refusal == 0) {
            accepted++;
            accepted_pair(&study, nth);
        }
    expect(accepted > 0, "some of the pairs are accepted");
    if (file != NULL)
        fclose(file);
    printf("%u pairs, %u accepted\n", nth, accepted);
}

int main(int count, char **words)
{
    examples();
    wrong_texts();
    for (unsigned nth = 0; nth < LEVELS; nth++)
        drawn_level(nth);
    fullest_level();
    damaged_examples();
    spoiled_words(&branch);
    spoiled_words(&example);
    spoiled_statements();
    spoiled_left_out();
    shown_by_type();
    if (count > 1)
        pairs(words[1]);
    return tally();
}
