/* From the files of a request to what is run. */
#include "study.h"

#include <stdio.h>
#include <string.h>

#include "answers.h"
#include "input.h"
#include "numbers.h"
#include "refusal.h"
#include "text.h"

static struct input input;
static struct text shown;

/* A file's name for people. */
static const char *called(const char *name)
{
    return strcmp(name, "-") == 0 ? "standard input" : name;
}

/* A text that is refused, with its line and column. */
static int refused_text(const char *name, const struct text_error *error)
{
    fprintf(stderr, "%s:%u:%u: %s\n", called(name), error->line, error->column, error->words);
    return REFUSED;
}

static int differs(const char *name, const struct text_error *error)
{
    fprintf(stderr, "%s:%u:%u: the bytes do not say what the text says: %s\n", called(name), error->line, error->column, error->words);
    fputs("lampreysong: this is an error of this program, not of the text; nothing was run\n", stderr);
    return REFUSED;
}

/* The file as bytes: at most the part that is handed on. */
static void hand_on(struct bytes *bytes)
{
    bytes->length = input.text.length < HANDED ? input.text.length : HANDED;
    memcpy(bytes->at, input.text.at, bytes->length);
}

static int too_long(const char *name)
{
    return misused("%s is text of more than %d bytes; no case needs as many", called(name), (int)MOST_TEXT);
}

/* ---- the book */

static int compare_book(const struct study *study)
{
    static const struct tables no_book;
    static struct tables seen, again;
    static struct bytes bytes;
    struct text_error error = {0, 0, "it can't be shown"};
    take_book(&study->book_bytes, &seen);
    for (unsigned i = 0; i < seen.count; i++)
        memcpy(seen.table[i].name, study->book.table[i].name, sizeof(name_text));
    show_book(&seen, &shown);
    if (!shown_again(&input.text, &shown, &no_book, &error) || !compile_book(&shown, &again, &error))
        return differs(study->book_name, &error);
    put_book(&again, &bytes);
    return same_bytes(&bytes, &study->book_bytes) ? ANSWERED : differs(study->book_name, &error);
}

static int read_book(struct study *study)
{
    struct text_error error;
    if (!read_input(study->book_name, &input))
        return MISUSED;
    study->book_is_text = is_text(&input);
    if (!study->book_is_text) {
        hand_on(&study->book_bytes);
        if (ask_book(study).refusal == 0)
            take_book(&study->book_bytes, &study->book);
        return ANSWERED;
    }
    if (input.longer)
        return too_long(study->book_name);
    if (!compile_book(&input.text, &study->book, &error))
        return refused_text(study->book_name, &error);
    put_book(&study->book, &study->book_bytes);
    return compare_book(study);
}

/* ---- the case */

static int compare_case(const struct study *study)
{
    static struct level seen, again;
    static struct bytes bytes;
    struct text_error error = {0, 0, "it can't be shown"};
    take_case(&study->case_bytes, &seen);
    take_names(&seen, &study->level);
    show_case(&seen, &study->book, &shown);
    if (!shown_again(&input.text, &shown, &study->book, &error) || !compile_case(&shown, &study->book, &again, &error))
        return differs(study->case_name, &error);
    put_case(&again, &bytes);
    return same_bytes(&bytes, &study->case_bytes) ? ANSWERED : differs(study->case_name, &error);
}

static int say_refused(const struct study *study, struct lampreysong_answer a)
{
    say_refusal(stderr, study, (struct refusal){a.refusal, a.file, a.place});
    return REFUSED;
}

/* Compiles what was read as the study's case. Its trains may name tables of the book, so the book must be sound. */
static int compile_study(struct study *study)
{
    struct text_error error;
    struct lampreysong_answer book = ask_book(study);
    if (input.longer)
        return too_long(study->case_name);
    if (book.refusal != 0)
        return say_refused(study, book);
    if (!compile_case(&input.text, &study->book, &study->level, &error))
        return refused_text(study->case_name, &error);
    put_case(&study->level, &study->case_bytes);
    return compare_case(study);
}

static int read_case(struct study *study)
{
    if (!read_input(study->case_name, &input))
        return MISUSED;
    study->case_is_text = is_text(&input);
    if (study->case_is_text)
        return compile_study(study);
    hand_on(&study->case_bytes);
    return ANSWERED;
}

int read_study(const struct request *request, struct study *study)
{
    int status = ANSWERED;
    memset(study, 0, sizeof *study);
    study->case_name = request->case_name;
    study->book_name = request->book_name;
    if (study->book_name != NULL && strcmp(study->book_name, "-") == 0 && strcmp(study->case_name, "-") == 0)
        return misused("only one of case and book can be standard input");
    if (study->book_name != NULL)
        status = read_book(study);
    if (status == ANSWERED)
        status = read_case(study);
    return status;
}

/* ---- judged */

/* The names of --names, a text that is compiled to the very bytes of the case. */
static int read_names(const char *names, struct study *study)
{
    static struct study named;
    int status;
    if (study->case_is_text)
        return misused("%s is text and has names of its own: --names is for a case that is given as bytes", study->case_name);
    named.book = study->book;
    named.book_bytes = study->book_bytes;
    named.case_name = names;
    status = read_case(&named);
    if (status != ANSWERED)
        return status;
    if (!named.case_is_text || !same_bytes(&named.case_bytes, &study->case_bytes))
        return misused("%s is not the text of %s, so nothing was run; give the text that it was compiled from, or leave --names out", names, study->case_name);
    take_names(&study->level, &named.level);
    return ANSWERED;
}

/* Reads and judges; the refusal `passed_over`, if it is given, counts as none. */
static int judge_but(unsigned passed_over, const struct request *request, struct study *study)
{
    struct lampreysong_answer a;
    int status = read_study(request, study);
    if (status != ANSWERED)
        return status;
    a = ask_files(study);
    if (a.refusal != 0 && a.refusal != passed_over)
        return say_refused(study, a);
    if (!study->case_is_text)
        take_case(&study->case_bytes, &study->level);
    return request->names == NULL ? ANSWERED : read_names(request->names, study);
}

int judge_study(const struct request *request, struct study *study)
{
    return judge_but(0, request, study);
}

int judge_fields(const struct request *request, struct study *study)
{
    return judge_but(LAMPREYSONG_NO_TABLE, request, study);
}

int read_book_alone(const struct request *request, struct study *study)
{
    memset(study, 0, sizeof *study);
    study->case_name = study->book_name = request->case_name;
    if (request->book_name != NULL || request->names != NULL)
        return misused("%s is to be read as a book: it takes no --book and no --names", request->case_name);
    return read_book(study);
}

int judge_book_alone(const struct request *request, struct study *study)
{
    struct lampreysong_answer a;
    int status = read_book_alone(request, study);
    if (status != ANSWERED)
        return status;
    a = ask_book(study);
    return a.refusal == 0 ? ANSWERED : say_refused(study, a);
}

int find_train(const struct study *study, const char *asked, unsigned *train)
{
    unsigned long number;
    for (*train = 0; *train < study->level.trains; ++*train)
        if (strcmp(study->level.train[*train].name, asked) == 0)
            return 1;
    if (read_number(asked, 65535, &number)) {
        *train = (unsigned)number;
        return 1;
    }
    fprintf(stderr, "lampreysong: no train is called %s; there are", asked);
    for (unsigned i = 0; i < study->level.trains; i++)
        fprintf(stderr, "%s %s", i == 0 ? "" : ",", study->level.train[i].name);
    fputs(", or by number 0, 1 ..\n", stderr);
    return 0;
}
