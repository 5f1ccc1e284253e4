/* `compile`: a text to the bytes that are run. */
#include <stdio.h>

#include "answers.h"
#include "input.h"
#include "refusal.h"
#include "request.h"
#include "said.h"
#include "study.h"

static struct study study;

/* Sees that there is text to compile. */
static int see_text(const struct bytes *bytes, int is_text)
{
    if (is_text)
        return ANSWERED;
    if (bytes->length == 0)
        return misused("%s is empty: there is no text to compile", study.case_name);
    if (bytes->at[0] < TAG_HEAD || bytes->at[0] > LAST_TAG)
        return misused("%s is no text: it has control characters, or is not saved as UTF-8", study.case_name);
    return misused("%s is bytes already: only text is compiled", study.case_name);
}

/* Reads the text, compiles it and has its bytes judged. */
static int judge_text(const struct request *request)
{
    struct lampreysong_answer a;
    int status = request->as_book ? read_book_alone(request, &study) : read_study(request, &study);
    if (status == ANSWERED)
        status = request->as_book ? see_text(&study.book_bytes, study.book_is_text) : see_text(&study.case_bytes, study.case_is_text);
    if (status != ANSWERED)
        return status;
    a = request->as_book ? ask_book(&study) : ask_files(&study);
    if (a.refusal == 0)
        return ANSWERED;
    say_refusal(stderr, &study, (struct refusal){a.refusal, a.file, a.place});
    return REFUSED;
}

int command_compile(const struct request *request)
{
    const struct bytes *bytes = request->as_book ? &study.book_bytes : &study.case_bytes;
    FILE *out;
    int status = judge_text(request);
    if (status != ANSWERED)
        return status;
    out = begin_output(request->output);
    if (out == NULL)
        return MISUSED;
    fwrite(bytes->at, 1, bytes->length, out);
    return end_output(out, request->output);
}
