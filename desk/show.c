/* `show`: a case or a book as text, or the bytes of any file field by field. */
#include <stdio.h>
#include <string.h>

#include "input.h"
#include "lampreysong.h"
#include "request.h"
#include "said.h"
#include "study.h"
#include "text.h"

enum { HEADER = 3 }; /* bytes of a field's tag and length */

static struct study study;
static struct text shown;

/* ---- as text */

/* Shows what was read; false, and said, if that text would not lead back to the same bytes. So it is where a book has names that the case, given as bytes,
 * gets for other types: D1 and so on. */
static int show_whole_case(void)
{
    static struct level again;
    static struct bytes bytes;
    struct text_error error = {0, 0, "its bytes are others"};
    show_case(&study.level, &study.book, &shown);
    if (compile_case(&shown, &study.book, &again, &error)) {
        put_case(&again, &bytes);
        if (same_bytes(&bytes, &study.case_bytes))
            return 1;
    }
    misused("%s can't be shown as a text that leads back to its bytes (%s); leave out --book, or give the names by --names", study.case_name, error.words);
    return 0;
}

static int show_as_text(const struct request *request)
{
    FILE *out;
    int status = request->as_book ? judge_book_alone(request, &study) : judge_fields(request, &study);
    if (status != ANSWERED)
        return status;
    if (request->as_book)
        show_book(&study.book, &shown);
    else if (!show_whole_case())
        return MISUSED;
    out = begin_output(request->output);
    if (out == NULL)
        return MISUSED;
    fwrite(shown.at, 1, shown.length, out);
    return end_output(out, request->output);
}

/* ---- field by field */

/* A tag as people say it, with the number among its kind: `4 train 0`. */
static void print_tag(FILE *out, const struct field *field)
{
    static const char *const kinds[] = {"unknown", "head", "station", "track", "train", "delay table", "couple"};
    unsigned known = field->tag <= LAST_TAG ? field->tag : 0;
    char said[40];
    if (known == 0 || (known == TAG_HEAD && field->nth == 0))
        snprintf(said, sizeof said, "%u %s", field->tag, kinds[known]);
    else
        snprintf(said, sizeof said, "%u %s %u", field->tag, kinds[known], field->nth);
    fprintf(out, "  %-15s", said);
}

static void print_field(FILE *out, const struct bytes *bytes, const struct field *field)
{
    fprintf(out, "%5u  %5lu", field->number, (unsigned long)field->place);
    print_tag(out, field);
    fprintf(out, "  %6u ", field->size);
    for (unsigned i = 0; i < field->size; i++)
        fprintf(out, " %02x", bytes->at[field->place + HEADER + i]);
    fputc('\n', out);
}

/* Where the fields end, or why the last one is none. */
static void print_end(FILE *out, const struct bytes *bytes, const struct field *field)
{
    size_t left = bytes->length - field->place;
    const uint8_t *at = bytes->at + field->place;
    if (left == 0)
        fprintf(out, "ended at place %lu\n", (unsigned long)field->place);
    else if (left < HEADER)
        fprintf(out, "breaks off at place %lu: field %u has %lu of the %d bytes of its tag and length\n", (unsigned long)field->place, field->number,
                (unsigned long)left, (int)HEADER);
    else
        fprintf(out, "breaks off at place %lu: field %u, tag %u, says that its body has %u bytes, and %lu are there\n", (unsigned long)field->place,
                field->number, at[0], at[1] * 256u + at[2], (unsigned long)(left - HEADER));
    if (bytes->length == HANDED)
        fprintf(out, "Only the first %d bytes of a file are looked at.\n", (int)HANDED);
}

static void print_fields(FILE *out, const struct bytes *bytes)
{
    struct field field = {0, 1, 0, 0, 0};
    size_t place = 0;
    fputs("field  place  tag              length  body\n", out);
    for (; field_at(bytes, place, &field); place = field.place + HEADER + field.size)
        print_field(out, bytes, &field);
    print_end(out, bytes, &field);
}

static int show_fields(const struct request *request)
{
    FILE *out;
    int status;
    if (request->names != NULL)
        return misused("--fields prints no names, so it takes no --names");
    status = request->as_book ? read_book_alone(request, &study) : read_study(request, &study);
    if (status != ANSWERED)
        return status;
    out = begin_output(request->output);
    if (out == NULL)
        return MISUSED;
    print_fields(out, request->as_book ? &study.book_bytes : &study.case_bytes);
    return end_output(out, request->output);
}

int command_show(const struct request *request)
{
    return request->fields ? show_fields(request) : show_as_text(request);
}
