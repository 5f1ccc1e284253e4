/* `plain`: every choice by itself, or a part of them. */
#include <stdio.h>

#include "answers.h"
#include "input.h"
#include "part.h"
#include "plain_run.h"
#include "whole_file.h"

static struct study study;
static struct part part;

/* The part that is asked for, which is all if none is; false, and said, if it is no part. */
static int take_asked(const struct request *request, struct portion *portion)
{
    *portion = (struct portion){1, 1};
    if (request->part == NULL || read_portion(request->part, portion))
        return 1;
    misused("--part takes which of how many parts is run, as 2/16, and at most %d parts; `%s` is none", (int)MOST_CHOICES, request->part);
    return 0;
}

static int print_answer(const struct request *request)
{
    static struct part_text text;
    FILE *out;
    if (request->part != NULL) {
        put_part(&part, &text);
        return write_whole(request->output, text.at, text.length);
    }
    out = begin_output(request->output);
    if (out == NULL)
        return MISUSED;
    print_whole(out, &part);
    return end_output(out, request->output);
}

int command_plain(const struct request *request)
{
    struct portion portion;
    struct plain_run asked;
    int status;
    if (!take_asked(request, &portion))
        return MISUSED;
    status = judge_study(request, &study);
    if (status != ANSWERED)
        return status;
    if (!may_be_written(request->output))
        return MISUSED;
    begin_part(&study, request->stop < 0 ? study.level.head.last : (unsigned)request->stop, portion, &part);
    asked = (struct plain_run){&study, part.stop, part.first, part.count, (unsigned)request->jobs};
    status = run_plain(&asked, part.weights);
    return status == ANSWERED ? print_answer(request) : status;
}
