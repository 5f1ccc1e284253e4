/* The command draw: nothing is written before all that the picture shows is known. */
#include "draw.h"

#include <string.h>

#include "input.h"
#include "refusal.h"
#include "request.h"
#include "said.h"

const char *picture_title(const struct study *study)
{
    const char *slash = strrchr(study->case_name, '/');
    if (study->level.title[0] != '\0')
        return study->level.title;
    if (strcmp(study->case_name, "-") == 0)
        return "standard input";
    return slash != NULL && slash[1] != '\0' ? slash + 1 : study->case_name;
}

int command_draw(const struct request *request)
{
    static struct study study;
    static struct lent lent;
    static struct presence presence;
    struct lampreysong_answer answer;
    FILE *out;
    int status = judge_study(request, &study);
    if (status != ANSWERED)
        return status;
    answer = request->shift ? gather_presence(&study, &lent, &presence) : ask_run(&study, study.level.head.last, &lent);
    if (answer.refusal != 0) {
        say_refusal(stderr, &study, (struct refusal){answer.refusal, answer.file, answer.place});
        return REFUSED;
    }
    out = begin_output(request->output);
    if (out == NULL)
        return MISUSED;
    if (request->shift)
        draw_shift(out, &study, &presence);
    else
        draw_arrivals(out, &study, &lent);
    return end_output(out, request->output);
}
