/* `compare`: both engines on one case. */
#include "compare.h"

#include <inttypes.h>

#include "answers.h"
#include "columns.h"
#include "input.h"
#include "part.h"
#include "plain_run.h"
#include "refusal.h"
#include "weights.h"

enum { JOINT_COLUMNS = 9, PLAIN_COLUMNS = 12, ANSWER_BYTES = 40 }; /* columns are those of the headings */

/* ---- side by side */

/* How many weights there are, how many are not 0, and how many are not the same. */
struct counted {
    unsigned weights, heavy, different;
};

static struct counted count_weights(const struct comparison *c)
{
    struct counted counted = {c->level->trains * (c->stop + 1), 0, 0};
    for (unsigned k = 0; k < MOST_TRAINS; k++)
        for (unsigned t = 0; t <= MOST_MINUTE; t++) {
            uint64_t joint = weight_at(c->joint, k, t), plain = weight_at(c->plain, k, t);
            counted.heavy += joint > 0 || plain > 0;
            counted.different += joint != plain;
        }
    return counted;
}

static void print_difference(FILE *out, const struct comparison *c, unsigned k, unsigned t)
{
    const int known = k < c->level->trains;
    print_left(out, known ? c->level->train[k].name : "none", train_columns(c->level));
    fprintf(out, "  %6u  %*" PRIu64 "  %*" PRIu64 "\n", t, (int)JOINT_COLUMNS, weight_at(c->joint, k, t), (int)PLAIN_COLUMNS, weight_at(c->plain, k, t));
}

static void print_differences(FILE *out, const struct comparison *c)
{
    fputc('\n', out);
    print_left(out, "train", train_columns(c->level));
    fputs("  minute  joint run  plain engine\n", out);
    for (unsigned k = 0; k < MOST_TRAINS; k++)
        for (unsigned t = 0; t <= MOST_MINUTE; t++)
            if (weight_at(c->joint, k, t) != weight_at(c->plain, k, t))
                print_difference(out, c, k, t);
}

int print_comparison(FILE *out, const struct comparison *c)
{
    const struct counted counted = count_weights(c);
    print_title(out, c->level);
    if (counted.different == 0)
        fprintf(out, "agree: the joint run and the plain engine give the same weights to minute %u\n", c->stop);
    else
        fprintf(out, "differ: %u %s not the same to minute %u\n", counted.different, counted.different == 1 ? "weight is" : "weights are", c->stop);
    fprintf(out, "%" PRIu64 " %s run, %u %s, %u weights compared, %u of them not 0\n", c->choices, c->choices == 1 ? "choice" : "choices", c->level->trains,
            c->level->trains == 1 ? "train" : "trains", counted.weights, counted.heavy);
    if (counted.different == 0)
        return ANSWERED;
    print_differences(out, c);
    return DIFFERENT;
}

/* ---- the command */

/* The plain engine's answer alone. */
static int print_alone(const struct level *level, const struct part *part)
{
    print_title(stdout, level);
    printf("no room: the joint run needs more than the %u %s of this case, so there is nothing to compare\n", level->head.room,
           level->head.room == 1 ? "row" : "rows");
    printf("only the plain engine answers, to minute %u:\n", part->stop);
    print_whole(stdout, part);
    return NOT_COMPARED;
}

/* Where one engine refuses and the other does not, or otherwise; that the joint run has no room is no difference. */
static int refuse_alike(struct lampreysong_answer joint, struct lampreysong_answer plain)
{
    if (joint.refusal == LAMPREYSONG_NO_ROOM)
        return plain.refusal == 0;
    return joint.refusal == plain.refusal && joint.file == plain.file && joint.place == plain.place;
}

/* `answers`, or `refuses 17 0 0`. */
struct answer_text {
    char text[ANSWER_BYTES];
};

static struct answer_text answer_text(struct lampreysong_answer answer)
{
    struct answer_text said = {"answers"};
    if (answer.refusal != 0)
        snprintf(said.text, sizeof said.text, "refuses %u %u %u", answer.refusal, answer.file, (unsigned)answer.place);
    return said;
}

static int print_refusals(struct lampreysong_answer joint, struct lampreysong_answer plain)
{
    printf("differ: the joint run %s, and the plain engine %s\n", answer_text(joint).text, answer_text(plain).text);
    return DIFFERENT;
}

/* Runs both engines and prints what they come to; gives the exit status. */
static int compare_engines(const struct study *study, unsigned stop, unsigned jobs)
{
    static struct lent lent;
    static struct part part;
    const struct asked minute = {0, stop, NULL, 0};
    const struct lampreysong_answer joint = ask_run(study, stop, &lent), plain = ask_plain_none(study, stop, part.weights);
    int status;
    if (!refuse_alike(joint, plain))
        return print_refusals(joint, plain);
    if (plain.refusal != 0) {
        say_call_refusal(stderr, study, (struct refusal){plain.refusal, plain.file, plain.place}, &minute);
        return REFUSED;
    }
    begin_part(study, stop, (struct portion){1, 1}, &part);
    status = run_plain(&(struct plain_run){study, stop, part.first, part.count, jobs}, part.weights);
    if (status != ANSWERED)
        return status;
    if (joint.refusal == LAMPREYSONG_NO_ROOM)
        return print_alone(&study->level, &part);
    return print_comparison(stdout, &(struct comparison){&study->level, stop, part.choices, lent.weights, part.weights});
}

int command_compare(const struct request *request)
{
    static struct study study;
    int status = judge_study(request, &study), written;
    if (status != ANSWERED)
        return status;
    status = compare_engines(&study, request->stop < 0 ? study.level.head.last : (unsigned)request->stop, (unsigned)request->jobs);
    written = end_output(stdout, NULL);
    return written == ANSWERED ? status : written;
}
