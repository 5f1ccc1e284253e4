/* Threads that run the choices: each takes the next few, about a tenth of a second's work, and adds to weights of its own, which are summed at the end. */
#define _POSIX_C_SOURCE 200809L
#include "plain_run.h"

#include <pthread.h>
#include <string.h>
#include <time.h>

#include "answers.h"
#include "cores.h"
#include "progress.h"
#include "refusal.h"
#include "weights.h"

enum { FIRST_TAKEN = 16, MOST_GROWTH = 8, STACK_BYTES = 2 << 20 }; /* a call needs less than 512 KiB of stack */

static const double TAKEN_SECONDS = 0.1, SHOWN_SECONDS = 0.2;

/* What the threads share. All but `asked` and `jobs` is read and written under the lock. */
struct crew {
    const struct plain_run *asked;
    unsigned jobs;
    pthread_mutex_t lock;
    pthread_cond_t ended;           /* a thread has */
    uint64_t taken, done;           /* choices */
    unsigned working;               /* threads that have not ended */
    int failed;                     /* a call was refused, or ran another number of choices than it was asked for: */
    struct lampreysong_answer said; /* its answer */
};

struct worker {
    pthread_t thread;
    struct crew *crew;
    uint8_t weights[LAMPREYSONG_WEIGHTS];
};

static struct worker workers[MOST_JOBS];

/* ---- one thread */

/* Takes the next choices, as many as are wished, but fewer near the end, so that all threads end at about the same time. Gives how many: 0 if none are left. */
static uint64_t take(struct crew *crew, uint64_t wished, uint64_t *first)
{
    uint64_t left, size;
    pthread_mutex_lock(&crew->lock);
    left = crew->failed ? 0 : crew->asked->count - crew->taken;
    size = left < wished ? left : wished;
    if (size > left / (2 * crew->jobs) + 1)
        size = left / (2 * crew->jobs) + 1;
    *first = crew->asked->first + crew->taken;
    crew->taken += size;
    pthread_mutex_unlock(&crew->lock);
    return size;
}

static void tell(struct crew *crew, uint64_t size, struct lampreysong_answer answer)
{
    pthread_mutex_lock(&crew->lock);
    crew->done += size;
    if (!crew->failed && (answer.refusal != 0 || answer.value != size)) {
        crew->failed = 1;
        crew->said = answer;
    }
    pthread_mutex_unlock(&crew->lock);
}

/* How many choices take about as long as they should, after so many took so long. */
static uint64_t next_size(uint64_t size, double seconds)
{
    double growth = seconds > 0 ? TAKEN_SECONDS / seconds : MOST_GROWTH;
    uint64_t next = (uint64_t)((double)size * (growth < MOST_GROWTH ? growth : MOST_GROWTH));
    return next > 0 ? next : 1;
}

static void *work(void *own)
{
    struct worker *worker = own;
    struct crew *crew = worker->crew;
    uint64_t first, size, wished = FIRST_TAKEN;
    while ((size = take(crew, wished, &first)) > 0) {
        double began = seconds_now();
        tell(crew, size, ask_plain_part(crew->asked->study, crew->asked->stop, first, size, worker->weights));
        wished = next_size(size, seconds_now() - began);
    }
    pthread_mutex_lock(&crew->lock);
    crew->working--;
    pthread_cond_signal(&crew->ended);
    pthread_mutex_unlock(&crew->lock);
    return NULL;
}

/* ---- all of them */

/* Starts the threads; gives how many there are. Those that the system does not give are done without. */
static unsigned start(struct crew *crew)
{
    pthread_attr_t attributes;
    unsigned started = 0;
    if (pthread_attr_init(&attributes) != 0)
        return 0;
    pthread_attr_setstacksize(&attributes, STACK_BYTES);
    pthread_mutex_lock(&crew->lock);
    for (; started < crew->jobs; started++) {
        memset(workers[started].weights, 0, sizeof workers[started].weights);
        workers[started].crew = crew;
        if (pthread_create(&workers[started].thread, &attributes, work, &workers[started]) != 0)
            break;
    }
    crew->working = started;
    pthread_mutex_unlock(&crew->lock);
    pthread_attr_destroy(&attributes);
    return started;
}

/* Waits a moment, or until a thread ends; gives whether one still works, and how many choices were run. */
static int wait_for(struct crew *crew, uint64_t *done)
{
    const double until = seconds_now() + SHOWN_SECONDS;
    const struct timespec moment = {(time_t)until, (long)((until - (double)(time_t)until) * 1e9)};
    int works;
    pthread_mutex_lock(&crew->lock);
    if (crew->working > 0)
        pthread_cond_timedwait(&crew->ended, &crew->lock, &moment);
    works = crew->working > 0;
    *done = crew->done;
    pthread_mutex_unlock(&crew->lock);
    return works;
}

/* Waits until all threads have ended, and shows how far they are. */
static void watch(struct crew *crew)
{
    const double began = seconds_now();
    const int watched = is_watched();
    uint64_t done = 0;
    do {
        if (watched)
            show_progress(done, crew->asked->count, seconds_now() - began);
    } while (wait_for(crew, &done));
    if (watched)
        clear_progress();
}

/* Sums what the threads have, as soon as they have ended. */
static void gather(unsigned started, uint8_t *weights)
{
    memset(weights, 0, LAMPREYSONG_WEIGHTS);
    for (unsigned i = 0; i < started; i++) {
        pthread_join(workers[i].thread, NULL);
        add_weights(weights, workers[i].weights);
    }
}

static int say_failed(const struct crew *crew)
{
    const struct asked asked = {0, crew->asked->stop, NULL, 0};
    if (crew->said.refusal == 0)
        return misused("the plain engine ran another number of choices than it was asked for. This is an error of this program; nothing is printed.");
    say_call_refusal(stderr, crew->asked->study, (struct refusal){crew->said.refusal, crew->said.file, crew->said.place}, &asked);
    return REFUSED;
}

/* Runs the crew; false, and said, if it has no thread. */
static int run_crew(struct crew *crew, uint8_t *weights)
{
    pthread_condattr_t steady;
    unsigned started;
    pthread_condattr_init(&steady);
    pthread_condattr_setclock(&steady, CLOCK_MONOTONIC);
    pthread_mutex_init(&crew->lock, NULL);
    pthread_cond_init(&crew->ended, &steady);
    started = start(crew);
    watch(crew);
    gather(started, weights);
    pthread_cond_destroy(&crew->ended);
    pthread_mutex_destroy(&crew->lock);
    pthread_condattr_destroy(&steady);
    if (started == 0)
        misused("the system gives this process no thread to run the choices in");
    return started > 0;
}

int run_plain(const struct plain_run *asked, uint8_t *weights)
{
    static struct crew crew;
    unsigned jobs = asked->jobs > 0 ? asked->jobs : cores_available();
    memset(&crew, 0, sizeof crew);
    memset(weights, 0, LAMPREYSONG_WEIGHTS);
    crew.asked = asked;
    crew.jobs = jobs < MOST_JOBS ? jobs : MOST_JOBS;
    crew.said = ask_plain_none(asked->study, asked->stop, weights);
    if (crew.said.refusal != 0 || crew.said.value != 0)
        return say_failed(&crew);
    if (!run_crew(&crew, weights))
        return MISUSED;
    if (crew.failed || crew.done != asked->count)
        return say_failed(&crew);
    if (!are_possible(weights, asked->study->level.trains, asked->stop))
        return misused("the weights come to more than all choices weigh. This is an error of this program; nothing is printed.");
    return ANSWERED;
}
