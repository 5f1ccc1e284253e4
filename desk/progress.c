/* The line that shows how far a run is. */
#define _DEFAULT_SOURCE
#include "progress.h"

#include <inttypes.h>
#include <stdio.h>
#include <string.h>
#include <sys/ioctl.h>
#include <time.h>
#include <unistd.h>

enum { USUAL_COLUMNS = 80, LEAST_BAR = 5, MOST_BAR = 30, PACE_BYTES = 64 };

double seconds_now(void)
{
    struct timespec now;
    clock_gettime(CLOCK_MONOTONIC, &now);
    return (double)now.tv_sec + (double)now.tv_nsec / 1e9;
}

/* Choices a second and the time left, once there is something to reckon them from. */
struct pace {
    char text[PACE_BYTES];
};

static struct pace pace_of(uint64_t done, uint64_t all, double seconds)
{
    struct pace pace = {""};
    double speed = seconds > 0 ? (double)done / seconds : 0;
    uint64_t left = speed > 0 ? (uint64_t)((double)(all - done) / speed) + (done < all) : 0;
    size_t length;
    if (speed <= 0)
        return pace;
    length = (size_t)snprintf(pace.text, sizeof pace.text, "  %.*f choices a second  ", speed < 10, speed);
    if (length >= sizeof pace.text)
        return pace;
    if (left < 60)
        snprintf(pace.text + length, sizeof pace.text - length, "%" PRIu64 " s left", left);
    else if (left < 3600)
        snprintf(pace.text + length, sizeof pace.text - length, "%" PRIu64 " min %02" PRIu64 " s left", left / 60, left % 60);
    else
        snprintf(pace.text + length, sizeof pace.text - length, "%" PRIu64 " h %02" PRIu64 " min left", left / 3600, left / 60 % 60);
    return pace;
}

struct progress_line progress_line(uint64_t done, uint64_t all, double seconds, unsigned columns)
{
    enum { SHARE_COLUMNS = 5, FRAME_COLUMNS = 4 }; /* ` 46 %`, and `[`, `]` and two spaces */
    struct progress_line line;
    struct pace pace = pace_of(done, all, seconds);
    unsigned percent = all > 0 ? (unsigned)(done * 100 / all) : 100;
    unsigned room = columns < MOST_COLUMNS ? columns : MOST_COLUMNS, taken = SHARE_COLUMNS + FRAME_COLUMNS, bar, marks;
    if (room < taken + strlen(pace.text) + LEAST_BAR)
        pace.text[0] = '\0';
    taken += (unsigned)strlen(pace.text);
    bar = room >= taken + LEAST_BAR ? room - taken : 0;
    bar = bar < MOST_BAR ? bar : MOST_BAR;
    marks = bar * percent / 100;
    if (bar == 0)
        snprintf(line.text, sizeof line.text, "%3u %%", percent);
    else
        snprintf(line.text, sizeof line.text, "[%.*s%.*s]  %3u %%%s", (int)marks, "##############################", (int)(bar - marks),
                 "------------------------------", percent, pace.text);
    return line;
}

int is_watched(void)
{
    return isatty(STDERR_FILENO);
}

/* One column of the terminal stays free, for where the last one is written some begin a new line. */
static unsigned columns_here(void)
{
    struct winsize size;
    unsigned columns = ioctl(STDERR_FILENO, TIOCGWINSZ, &size) == 0 && size.ws_col > 0 ? size.ws_col : USUAL_COLUMNS;
    return columns - 1 < MOST_COLUMNS ? columns - 1 : MOST_COLUMNS;
}

static unsigned shown; /* columns of the line that stands there */

void show_progress(uint64_t done, uint64_t all, double seconds)
{
    struct progress_line line = progress_line(done, all, seconds, columns_here());
    unsigned length = (unsigned)strlen(line.text);
    fprintf(stderr, "\r%s%*s", line.text, (int)(shown > length ? shown - length : 0), "");
    shown = length;
    fflush(stderr);
}

void clear_progress(void)
{
    fprintf(stderr, "\r%*s\r", (int)shown, "");
    fflush(stderr);
    shown = 0;
}
