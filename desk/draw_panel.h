/* The panel of one train in the picture of arrivals. */
#ifndef DESK_DRAW_PANEL_H
#define DESK_DRAW_PANEL_H

#include <stdint.h>
#include <stdio.h>

#include "answers.h"
#include "study.h"

/* The minutes that all panels share. */
struct axis {
    unsigned first, last;
};

struct panel {
    const struct study *study;
    const struct lent *lent;
    struct axis axis;
    unsigned train;
    long top;
    long plot_height;
    int long_names; /* the heading then has two lines */
};

/* How the parts of a panel are filled and drawn, for the legend as well. */
#define BAR_STYLE "fill=\"#b4b4b4\" stroke=\"#000\" stroke-width=\"12\""
#define CURVE_STYLE "stroke=\"#000\" stroke-width=\"26\""
#define PLAN_STYLE "stroke=\"#000\" stroke-width=\"24\" stroke-dasharray=\"110 70\""
#define MISSING_STYLE "fill=\"url(#hatched)\" stroke=\"#000\" stroke-width=\"12\""
#define MARK_STYLE "r=\"62\" fill=\"#fff\" stroke=\"#000\" stroke-width=\"24\""

/* The height of a panel beside its plot's. */
long panel_frame(int long_names);

/* Whether a train's heading needs two lines. */
int long_heading(const struct level *level, const struct train *train);

void draw_panel(FILE *out, const struct panel *panel);

/* The minutes by which 50, 80 and 95 of 100 choices have arrived, as a sentence without its full stop. */
enum { REACHED_BYTES = 80 };
void reached_text(const struct study *study, const struct lent *lent, unsigned train, char text[REACHED_BYTES]);

/* The heading: train, last station, planned minute. */
enum { HEADING_BYTES = 2 * NAME_BYTES + 40 };
void heading_text(const struct level *level, const struct train *train, char text[HEADING_BYTES]);

#endif
