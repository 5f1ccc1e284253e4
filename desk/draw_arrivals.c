/* The picture of arrivals: a title, a legend, and a panel for each train over the same minutes. */
#include "draw.h"
#include "draw_panel.h"
#include "draw_svg.h"

/* From top to bottom: title, what it tells, legend, panels, the word under the last panel's minutes. */
enum { TITLE_FOOT = 380, TELLS_FOOT = 800, LEGEND_TOP = 1030, LEGEND_ROW = 360, SAMPLE = 700, SAMPLE_HEIGHT = 230, PANELS_TOP = 2380, FOOT = 330 };

enum { MOST_PLOT = 3600, PLOT_MIDDLE = 8325, MARGIN_OF = 40 }; /* one in so many minutes is margin */

/* The minutes from a little before the earliest arrival to a little after the last, planned or with weight; to the last minute if no train arrives at all. */
static struct axis shared_axis(const struct study *study, const struct lent *lent)
{
    struct axis axis = {study->level.head.last, 0};
    int arrived = 0;
    unsigned margin;
    for (unsigned k = 0; k < study->level.trains; k++) {
        unsigned planned = planned_arrival(&study->level.train[k]);
        axis.first = planned < axis.first ? planned : axis.first;
        axis.last = planned > axis.last ? planned : axis.last;
        for (unsigned t = 0; t <= study->level.head.last; t++)
            if (weight_in(lent, k, t) > 0) {
                arrived = 1;
                axis.first = t < axis.first ? t : axis.first;
                axis.last = t > axis.last ? t : axis.last;
            }
    }
    if (!arrived)
        axis.last = study->level.head.last;
    margin = 1 + (axis.last - axis.first) / MARGIN_OF;
    axis.first = axis.first > margin ? axis.first - margin : 0;
    axis.last = axis.last + margin < study->level.head.last ? axis.last + margin : study->level.head.last;
    return axis;
}

static void describe(FILE *out, const struct study *study, const struct lent *lent)
{
    uint64_t whole = whole_weight(&study->level);
    fputs("<desc>", out);
    for (unsigned k = 0; k < study->level.trains; k++) {
        char heading[HEADING_BYTES], reached[REACHED_BYTES];
        heading_text(&study->level, &study->level.train[k], heading);
        reached_text(study, lent, k, reached);
        svg_escaped(out, heading);
        fprintf(out, ": %s; not arrived ", reached);
        svg_escaped(out, share_text(whole - weight_by(lent, k, study->level.head.last), whole).text);
        fputs(" of 100.\n", out);
    }
    fputs("</desc>\n", out);
}

/* The foot and the beginning of a legend's nth text; its sample stands before it. */
static struct words legend_words(const char *text, unsigned row, long left)
{
    long foot = LEGEND_TOP + (long)row * LEGEND_ROW + SAMPLE_HEIGHT;
    return (struct words){text, left + SAMPLE + 150, foot, SVG_SMALL, SVG_WIDTH / 2 - SAMPLE - 200, FROM_HERE, 0};
}

static void draw_legend(FILE *out, const struct study *study)
{
    char missing[60];
    long right = SVG_WIDTH / 2;
    struct box sample = {0, LEGEND_TOP + 30, SAMPLE, SAMPLE_HEIGHT}, line = {right, LEGEND_TOP + 150, SAMPLE, 0};
    snprintf(missing, sizeof missing, "has not arrived by minute %u, the last (right scale)", study->level.head.last);
    svg_rect(out, sample, BAR_STYLE);
    svg_words(out, legend_words("arrives in this minute, of 100 choices (left scale)", 0, 0));
    svg_across(out, line, CURVE_STYLE);
    svg_words(out, legend_words("has arrived by the end of this minute, of 100 (right scale)", 0, right));
    sample.top += LEGEND_ROW;
    line.top += LEGEND_ROW;
    svg_rect(out, sample, MISSING_STYLE);
    svg_words(out, legend_words(missing, 1, 0));
    fprintf(out, "<circle cx=\"%ld\" cy=\"%ld\" %s/>\n", line.left + SAMPLE / 2, line.top, MARK_STYLE);
    svg_words(out, legend_words("first minute by which 50, 80 or 95 of 100 have arrived", 1, right));
    line.left = 0;
    line.top += LEGEND_ROW;
    svg_across(out, line, PLAN_STYLE);
    svg_words(out, legend_words("planned arrival", 2, 0));
}

void draw_arrivals(FILE *out, const struct study *study, const struct lent *lent)
{
    const struct level *level = &study->level;
    static const char tells[] = "In which minute each train can reach its last station. Shares are of 100 choices of delays, by weight.";
    struct panel panel = {study, lent, shared_axis(study, lent), 0, PANELS_TOP, MOST_PLOT, 0};
    long most, height;
    for (unsigned k = 0; k < level->trains; k++)
        panel.long_names |= long_heading(level, &level->train[k]);
    most = (SVG_MOST_HEIGHT - PANELS_TOP - FOOT) / (long)level->trains - panel_frame(panel.long_names);
    panel.plot_height = most < MOST_PLOT ? most : MOST_PLOT;
    height = PANELS_TOP + FOOT + (long)level->trains * (panel.plot_height + panel_frame(panel.long_names));
    svg_begin(out, picture_title(study), height);
    describe(out, study, lent);
    svg_words(out, (struct words){picture_title(study), 0, TITLE_FOOT, SVG_TITLE, SVG_WIDTH, FROM_HERE, 1});
    svg_words(out, (struct words){tells, 0, TELLS_FOOT, SVG_NORMAL, SVG_WIDTH, FROM_HERE, 0});
    draw_legend(out, study);
    for (; panel.train < level->trains; panel.train++) {
        draw_panel(out, &panel);
        panel.top += panel.plot_height + panel_frame(panel.long_names);
    }
    svg_words(out, (struct words){"minute", PLOT_MIDDLE, height - 100, SVG_SMALL, 0, AROUND_HERE, 0});
    svg_end(out);
}
