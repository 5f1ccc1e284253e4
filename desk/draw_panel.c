/* A panel: plan, bars, curve, marks and what has not arrived. Bars are drawn to the left scale, the curve and what has not arrived to the right. */
#include "draw_panel.h"

#include "draw_svg.h"

/* From left to right: the left scale, the plot, the right scale, the field of what has not arrived. */
enum { PLOT_LEFT = 1450, PLOT_RIGHT = 15200, LEFT_TITLE = 330, RIGHT_TITLE = 16250, FIELD_LEFT = 16650, FIELD_MIDDLE = 17800 };

/* From top to bottom: the heading, one line or two, the plan's label, room for a bar's label, the plot, the minutes. */
enum { HEADING = 380, SECOND_LINE = 330, PLAN_LABEL = 320, LABEL_ROOM = 330, MINUTES_BELOW = 350, GAP = 190 };

enum { HEADING_ROOM = 11600, WIDEST_BAR = 700, LEAST_HEIGHT = 16, LEAST_WIDTH = 30, THIN_BAR = 60 };
enum { TICK = 70, LEAST_TICKS = 750, LINE_TO_LABEL = 60, RING = 75 };

enum { SCALE_FULL = 10000, NO_MINUTE = MOST_MINUTE + 1 }; /* a scale is in hundredths of 100 */

static const unsigned marks[] = {50, 80, 95};
enum { MARKS = sizeof marks / sizeof *marks };

/* A panel with its bars and its curve laid out. */
struct plot {
    const struct panel *panel;
    const struct train *train;
    uint64_t whole;
    long top, bottom;
    unsigned scale;                  /* the top of the left scale */
    struct box bar[MOST_MINUTE + 1]; /* of no height if nothing arrives in that minute */
    long curve[MOST_MINUTE + 1];     /* how high up the curve is in a minute */
    struct boxes taken;              /* by labels */
};

/* ---- words */

void heading_text(const struct level *level, const struct train *train, char text[HEADING_BYTES])
{
    snprintf(text, HEADING_BYTES, "%s to %s, planned in minute %u", train->name, last_station(level, train), planned_arrival(train));
}

int long_heading(const struct level *level, const struct train *train)
{
    char text[HEADING_BYTES];
    heading_text(level, train, text);
    return svg_width_of(text, SVG_HEADING) * 11 / 10 > HEADING_ROOM;
}

void reached_text(const struct study *study, const struct lent *lent, unsigned train, char text[REACHED_BYTES])
{
    int used = 0, minute = 0;
    if (weight_by(lent, train, study->level.head.last) == 0) {
        snprintf(text, REACHED_BYTES, "not arrived by minute %u", study->level.head.last);
        return;
    }
    for (unsigned i = 0; i < MARKS && minute >= 0; i++) {
        minute = minute_by(study, lent, train, marks[i]);
        used += snprintf(text + used, (size_t)(REACHED_BYTES - used), "%s%u%s", i > 0 ? ", " : "", marks[i], i > 0 ? "" : " of 100");
        if (minute >= 0)
            used += snprintf(text + used, (size_t)(REACHED_BYTES - used), " by %s%d", i > 0 ? "" : "minute ", minute);
        else
            snprintf(text + used, (size_t)(REACHED_BYTES - used), " not by minute %u", study->level.head.last);
    }
}

/* ---- places */

long panel_frame(int long_names)
{
    return HEADING + (long_names ? SECOND_LINE : 0) + PLAN_LABEL + LABEL_ROOM + MINUTES_BELOW + GAP;
}

/* Where a minute begins; its bar stands in the middle of its stretch. */
static long edge(const struct plot *plot, unsigned minute)
{
    const struct axis *axis = &plot->panel->axis;
    return PLOT_LEFT + (long)(minute - axis->first) * (PLOT_RIGHT - PLOT_LEFT) / (long)(axis->last - axis->first + 1);
}

static long middle(const struct plot *plot, unsigned minute)
{
    return (edge(plot, minute) + edge(plot, minute + 1)) / 2;
}

static uint64_t weight_at(const struct plot *plot, unsigned minute)
{
    return weight_in(plot->panel->lent, plot->panel->train, minute);
}

/* How high up a weight is on the right scale. */
static long height_of(const struct plot *plot, uint64_t weight)
{
    return plot->bottom - (long)(weight * (uint64_t)plot->panel->plot_height / plot->whole);
}

/* The least of 0.1, 0.2, 0.4, 0.6, 0.8, 1, 2, .. 100 that no bar passes; 100 if there is no bar. */
static unsigned scale_for(const struct plot *plot)
{
    static const unsigned firsts[] = {1, 2, 4, 6, 8};
    uint64_t largest = 0;
    for (unsigned t = plot->panel->axis.first; t <= plot->panel->axis.last; t++)
        largest = weight_at(plot, t) > largest ? weight_at(plot, t) : largest;
    for (unsigned ten = 10; ten < SCALE_FULL && largest > 0; ten *= 10)
        for (unsigned i = 0; i < sizeof firsts / sizeof *firsts; i++)
            if (largest * SCALE_FULL <= plot->whole * ten * firsts[i])
                return ten * firsts[i];
    return SCALE_FULL;
}

/* A bar of no weight has no height; one of little weight is high enough to be seen. */
static struct box bar_of(const struct plot *plot, unsigned minute)
{
    uint64_t weight = weight_at(plot, minute), stretch = (uint64_t)plot->panel->plot_height * SCALE_FULL / plot->scale;
    long height = (long)(weight * stretch / plot->whole); /* at most 10^14 times the plot's height before it is divided: no bar passes the scale */
    long width = (edge(plot, minute + 1) - edge(plot, minute)) * 8 / 10;
    if (weight > 0 && height < LEAST_HEIGHT)
        height = LEAST_HEIGHT;
    width = width > WIDEST_BAR ? WIDEST_BAR : width < LEAST_WIDTH ? LEAST_WIDTH : width;
    return (struct box){middle(plot, minute) - width / 2, plot->bottom - height, width, height};
}

static void lay_out(const struct panel *panel, struct plot *plot)
{
    uint64_t sum = 0;
    plot->panel = panel;
    plot->train = &panel->study->level.train[panel->train];
    plot->whole = whole_weight(&panel->study->level);
    plot->top = panel->top + panel_frame(panel->long_names) - MINUTES_BELOW - GAP;
    plot->bottom = plot->top + panel->plot_height;
    plot->scale = scale_for(plot);
    plot->taken.count = 0;
    for (unsigned t = panel->axis.first; t <= panel->axis.last; t++) {
        sum += weight_at(plot, t);
        plot->bar[t] = bar_of(plot, t);
        plot->curve[t] = height_of(plot, sum);
    }
}

/* ---- scales */

static void draw_scale_number(FILE *out, unsigned hundredths, long x, long y)
{
    char number[16];
    if (hundredths % 100 == 0)
        snprintf(number, sizeof number, "%u", hundredths / 100);
    else if (hundredths % 10 == 0)
        snprintf(number, sizeof number, "%u.%u", hundredths / 100, hundredths / 10 % 10);
    else
        snprintf(number, sizeof number, "%u.%02u", hundredths / 100, hundredths % 100);
    svg_words(out, (struct words){number, x, y + SVG_TINY * 35 / 100, SVG_TINY, 0, x < PLOT_LEFT ? UP_TO_HERE : FROM_HERE, 0});
}

static void draw_scale_title(FILE *out, const char *title, long x, long y)
{
    fprintf(out, "<g transform=\"rotate(-90 %ld %ld)\">", x, y);
    svg_words(out, (struct words){title, x, y, SVG_TINY, 0, AROUND_HERE, 0});
    fputs("</g>\n", out);
}

/* Both scales share the lines across: nothing, half and full. */
static void draw_scales(FILE *out, const struct plot *plot)
{
    for (unsigned half = 0; half <= 2; half++) {
        const char *style = half == 0 ? "stroke=\"#000\" stroke-width=\"16\"" : "stroke=\"#bbb\" stroke-width=\"10\"";
        long y = plot->bottom - plot->panel->plot_height * (long)half / 2;
        svg_across(out, (struct box){PLOT_LEFT, y, PLOT_RIGHT - PLOT_LEFT, 0}, style);
        svg_across(out, (struct box){FIELD_LEFT, y, SVG_WIDTH - FIELD_LEFT, 0}, style);
        draw_scale_number(out, plot->scale * half / 2, PLOT_LEFT - 110, y);
        draw_scale_number(out, SCALE_FULL * half / 2, PLOT_RIGHT + 110, y);
    }
    draw_scale_title(out, "of 100, each minute", LEFT_TITLE, (plot->top + plot->bottom) / 2);
    draw_scale_title(out, "of 100, summed up", RIGHT_TITLE, (plot->top + plot->bottom) / 2);
}

static void draw_minutes(FILE *out, const struct plot *plot)
{
    const struct axis *axis = &plot->panel->axis;
    unsigned step = svg_minute_step(axis->last - axis->first + 1, PLOT_RIGHT - PLOT_LEFT, LEAST_TICKS);
    for (unsigned t = (axis->first + step - 1) / step * step; t <= axis->last; t += step) {
        char number[16];
        snprintf(number, sizeof number, "%u", t);
        svg_upright(out, (struct box){middle(plot, t), plot->bottom, 0, TICK}, "stroke=\"#000\" stroke-width=\"14\"");
        svg_words(out, (struct words){number, middle(plot, t), plot->bottom + TICK + SVG_TINY, SVG_TINY, 0, AROUND_HERE, 0});
    }
}

/* ---- what the panel shows */

/* Words around a place, moved so that they stay within the plot. */
static struct words within_plot(struct words words)
{
    struct box box = svg_box_of(words);
    if (box.left < PLOT_LEFT)
        words.x += PLOT_LEFT - box.left;
    if (box.left + box.width > PLOT_RIGHT)
        words.x -= box.left + box.width - PLOT_RIGHT;
    return words;
}

static void draw_heading(FILE *out, const struct plot *plot)
{
    const struct panel *panel = plot->panel;
    char heading[HEADING_BYTES], reached[REACHED_BYTES];
    long y = panel->top + SVG_HEADING;
    heading_text(&panel->study->level, plot->train, heading);
    reached_text(panel->study, panel->lent, panel->train, reached);
    svg_words(out, (struct words){heading, 0, y, SVG_HEADING, panel->long_names ? SVG_WIDTH : HEADING_ROOM, FROM_HERE, 1});
    if (panel->long_names)
        svg_words(out, (struct words){reached, 0, y + SECOND_LINE, SVG_NORMAL, SVG_WIDTH, FROM_HERE, 0});
    else
        svg_words(out, (struct words){reached, SVG_WIDTH, y, SVG_NORMAL, SVG_WIDTH - HEADING_ROOM, UP_TO_HERE, 0});
}

static void draw_plan(FILE *out, const struct plot *plot)
{
    char label[20];
    unsigned planned = planned_arrival(plot->train);
    long x = middle(plot, planned), top = plot->top - LABEL_ROOM;
    snprintf(label, sizeof label, "plan %u", planned);
    svg_upright(out, (struct box){x, top, 0, plot->bottom - top}, PLAN_STYLE);
    svg_words(out, within_plot((struct words){label, x, top - LINE_TO_LABEL, SVG_SMALL, 0, AROUND_HERE, 0}));
}

static void draw_bars(FILE *out, const struct plot *plot)
{
    for (unsigned t = plot->panel->axis.first; t <= plot->panel->axis.last; t++) {
        struct box bar = plot->bar[t];
        struct share_text share = share_text(weight_at(plot, t), plot->whole);
        if (bar.height == 0)
            continue;
        fprintf(out, "<g><title>minute %u: ", t);
        svg_escaped(out, share.text);
        fputs(" of 100</title>", out);
        svg_rect(out, bar, bar.width < THIN_BAR ? "fill=\"#555\"" : BAR_STYLE);
        fputs("</g>\n", out);
    }
}

static void draw_curve(FILE *out, const struct plot *plot)
{
    fprintf(out, "<path d=\"M%d %ld", (int)PLOT_LEFT, plot->bottom);
    for (unsigned t = plot->panel->axis.first; t <= plot->panel->axis.last; t++)
        if (plot->bar[t].height > 0)
            fprintf(out, "H%ldV%ld", edge(plot, t), plot->curve[t]);
    fprintf(out, "H%d\" fill=\"none\" %s/>\n", (int)PLOT_RIGHT, CURVE_STYLE);
}

static void draw_missing(FILE *out, const struct plot *plot)
{
    uint64_t missing = plot->whole - weight_by(plot->panel->lent, plot->panel->train, plot->panel->study->level.head.last);
    long top = height_of(plot, missing);
    char label[32];
    if (missing > 0 && plot->bottom - top < LEAST_HEIGHT)
        top = plot->bottom - LEAST_HEIGHT;
    if (missing > 0)
        svg_rect(out, (struct box){FIELD_MIDDLE - WIDEST_BAR / 2, top, WIDEST_BAR, plot->bottom - top}, MISSING_STYLE);
    snprintf(label, sizeof label, "not arrived %s", share_text(missing, plot->whole).text);
    svg_words(out, (struct words){label, FIELD_MIDDLE, plot->top - LINE_TO_LABEL, SVG_SMALL, SVG_WIDTH - FIELD_LEFT, AROUND_HERE, 0});
}

/* ---- labels */

/* Whether a box meets the bar of another minute than its own. */
static int meets_bar(const struct plot *plot, struct box box, unsigned own)
{
    for (unsigned t = plot->panel->axis.first; t <= plot->panel->axis.last; t++)
        if (t != own && svg_meets(plot->bar[t], box))
            return 1;
    return 0;
}

/* Whether the curve runs through a box: it only rises, so what counts is how high up it is at the box's two ends. */
static int meets_curve(const struct plot *plot, struct box box)
{
    long left = plot->bottom, right = plot->bottom;
    for (unsigned t = plot->panel->axis.first; t <= plot->panel->axis.last; t++) {
        if (edge(plot, t) <= box.left)
            left = plot->curve[t];
        if (edge(plot, t) <= box.left + box.width)
            right = plot->curve[t];
    }
    return right < box.top + box.height && left > box.top;
}

/* Whether a box meets the plan's line. The label of the bar in the planned minute may, since the line runs to the bar as well. */
static int meets_plan(const struct plot *plot, struct box box, unsigned own)
{
    unsigned planned = planned_arrival(plot->train);
    long x = middle(plot, planned);
    return own != planned && box.left - LINE_TO_LABEL / 2 < x && x < box.left + box.width + LINE_TO_LABEL / 2;
}

/* Prints a label if it is within the plot and meets no other, no line, and no bar but its own. */
static int put_label(FILE *out, struct plot *plot, struct words label, unsigned own)
{
    struct box box = svg_box_of(label);
    if (box.left < PLOT_LEFT || box.left + box.width > PLOT_RIGHT || meets_bar(plot, box, own) || meets_curve(plot, box) || meets_plan(plot, box, own))
        return 0;
    if (!svg_take(&plot->taken, box))
        return 0;
    svg_label(out, label);
    return 1;
}

/* Prints a bar's label beside its top if no other bar stands below the label or between them. */
static int put_beside(FILE *out, struct plot *plot, struct words label, unsigned own)
{
    struct box box = svg_box_of(label), bar = plot->bar[own], column = {box.left, box.top, bar.left + bar.width - box.left, plot->bottom - box.top};
    if (label.anchor == FROM_HERE) {
        column.left = bar.left;
        column.width = box.left + box.width - bar.left;
    }
    return bar.height >= box.height && !meets_bar(plot, column, own) && put_label(out, plot, label, own);
}

/* A bar's label stands above it; if there is no room, in it if it is large enough, or before or after its top; otherwise it is left out. */
static void label_bar(FILE *out, struct plot *plot, unsigned minute)
{
    struct share_text share = share_text(weight_at(plot, minute), plot->whole);
    struct box bar = plot->bar[minute];
    struct words above = within_plot((struct words){share.text, middle(plot, minute), bar.top - LINE_TO_LABEL, SVG_TINY, 0, AROUND_HERE, 0}), within = above;
    struct words before = {share.text, edge(plot, minute) - LINE_TO_LABEL, bar.top + SVG_TINY * 8 / 10, SVG_TINY, 0, UP_TO_HERE, 0}, after = before;
    within.y = bar.top + SVG_TINY + LINE_TO_LABEL / 2;
    after.x = bar.left + bar.width + LINE_TO_LABEL;
    after.anchor = FROM_HERE;
    if (put_label(out, plot, above, minute))
        return;
    if (bar.width >= svg_box_of(within).width && bar.height >= 2 * SVG_TINY && put_label(out, plot, within, minute))
        return;
    if (!put_beside(out, plot, before, minute))
        put_beside(out, plot, after, minute);
}

/* Labels of bars, the highest first. */
static void label_bars(FILE *out, struct plot *plot)
{
    unsigned char tried[MOST_MINUTE + 1] = {0};
    for (;;) {
        unsigned highest = NO_MINUTE;
        uint64_t weight = 0;
        for (unsigned t = plot->panel->axis.first; t <= plot->panel->axis.last; t++)
            if (!tried[t] && weight_at(plot, t) > weight)
                weight = weight_at(plot, highest = t);
        if (highest == NO_MINUTE)
            return;
        tried[highest] = 1;
        label_bar(out, plot, highest);
    }
}

/* Where the curve passes a mark; false if it never does. */
static int mark_place(const struct plot *plot, unsigned mark, struct box *ring, int *minute)
{
    *minute = minute_by(plot->panel->study, plot->panel->lent, plot->panel->train, mark);
    if (*minute < 0)
        return 0;
    *ring = (struct box){edge(plot, (unsigned)*minute) - RING, height_of(plot, plot->whole / 100 * mark) - RING, 2 * RING, 2 * RING};
    return 1;
}

/* The rings at 50, 80 and 95; no label meets them. */
static void draw_marks(FILE *out, struct plot *plot)
{
    struct box ring;
    int minute;
    for (unsigned i = 0; i < MARKS && mark_place(plot, marks[i], &ring, &minute); i++) {
        fprintf(out, "<circle cx=\"%ld\" cy=\"%ld\" %s/>\n", ring.left + RING, ring.top + RING, MARK_STYLE);
        svg_take(&plot->taken, ring);
    }
}

/* Beside each ring the minute, before it or after it, where there is room. */
static void label_marks(FILE *out, struct plot *plot)
{
    struct box ring;
    int minute;
    for (unsigned i = 0; i < MARKS && mark_place(plot, marks[i], &ring, &minute); i++) {
        char text[24];
        struct words label = {text, ring.left - LINE_TO_LABEL / 2, ring.top + RING + LINE_TO_LABEL, SVG_TINY - 20, 0, UP_TO_HERE, 0};
        snprintf(text, sizeof text, "%u by %d", marks[i], minute);
        if (put_label(out, plot, label, NO_MINUTE))
            continue;
        label.x = ring.left + 2 * RING + LINE_TO_LABEL / 2;
        label.anchor = FROM_HERE;
        put_label(out, plot, label, NO_MINUTE);
    }
}

/* The plan's line runs over a wide bar, and behind a thin one, which it would hide. */
static void draw_plan_and_bars(FILE *out, const struct plot *plot)
{
    int thin = plot->bar[plot->panel->axis.first].width < THIN_BAR;
    if (thin)
        draw_plan(out, plot);
    draw_bars(out, plot);
    if (!thin)
        draw_plan(out, plot);
}

void draw_panel(FILE *out, const struct panel *panel)
{
    static struct plot plot;
    lay_out(panel, &plot);
    draw_heading(out, &plot);
    draw_scales(out, &plot);
    draw_plan_and_bars(out, &plot);
    draw_curve(out, &plot);
    draw_marks(out, &plot);
    draw_minutes(out, &plot);
    draw_missing(out, &plot);
    label_bars(out, &plot);
    label_marks(out, &plot);
}
