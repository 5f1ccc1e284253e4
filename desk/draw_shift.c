/* The picture of the shift: a band for each place over the minutes, how many trains stand there on average, and the planned paths. */
#include "draw.h"
#include "draw_svg.h"

/* From left to right: names, the plot, what a place holds. From top to bottom: title, what it tells, legend, the plot with minutes above and below. */
enum { MOST_NAMES = 5200, NAME_GAP = 150, HOLDS = 1250 };
enum { TITLE_FOOT = 380, TELLS_FOOT = 800, LEGEND_TOP = 1030, LEGEND_ROW = 350, LEGEND_COLUMNS = 3, SAMPLE = 900, SAMPLE_HEIGHT = 230 };
enum { MINUTES_ABOVE = 480, MINUTES_BELOW = 720, TICK = 70, LEAST_TICKS = 750 };
enum { MOST_BAND = 1500, LEAST_SEEN = 10, MOST_LABEL = 3400, START = 55, ARROW = 45 };

#define STANDING_STYLE "fill=\"#8a8a8a\""
#define BLOCKED_STYLE "fill=\"#d2d2d2\""
#define CASING_STYLE "fill=\"none\" stroke=\"#fff\" stroke-width=\"80\" stroke-opacity=\"0.8\" stroke-linejoin=\"round\""
#define ARROW_STYLE "fill=\"none\" stroke=\"#000\" stroke-width=\"20\" stroke-linejoin=\"round\""
#define PATH_STYLE "fill=\"none\" stroke=\"#000\" stroke-width=\"32\" stroke-linejoin=\"round\""

/* Each train's dashes. */
static const char *const dashes[MOST_TRAINS] = {
    "", " stroke-dasharray=\"220 80\"", " stroke-dasharray=\"80 60\"", " stroke-dasharray=\"240 60 40 60\"", " stroke-dasharray=\"35 45\"",
    " stroke-dasharray=\"240 50 40 50 40 50\"", " stroke-dasharray=\"420 130\"",
};

/* The picture laid out. */
struct sheet {
    const struct study *study;
    const struct presence *presence;
    struct bands bands;
    uint64_t whole;
    unsigned waiting; /* how many trains the band for those that wait outside is high; 0 if there is no such band */
    long left, right, top; /* of the plot */
    long band_height;
    struct boxes taken; /* by labels */
};

/* ---- places */

/* Where a minute begins. What stands after minute t is drawn from there to where the next begins. */
static long minute_at(const struct sheet *sheet, unsigned minute)
{
    return sheet->left + (long)minute * (sheet->right - sheet->left) / (long)(sheet->study->level.head.last + 1);
}

/* The band for those that wait outside, if there is one, comes first. */
static unsigned rows_of(const struct sheet *sheet)
{
    return sheet->bands.count + (sheet->waiting > 0);
}

static long row_top(const struct sheet *sheet, unsigned row)
{
    return sheet->top + (long)row * sheet->band_height;
}

static long element_top(const struct sheet *sheet, unsigned element)
{
    return row_top(sheet, band_of(&sheet->bands, element) + (sheet->waiting > 0));
}

/* The height at which a train's line runs through an element. */
static long lane(const struct sheet *sheet, unsigned element, unsigned train)
{
    return element_top(sheet, element) + sheet->band_height * (long)(train + 1) / (long)(sheet->study->level.trains + 1);
}

static const char *element_name(const struct level *level, unsigned element)
{
    return element < MOST_STATIONS ? level->station[element].name : level->track[element - MOST_STATIONS].name;
}

static unsigned element_capacity(const struct level *level, unsigned element)
{
    return element < MOST_STATIONS ? level->station[element].capacity : level->track[element - MOST_STATIONS].capacity;
}

/* ---- laying out */

/* The least whole number of trains that is never passed by those that wait outside. */
static unsigned most_waiting(const struct sheet *sheet)
{
    uint64_t most = 0;
    for (unsigned t = 0; t <= sheet->study->level.head.last; t++)
        most = sheet->presence->waiting[t] > most ? sheet->presence->waiting[t] : most;
    return (unsigned)((most + sheet->whole - 1) / sheet->whole);
}

static unsigned legend_rows(const struct level *level)
{
    return 1 + (level->trains + LEGEND_COLUMNS - 1) / LEGEND_COLUMNS;
}

static void lay_out(struct sheet *sheet)
{
    const struct level *level = &sheet->study->level;
    long names = sheet->waiting > 0 ? svg_width_of("waiting outside", SVG_SMALL) : 0, room;
    for (unsigned i = 0; i < sheet->bands.count; i++)
        for (unsigned k = 0; k < sheet->bands.band[i].elements; k++) {
            long width = svg_width_of(element_name(level, sheet->bands.band[i].element[k]), SVG_SMALL) * 11 / 10;
            names = width > names ? width : names;
        }
    sheet->left = (names < MOST_NAMES ? names : MOST_NAMES) + NAME_GAP;
    sheet->right = SVG_WIDTH - HOLDS;
    sheet->top = LEGEND_TOP + (long)legend_rows(level) * LEGEND_ROW + MINUTES_ABOVE;
    room = (SVG_MOST_HEIGHT - sheet->top - MINUTES_BELOW) / (long)rows_of(sheet);
    sheet->band_height = room < MOST_BAND ? room : MOST_BAND;
    sheet->taken.count = 0;
}

/* ---- bands */

/* What fills a band: weights by minute, which are added up, and the weight that is its full height. */
enum { MOST_ADDED = 4 }; /* standing and blocked, there and back */
struct filling {
    const uint64_t *added[MOST_ADDED];
    unsigned count;
    uint64_t full;
    long foot;
};

static long filled_height(const struct sheet *sheet, const struct filling *filling, unsigned minute)
{
    uint64_t weight = 0;
    long height;
    for (unsigned i = 0; i < filling->count; i++)
        weight += filling->added[i][minute];
    height = (long)(weight * (uint64_t)sheet->band_height / filling->full);
    return weight > 0 && height < LEAST_SEEN ? LEAST_SEEN : height;
}

/* An area from the band's foot; minutes of the same height are drawn as one. */
static void draw_filling(FILE *out, const struct sheet *sheet, const struct filling *filling, const char *style)
{
    long height = 0;
    int drawn = 0;
    for (unsigned t = 0; t <= sheet->study->level.head.last; t++) {
        long now = filled_height(sheet, filling, t);
        if (now == height)
            continue;
        if (!drawn)
            fprintf(out, "<path d=\"M%ld %ld", sheet->left, filling->foot);
        fprintf(out, "H%ldV%ld", minute_at(sheet, t), filling->foot - now);
        drawn = 1;
        height = now;
    }
    if (drawn)
        fprintf(out, "H%ldV%ldZ\" %s/>\n", sheet->right, filling->foot, style);
}

/* A name before its row, `down` below the row's middle. */
static void draw_row_words(FILE *out, const struct sheet *sheet, unsigned row, struct words name, long down)
{
    long foot = row_top(sheet, row) + sheet->band_height / 2 + down + name.size * 35 / 100;
    svg_words(out, (struct words){name.text, sheet->left - NAME_GAP, foot, name.size, sheet->left - NAME_GAP, UP_TO_HERE, name.bold});
}

/* The name of a band, or the two names of coupled tracks one below the other. */
static void draw_names(FILE *out, const struct sheet *sheet, unsigned row, const struct band *band)
{
    long size = band->elements < 2 || sheet->band_height * 42 / 100 > SVG_SMALL ? SVG_SMALL : sheet->band_height * 42 / 100;
    for (unsigned k = 0; k < band->elements; k++) {
        long down = band->elements < 2 ? 0 : k == 0 ? -size * 6 / 10 : size * 6 / 10;
        const char *name = element_name(&sheet->study->level, band->element[k]);
        draw_row_words(out, sheet, row, (struct words){name, 0, 0, size, 0, UP_TO_HERE, band->element[k] < MOST_STATIONS}, down);
    }
}

/* An arrow with a head at its top and one at its foot: trains run both ways here. */
static void draw_both_ways(FILE *out, long x, long top, long foot)
{
    fprintf(out, "<path d=\"M%ld %ldV%ld", x, top, foot);
    fprintf(out, "M%ld %ldL%ld %ldL%ld %ld", x - ARROW, top + ARROW, x, top, x + ARROW, top + ARROW);
    fprintf(out, "M%ld %ldL%ld %ldL%ld %ld\" %s/>\n", x - ARROW, foot - ARROW, x, foot, x + ARROW, foot - ARROW, ARROW_STYLE);
}

static void draw_holds(FILE *out, const struct sheet *sheet, unsigned row, const char *holds)
{
    long foot = row_top(sheet, row) + sheet->band_height / 2 + SVG_TINY * 35 / 100;
    svg_words(out, (struct words){holds, sheet->right + NAME_GAP, foot, SVG_TINY, HOLDS - NAME_GAP, FROM_HERE, 0});
}

static void draw_band(FILE *out, const struct sheet *sheet, unsigned row)
{
    const struct level *level = &sheet->study->level;
    const struct band *band = &sheet->bands.band[row - (sheet->waiting > 0)];
    unsigned capacity = element_capacity(level, band->element[0]); /* coupled tracks have the same */
    struct filling standing = {{NULL}, 0, sheet->whole * capacity, row_top(sheet, row + 1)}, both;
    char holds[16];
    for (unsigned k = 0; k < band->elements; k++)
        standing.added[standing.count++] = sheet->presence->standing[band->element[k]];
    both = standing;
    for (unsigned k = 0; k < band->elements; k++)
        both.added[both.count++] = sheet->presence->blocked[band->element[k]];
    draw_filling(out, sheet, &both, BLOCKED_STYLE);
    draw_filling(out, sheet, &standing, STANDING_STYLE);
    snprintf(holds, sizeof holds, "holds %u", capacity);
    draw_names(out, sheet, row, band);
    draw_holds(out, sheet, row, holds);
    if (band->elements == 2)
        draw_both_ways(out, sheet->right + NAME_GAP / 2, row_top(sheet, row) + ARROW, row_top(sheet, row + 1) - ARROW);
}

static void draw_waiting(FILE *out, const struct sheet *sheet)
{
    struct filling waiting = {{sheet->presence->waiting}, 1, sheet->whole * sheet->waiting, row_top(sheet, 1)};
    char height[24];
    snprintf(height, sizeof height, "%u train%s", sheet->waiting, sheet->waiting == 1 ? "" : "s");
    draw_filling(out, sheet, &waiting, STANDING_STYLE);
    draw_row_words(out, sheet, 0, (struct words){"waiting outside", 0, 0, SVG_SMALL, 0, UP_TO_HERE, 0}, 0);
    draw_holds(out, sheet, 0, height);
}

static void draw_bands(FILE *out, const struct sheet *sheet)
{
    if (sheet->waiting > 0)
        draw_waiting(out, sheet);
    for (unsigned row = sheet->waiting > 0; row < rows_of(sheet); row++)
        draw_band(out, sheet, row);
    for (unsigned row = 0; row <= rows_of(sheet); row++)
        svg_across(out, (struct box){0, row_top(sheet, row), SVG_WIDTH, 0}, "stroke=\"#000\" stroke-width=\"8\"");
}

/* ---- minutes */

static void draw_minute(FILE *out, const struct sheet *sheet, unsigned minute)
{
    char number[16];
    long x = minute_at(sheet, minute), foot = row_top(sheet, rows_of(sheet));
    snprintf(number, sizeof number, "%u", minute);
    svg_upright(out, (struct box){x, sheet->top - TICK, 0, foot + 2 * TICK - sheet->top}, "stroke=\"#bbb\" stroke-width=\"8\"");
    svg_words(out, (struct words){number, x, sheet->top - TICK - 50, SVG_TINY, 0, AROUND_HERE, 0});
    svg_words(out, (struct words){number, x, foot + TICK + SVG_TINY, SVG_TINY, 0, AROUND_HERE, 0});
}

static void draw_minutes(FILE *out, const struct sheet *sheet)
{
    unsigned last = sheet->study->level.head.last, step = svg_minute_step(last + 1, sheet->right - sheet->left, LEAST_TICKS);
    long foot = row_top(sheet, rows_of(sheet));
    for (unsigned t = 0; t <= last; t += step)
        draw_minute(out, sheet, t);
    if (minute_at(sheet, last) - minute_at(sheet, last / step * step) >= LEAST_TICKS)
        draw_minute(out, sheet, last);
    svg_words(out, (struct words){"minute", (sheet->left + sheet->right) / 2, foot + MINUTES_BELOW - 100, SVG_SMALL, 0, AROUND_HERE, 0});
}

/* ---- paths */

/* The line along a track: through its band from the side of the one station to the side of the other, or level if both are on one side. */
static void put_drive(FILE *out, const struct sheet *sheet, unsigned train, unsigned nth)
{
    const struct level *level = &sheet->study->level;
    const struct train *t = &level->train[train];
    unsigned track = path_element(level, t, nth), to = path_element(level, t, nth + 1);
    long top = element_top(sheet, track), foot = top + sheet->band_height, arrival = minute_at(sheet, t->stop[nth / 2 + 1].arrival);
    int from_above = element_top(sheet, path_element(level, t, nth - 1)) < top, to_above = element_top(sheet, to) < top;
    if (from_above == to_above)
        fprintf(out, "V%ldH%ld", lane(sheet, track, train), arrival);
    else
        fprintf(out, "V%ldL%ld %ld", from_above ? top : foot, arrival, from_above ? foot : top);
    fprintf(out, "V%ld", lane(sheet, to, train));
}

/* Begins the line of a train's plan; how it is drawn comes after. */
static void put_path(FILE *out, const struct sheet *sheet, unsigned train)
{
    const struct level *level = &sheet->study->level;
    const struct train *t = &level->train[train];
    fprintf(out, "<path d=\"M%ld %ld", minute_at(sheet, t->stop[0].arrival), lane(sheet, t->stop[0].station, train));
    for (unsigned i = 0; i < t->stops; i++) {
        fprintf(out, "H%ld", minute_at(sheet, t->stop[i].departure));
        if (i + 1 < t->stops)
            put_drive(out, sheet, train, 2 * i + 1);
    }
    fputs("\" ", out);
}

/* The train's name before the begin of its line, or after it above or below, where there is room. */
static void label_path(FILE *out, struct sheet *sheet, unsigned train)
{
    const struct train *t = &sheet->study->level.train[train];
    long x = minute_at(sheet, t->stop[0].arrival), y = lane(sheet, t->stop[0].station, train);
    const struct words places[] = {
        {t->name, x - 2 * START, y + 75, SVG_TINY, MOST_LABEL, UP_TO_HERE, 0},
        {t->name, x, y - 2 * START, SVG_TINY, MOST_LABEL, FROM_HERE, 0},
        {t->name, x, y + START + SVG_TINY, SVG_TINY, MOST_LABEL, FROM_HERE, 0},
    };
    for (unsigned i = 0; i < sizeof places / sizeof *places; i++) {
        struct box box = svg_box_of(places[i]);
        if (box.left < sheet->left || box.left + box.width > sheet->right || box.top < sheet->top || !svg_take(&sheet->taken, box))
            continue;
        svg_label(out, places[i]);
        return;
    }
}

/* The dot where a train's line begins; no label meets it. */
static void draw_start(FILE *out, struct sheet *sheet, unsigned train)
{
    const struct train *t = &sheet->study->level.train[train];
    long x = minute_at(sheet, t->stop[0].arrival), y = lane(sheet, t->stop[0].station, train);
    fprintf(out, "<circle cx=\"%ld\" cy=\"%ld\" r=\"%d\" fill=\"#000\"/>\n", x, y, (int)START);
    svg_take(&sheet->taken, (struct box){x - START, y - START, 2 * START, 2 * START});
}

static void draw_paths(FILE *out, struct sheet *sheet)
{
    const struct level *level = &sheet->study->level;
    for (unsigned k = 0; k < level->trains; k++) {
        put_path(out, sheet, k);
        fprintf(out, "%s/>\n", CASING_STYLE);
    }
    for (unsigned k = 0; k < level->trains; k++) {
        fputs("<g><title>", out);
        svg_escaped(out, level->train[k].name);
        fputs("</title>", out);
        put_path(out, sheet, k);
        fprintf(out, "%s%s/>\n", PATH_STYLE, dashes[k]);
        draw_start(out, sheet, k);
        fputs("</g>\n", out);
    }
    for (unsigned k = 0; k < level->trains; k++)
        label_path(out, sheet, k);
}

/* ---- around the plot */

static struct box legend_place(unsigned nth)
{
    long column = SVG_WIDTH / LEGEND_COLUMNS;
    return (struct box){(long)(nth % LEGEND_COLUMNS) * column, LEGEND_TOP + (long)(nth / LEGEND_COLUMNS) * LEGEND_ROW, column, LEGEND_ROW};
}

static void legend_words(FILE *out, struct box place, const char *text)
{
    svg_words(out, (struct words){text, place.left + SAMPLE + 120, place.top + SAMPLE_HEIGHT, SVG_SMALL, place.width - SAMPLE - 240, FROM_HERE, 0});
}

/* Whether some band is that of coupled tracks. */
static int runs_both_ways(const struct sheet *sheet)
{
    for (unsigned i = 0; i < sheet->bands.count; i++)
        if (sheet->bands.band[i].elements == 2)
            return 1;
    return 0;
}

static void draw_legend(FILE *out, const struct sheet *sheet)
{
    const struct level *level = &sheet->study->level;
    struct box place = legend_place(0);
    svg_rect(out, (struct box){place.left, place.top + 30, SAMPLE, SAMPLE_HEIGHT}, STANDING_STYLE);
    legend_words(out, place, "trains that are there");
    place = legend_place(1);
    svg_rect(out, (struct box){place.left, place.top + 30, SAMPLE, SAMPLE_HEIGHT}, BLOCKED_STYLE);
    legend_words(out, place, "still blocked after a train left");
    place = legend_place(2);
    if (runs_both_ways(sheet)) {
        draw_both_ways(out, place.left + SAMPLE / 2, place.top + 30, place.top + 30 + SAMPLE_HEIGHT);
        legend_words(out, place, "both ways on the same rails");
    }
    for (unsigned k = 0; k < level->trains; k++) {
        char name[NAME_BYTES + 20];
        place = legend_place(LEGEND_COLUMNS + k);
        fprintf(out, "<path d=\"M%ld %ldH%ld\" %s%s/>\n", place.left, place.top + 145, place.left + SAMPLE, PATH_STYLE, dashes[k]);
        snprintf(name, sizeof name, "%s as planned", level->train[k].name);
        legend_words(out, place, name);
    }
}

static void describe(FILE *out, const struct sheet *sheet)
{
    const struct level *level = &sheet->study->level;
    fprintf(out, "<desc>Minutes 0 to %u from left to right. Places from top to bottom:", level->head.last);
    for (unsigned i = 0; i < sheet->bands.count; i++) {
        const struct band *band = &sheet->bands.band[i];
        fputs(i > 0 ? ", " : " ", out);
        svg_escaped(out, element_name(level, band->element[0]));
        if (band->elements == 2) {
            fputs(" and ", out);
            svg_escaped(out, element_name(level, band->element[1]));
            fputs(" on the same rails", out);
        }
    }
    fputs(".\n", out);
    for (unsigned k = 0; k < level->trains; k++) {
        const struct train *train = &level->train[k];
        svg_escaped(out, train->name);
        for (unsigned i = 0; i < train->stops; i++) {
            fputs(i > 0 ? ", " : " is planned at ", out);
            svg_escaped(out, level->station[train->stop[i].station].name);
            fprintf(out, " from minute %u to %u", train->stop[i].arrival, train->stop[i].departure);
        }
        fputs(".\n", out);
    }
    fputs("</desc>\n", out);
}

void draw_shift(FILE *out, const struct study *study, const struct presence *presence)
{
    static const char tells[] = "Where trains are in each minute, on average of all choices of delays. A full band is as many trains as the place holds.";
    static struct sheet sheet;
    sheet.study = study;
    sheet.presence = presence;
    sheet.whole = whole_weight(&study->level);
    sheet.waiting = most_waiting(&sheet);
    order_bands(&study->level, &sheet.bands);
    lay_out(&sheet);
    svg_begin(out, picture_title(study), row_top(&sheet, rows_of(&sheet)) + MINUTES_BELOW);
    describe(out, &sheet);
    svg_words(out, (struct words){picture_title(study), 0, TITLE_FOOT, SVG_TITLE, SVG_WIDTH, FROM_HERE, 1});
    svg_words(out, (struct words){tells, 0, TELLS_FOOT, SVG_NORMAL, SVG_WIDTH, FROM_HERE, 0});
    draw_legend(out, &sheet);
    draw_minutes(out, &sheet);
    draw_bands(out, &sheet);
    draw_paths(out, &sheet);
    svg_end(out);
}
