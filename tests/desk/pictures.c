/* The pictures: that they are well formed and within their bounds, that they show what the runs answer, and that names can't break them. Takes a file of pairs
 * of case and book (docs/FORMATS.md, "What the tools read"), or none. Prints 'N passed, M failed'. */
#include <stdio.h>
#include <stdlib.h>
#include <string.h>

#include "draw.h"
#include "draw_svg.h"
#include "pairs.h"
#include "tally.h"

/* ---- a picture, drawn and read again */

enum { MOST_PICTURE = 1 << 22 };
static char picture[MOST_PICTURE], second_picture[MOST_PICTURE];
static struct study study;
static struct lent lent;
static struct presence presence;

static void read_again(FILE *file, char *into)
{
    size_t length;
    rewind(file);
    length = fread(into, 1, MOST_PICTURE - 1, file);
    into[length] = '\0';
    expect(length > 0 && length < MOST_PICTURE - 1, "a picture has bytes, and not too many");
    fclose(file);
}

static int draw_one(int shift, char *into)
{
    FILE *file = tmpfile();
    struct lampreysong_answer answer = shift ? gather_presence(&study, &lent, &presence) : ask_run(&study, study.level.head.last, &lent);
    if (file == NULL || answer.refusal != 0) {
        into[0] = '\0';
        return 0;
    }
    if (shift)
        draw_shift(file, &study, &presence);
    else
        draw_arrivals(file, &study, &lent);
    read_again(file, into);
    return 1;
}

static int shows(const char *text)
{
    return strstr(picture, text) != NULL;
}

static unsigned times(const char *text)
{
    unsigned count = 0;
    for (const char *at = picture; (at = strstr(at, text)) != NULL; at += strlen(text))
        count++;
    return count;
}

/* ---- whether it is well formed */

enum { MOST_DEPTH = 16, MOST_NAME = 32 };

static int is_utf8(const char *text)
{
    for (const unsigned char *at = (const unsigned char *)text; *at != 0;) {
        unsigned more = *at < 0x80 ? 0 : *at < 0xc2 ? 9 : *at < 0xe0 ? 1 : *at < 0xf0 ? 2 : *at < 0xf5 ? 3 : 9;
        if (more == 9 || (*at < 0x20 && *at != '\n'))
            return 0;
        for (at++; more > 0; more--, at++)
            if ((*at & 0xc0) != 0x80)
                return 0;
    }
    return 1;
}

/* Whether an & begins one of the four escapes. */
static int is_escape(const char *at)
{
    return strncmp(at, "&amp;", 5) == 0 || strncmp(at, "&lt;", 4) == 0 || strncmp(at, "&gt;", 4) == 0 || strncmp(at, "&quot;", 6) == 0;
}

static const char *name_at(const char *at, char name[MOST_NAME])
{
    size_t length = strspn(at, "abcdefghijklmnopqrstuvwxyzABCDEFGHIJKLMNOPQRSTUVWXYZ-");
    if (length == 0 || length >= MOST_NAME)
        return NULL;
    memcpy(name, at, length);
    name[length] = '\0';
    return at + length;
}

/* Goes past the attributes of a tag; null if one is not sound. */
static const char *past_attributes(const char *at)
{
    char name[MOST_NAME];
    while (*at == ' ') {
        at = name_at(at + 1, name);
        if (at == NULL || at[0] != '=' || at[1] != '"')
            return NULL;
        for (at += 2; *at != '"'; at++)
            if (*at == '\0' || *at == '<' || *at == '>' || (*at == '&' && !is_escape(at)))
                return NULL;
        at++;
    }
    return at;
}

static char open_names[MOST_DEPTH][MOST_NAME];

/* Goes past a tag that begins with <, and counts the open elements; null if it is not sound. */
static const char *past_tag(const char *at, unsigned *depth)
{
    char name[MOST_NAME];
    int closing = at[1] == '/';
    at = name_at(at + 1 + closing, name);
    if (at == NULL)
        return NULL;
    if (closing)
        return *at == '>' && *depth > 0 && strcmp(open_names[--*depth], name) == 0 ? at + 1 : NULL;
    at = past_attributes(at);
    if (at == NULL)
        return NULL;
    if (strncmp(at, "/>", 2) == 0)
        return at + 2;
    if (*at != '>' || *depth == MOST_DEPTH)
        return NULL;
    strcpy(open_names[(*depth)++], name);
    return at + 1;
}

static int is_well_formed(const char *text)
{
    static const char declaration[] = "<?xml version=\"1.0\" encoding=\"UTF-8\"?>\n<svg ";
    const char *at = text + strlen("<?xml version=\"1.0\" encoding=\"UTF-8\"?>\n");
    unsigned depth = 0;
    if (strncmp(text, declaration, sizeof declaration - 1) != 0 || !is_utf8(text))
        return 0;
    while (*at != '\0') {
        if (*at == '<') {
            at = past_tag(at, &depth);
            if (at == NULL || (depth == 0 && strcmp(at, "\n") != 0))
                return 0;
        } else if (*at == '>' || (*at == '&' && !is_escape(at)))
            return 0;
        else
            at++;
    }
    return depth == 0;
}

/* ---- whether all of it is within the view */

struct view {
    long left, top, right, foot;
};

/* Takes a whole number of digits; false if there is none. */
static int take_number(const char **at, long *number)
{
    char *end;
    if (strspn(*at, "-0123456789") == 0)
        return 0;
    *number = strtol(*at, &end, 10);
    if (end == *at || *end == '.' || *end == 'e')
        return 0;
    *at = end;
    return 1;
}

static int read_view(struct view *view)
{
    const char *at = strstr(picture, "viewBox=\"");
    if (at == NULL)
        return 0;
    at += strlen("viewBox=\"");
    if (!take_number(&at, &view->left) || *at++ != ' ' || !take_number(&at, &view->top) || *at++ != ' ' || !take_number(&at, &view->right) || *at++ != ' ')
        return 0;
    if (!take_number(&at, &view->foot) || *at != '"')
        return 0;
    view->right += view->left;
    view->foot += view->top;
    return view->right - view->left <= 21000 && view->foot - view->top <= 29700; /* A4 */
}

static int within(long number, long from, long to)
{
    return from <= number && number <= to;
}

/* Every path's numbers, after M, L, H and V. */
static int paths_within(const struct view *view)
{
    for (const char *at = picture; (at = strstr(at, " d=\"")) != NULL;) {
        for (at += 4; *at != '"';) {
            char letter = *at++;
            long x = view->left, y = view->top;
            if (strchr("MLHVZ", letter) == NULL)
                return 0;
            if (letter != 'V' && letter != 'Z' && !take_number(&at, &x))
                return 0;
            if ((letter == 'M' || letter == 'L') && *at++ != ' ')
                return 0;
            if (letter != 'H' && letter != 'Z' && !take_number(&at, &y))
                return 0;
            if (!within(x, view->left, view->right) || !within(y, view->top, view->foot))
                return 0;
        }
    }
    return 1;
}

/* A number in an attribute before the end of the tag at a place; false if it is there and is no whole number. */
static int attribute(const char *tag, const char *name, long *number)
{
    const char *found = strstr(tag, name), *end = strchr(tag, '>');
    *number = 0;
    if (found == NULL || found > end)
        return 1;
    found += strlen(name);
    return take_number(&found, number) && *found == '"';
}

/* Every tag's x, y, width, height, cx and cy. */
static int tags_within(const struct view *view)
{
    for (const char *at = strstr(picture, "<title>"); (at = strchr(at, '<')) != NULL; at++) {
        long x, y, width, height, cx, cy;
        if (!attribute(at, " x=\"", &x) || !attribute(at, " y=\"", &y) || !attribute(at, " width=\"", &width) || !attribute(at, " height=\"", &height))
            return 0;
        if (!attribute(at, " cx=\"", &cx) || !attribute(at, " cy=\"", &cy) || width < 0 || height < 0)
            return 0;
        if (!within(x, view->left, view->right) || !within(x + width, view->left, view->right) || !within(cx, view->left, view->right))
            return 0;
        if (!within(y, view->top, view->foot) || !within(y + height, view->top, view->foot) || !within(cy, view->top, view->foot))
            return 0;
    }
    return 1;
}

/* ---- both pictures of a study */

/* In a minute no rails are fuller than they can be: in no choice do both tracks of a couple hold a train. */
static int couples_are_kept(unsigned minute)
{
    for (unsigned i = 0; i < study.level.couples; i++) {
        uint64_t sum = 0;
        for (unsigned k = 0; k < 2; k++) {
            unsigned element = MOST_STATIONS + study.level.couple[i].track[k];
            sum += presence.standing[element][minute] + presence.blocked[element][minute];
        }
        if (sum > whole_weight(&study.level) * study.level.track[study.level.couple[i].track[0]].capacity)
            return 0;
    }
    return 1;
}

/* In every minute each train is somewhere in every choice, and no place is fuller than it can be. */
static int all_are_somewhere(void)
{
    const struct level *level = &study.level;
    uint64_t whole = whole_weight(level);
    for (unsigned t = 0; t <= level->head.last; t++) {
        uint64_t sum = presence.coming[t] + presence.waiting[t] + presence.gone[t];
        for (unsigned i = 0; i < ELEMENTS; i++) {
            unsigned capacity = i < MOST_STATIONS ? level->station[i].capacity : level->track[i - MOST_STATIONS].capacity;
            sum += presence.standing[i][t];
            if (presence.standing[i][t] + presence.blocked[i][t] > whole * capacity)
                return 0;
        }
        if (sum != whole * level->trains || !couples_are_kept(t))
            return 0;
    }
    return 1;
}

static int draws_well(int shift)
{
    struct view view;
    return draw_one(shift, picture) && is_well_formed(picture) && read_view(&view) && paths_within(&view) && tags_within(&view);
}

static void draw_both(const char *arrivals, const char *shift)
{
    expect(draws_well(1), shift);
    expect(all_are_somewhere(), "in every minute each train is somewhere in every choice");
    expect(draws_well(0), arrivals);
}

/* ---- studies */

static const uint8_t shift_example[] = {1, 0, 5, 0, 20, 1, 4, 0, 2, 0, 1, 1,  2, 0, 1, 1, 3,  0, 3, 0, 1, 1, 4, 0, 12, 1, 1, 0, 0, 2,
                                        0, 3, 1, 0, 6,  0, 7, 4, 0, 12, 1, 1, 0, 0, 5, 0, 8, 1, 0, 11, 0, 12, 5, 0, 5, 1, 0, 60, 3, 40};

static void take_study(const uint8_t *case_bytes, size_t length)
{
    memset(&study, 0, sizeof study);
    study.case_name = "cases/shift.case";
    memcpy(study.case_bytes.at, case_bytes, length);
    study.case_bytes.length = length;
    take_case(&study.case_bytes, &study.level);
}

/* Makes the study's bytes after its level was changed, and gives the refusal. */
static unsigned changed(void)
{
    put_case(&study.level, &study.case_bytes);
    return ask_files(&study).refusal;
}

/* A line of stations that trains follow one after the other, all due in minute 0. */
static void make_line(unsigned trains, unsigned stops, unsigned last)
{
    struct level *level = &study.level;
    memset(&study, 0, sizeof study);
    study.case_name = "line.case";
    level->head = (struct head){.last = last, .room = MOST_ROOM};
    level->stations = stops;
    level->tracks = stops - 1;
    level->trains = trains;
    for (unsigned i = 0; i < stops; i++)
        level->station[i].capacity = MOST_TRAINS;
    for (unsigned i = 0; i + 1 < stops; i++)
        level->track[i] = (struct track){"", i, i + 1, 1, 0};
    for (unsigned k = 0; k < trains; k++) {
        level->train[k].stops = stops;
        for (unsigned i = 0; i < stops; i++)
            level->train[k].stop[i] = (struct stop){i, 2 * i, 2 * i + 1, 0};
    }
    level->tables.count = 1;
    level->tables.table[0].pairs = 2;
    level->tables.table[0].pair[0] = (struct pair){0, 99};
    level->tables.table[0].pair[1] = (struct pair){3, 1};
    give_names(level);
}

/* ---- tests */

static void shift_arrivals(void)
{
    take_study(shift_example, sizeof shift_example);
    draw_both("the shift example's arrivals are well formed", "the shift example's shift is well formed");
    expect(shows("<title>minute 6: 60.00 of 100</title>") && shows("<title>minute 9: 40.00 of 100</title>"), "the first train's bars");
    expect(shows("<title>minute 11: 36.00 of 100</title>") && shows("<title>minute 13: 24.00 of 100</title>") &&
               shows("<title>minute 14: 40.00 of 100</title>"), "the second train's bars");
    expect(times("<title>minute ") == 5, "no further bar");
    expect(shows(">60.00</text>") && times(">40.00</text>") == 2 && shows(">36.00</text>") && shows(">24.00</text>"), "each bar's label");
    expect(shows(">plan 6</text>") && shows(">plan 11</text>"), "the plan");
    expect(times(">not arrived 0.00</text>") == 2, "what has not arrived, 0 too");
    expect(shows(">T0 to S1, planned in minute 6</text>") && shows(">T1 to S1, planned in minute 11</text>"), "the headings");
    expect(shows(">50 of 100 by minute 6, 80 by 9, 95 by 9</text>") && shows(">50 of 100 by minute 13, 80 by 14, 95 by 14</text>"), "50, 80 and 95");
    expect(times("<circle") == 7, "six rings, and the legend's");
    expect(shows("<title>shift.case</title>") && shows(">shift.case</text>"), "the file's name is the title");
    expect(draw_one(0, second_picture) && strcmp(picture, second_picture) == 0, "the same case gives the same bytes");
}

/* The height of the bar that has this title. */
static long bar_height(const char *title)
{
    const char *bar = strstr(picture, title);
    long height = 0;
    return bar != NULL && attribute(strstr(bar, "<rect"), " height=\"", &height) ? height : 0;
}

static int about(long a, long b)
{
    return a - b <= 1 && b - a <= 1;
}

/* Scales: 0 to 60 for the first train, 0 to 40 for the second. */
static void shift_heights(void)
{
    long full, top;
    char end[32];
    take_study(shift_example, sizeof shift_example);
    expect(draws_well(0), "the shift example's arrivals, to be measured");
    full = bar_height("<title>minute 6: ");
    expect(full > 1000 && about(bar_height("<title>minute 9: "), full * 40 / 60), "the first train's bars are as high as their weights say");
    expect(about(bar_height("<title>minute 11: "), full * 36 / 40) && about(bar_height("<title>minute 13: "), full * 24 / 40) &&
               about(bar_height("<title>minute 14: "), full), "so are the second's");
    expect(attribute(strstr(strstr(picture, "<title>minute 6: "), "<rect"), " y=\"", &top) && sprintf(end, "V%ldH", top) > 0 && times(end) == 1,
           "the bar of 60 to the scale of 60 is as high as the curve at its end");
}

/* The first area is that of the waiting band, a train high: 2400 of 10000 wait in minutes 5 and 6. */
static void shift_areas(void)
{
    long left, foot, from, top, until, back;
    const char *area = strstr(picture, "<path d=\"M");
    while (area != NULL && strcspn(area, "Z") > strcspn(area, ">")) /* an area ends with Z, a line does not */
        area = strstr(area + 1, "<path d=\"M");
    expect(area != NULL && sscanf(area, "<path d=\"M%ld %ldH%ldV%ldH%ldV%ldH", &left, &foot, &from, &top, &until, &back) == 6, "an area of those that wait");
    expect(area != NULL && foot - top == 1500 * 24 / 100 && back == foot, "it is as high as their weight says");
    expect(area != NULL && (from - left) * 7 - (until - left) * 5 <= 7 && (until - left) * 5 - (from - left) * 7 <= 7, "it begins and ends where they do");
}

static void shift_presence(void)
{
    static const unsigned station = 0, track = MOST_STATIONS;
    take_study(shift_example, sizeof shift_example);
    expect(draws_well(1), "the shift example's shift is well formed, once more");
    expect(shows(">S0</text>") && shows(">S0-S1</text>") && shows(">S1</text>") && times(">holds 1</text>") == 3, "each place and what it holds");
    expect(shows(">waiting outside</text>") && shows(">1 train</text>"), "those that wait outside");
    expect(times(" as planned</text>") == 2 && shows(">T0</text>") && shows(">T1</text>"), "the trains in the legend and at their lines");
    expect(presence.standing[station][2] == 6000 && presence.standing[station][1] == 0, "the first train stands where it is planned if it is not late");
    expect(presence.waiting[5] == 2400 && presence.waiting[6] == 2400 && presence.waiting[7] == 0, "the second waits while the first stands there late");
    expect(presence.standing[track][3] == 6000 && presence.blocked[station][3] == 6000 && presence.blocked[station][4] == 0, "a block lasts its time");
    expect(presence.gone[20] == 20000 && presence.coming[0] == 20000, "all come, and all go");
    shift_areas();
}

/* How much is blocked, over all places and minutes. */
static uint64_t blocked_weight(void)
{
    uint64_t sum = 0;
    for (unsigned i = 0; i < ELEMENTS; i++)
        for (unsigned t = 0; t <= study.level.head.last; t++)
            sum += presence.blocked[i][t];
    return sum;
}

/* The first train, on time, leaves its first station in minute 3. It is drawn as blocked from then on for the safety time; if that is 0, nothing is. */
static void safety_times(void)
{
    for (unsigned safety = 0; safety <= 3; safety++) {
        unsigned blocked = 0;
        take_study(shift_example, sizeof shift_example);
        study.level.head.safety = safety;
        expect(changed() == 0 && draws_well(1), "the shift example with another safety time");
        for (unsigned t = 3; t < 6 && presence.blocked[0][t] == 6000; t++)
            blocked++;
        expect(blocked == safety && presence.blocked[0][2] == 0 && presence.blocked[0][3 + safety] != 6000, "a place is drawn as blocked for the safety time");
        expect((blocked_weight() == 0) == (safety == 0), "with safety time 0 nothing is blocked");
    }
}

static void titles(void)
{
    take_study(shift_example, sizeof shift_example);
    study.case_name = "-";
    expect(strcmp(picture_title(&study), "standard input") == 0, "standard input as a title");
    study.case_name = "here.case";
    expect(strcmp(picture_title(&study), "here.case") == 0, "a file's name as a title");
    strcpy(study.level.title, "Level 420");
    expect(strcmp(picture_title(&study), "Level 420") == 0, "the case's title");
}

static void names(void)
{
    take_study(shift_example, sizeof shift_example);
    strcpy(study.level.title, "A & B <\"C\">");
    strcpy(study.level.station[1].name, "F\xc3\xb6rderort & <\"\xe5\x9d\x91\xe5\x8f\xa3\">");
    strcpy(study.level.train[0].name, "\xd0\x9f\xd0\xbe\xd0\xb5\xd0\xb7\xd0\xb4 ]]>");
    strcpy(study.level.track[0].name, "cut \xc3");
    strcpy(study.level.train[1].name, "\xff\x80\xed\xa0\x80\xf4\x90\x80\x80\x01\x7f\xc0\xaf\xe0\x80\xaf\xef\xbf\xbe");
    draw_both("odd names leave the arrivals well formed", "odd names leave the shift well formed");
    expect(shows("<title>A &amp; B &lt;&quot;C&quot;&gt;</title>"), "a title is escaped");
    expect(shows(" to F\xc3\xb6rderort &amp; &lt;&quot;\xe5\x9d\x91\xe5\x8f\xa3&quot;&gt;, planned"), "a name is escaped, and UTF-8 stays");
    expect(draw_one(1, picture) && shows(">cut \xef\xbf\xbd</text>"), "what is no UTF-8 is replaced");
    for (unsigned k = 0; k < study.level.trains; k++)
        memset(study.level.train[k].name, 'W', NAME_BYTES);
    for (unsigned i = 0; i < study.level.stations; i++)
        memset(study.level.station[i].name, '&', NAME_BYTES);
    memset(study.level.track[0].name, '"', NAME_BYTES);
    memset(study.level.title, 'M', TITLE_BYTES);
    draw_both("the longest names leave the arrivals well formed", "the longest names leave the shift well formed");
}

static void windows(void)
{
    make_line(1, 2, MOST_MINUTE);
    study.level.tables.table[0].pair[1].delay = 255;
    expect(changed() == 0, "one train and the longest window are accepted");
    draw_both("one train's arrivals", "the longest window's shift");
    make_line(1, 2, 3);
    study.level.tables.table[0].pairs = 1;
    study.level.tables.table[0].pair[0] = (struct pair){200, 100};
    expect(changed() == 0, "a train that comes too late is accepted");
    draw_both("arrivals where nothing arrives", "a shift in which nothing happens");
    expect(shows(">not arrived 100.00</text>") && shows(">not arrived by minute 3</text>") && !shows("<title>minute "), "nothing arrives");
    make_line(1, 2, 3);
    study.level.tables.table[0].pairs = 1;
    study.level.tables.table[0].pair[0] = (struct pair){0, 100};
    expect(changed() == 0, "a train that is always on time is accepted");
    draw_both("arrivals all in one minute", "a shift without delay");
    expect(shows("<title>minute 2: 100.00 of 100</title>") && shows(">100.00</text>") && shows(">not arrived 0.00</text>"), "all arrive in one minute");
}

static void seven_trains(void)
{
    make_line(MOST_TRAINS, 2, MOST_MINUTE);
    expect(changed() == 0, "seven trains are accepted");
    draw_both("seven trains' arrivals", "seven trains' shift");
    expect(times(">not arrived ") == MOST_TRAINS && shows(": &lt;0.01 of 100</title>"), "seven panels, and no weight that is there as 0.00");
    study.level.head.room = MOST_TRAINS;
    expect(changed() == 0 && gather_presence(&study, &lent, &presence).refusal == LAMPREYSONG_NO_ROOM, "too small a room is refused before it is drawn");
}

/* Whether a band is that of one element alone. */
static int is_band(const struct bands *order, unsigned band, unsigned element)
{
    return order->band[band].elements == 1 && order->band[band].element[0] == element;
}

static void bands(void)
{
    static struct bands order;
    make_line(2, 4, 20);
    study.level.station[4].capacity = 1; /* a station that no path uses */
    study.level.stations = 5;
    study.level.track[3] = (struct track){"", 2, 1, 1, 0};
    study.level.tracks = 4;
    study.level.train[1].stops = 2;
    study.level.train[1].stop[0].station = 2;
    study.level.train[1].stop[1].station = 1;
    expect(changed() == 0, "a train that goes back is accepted");
    order_bands(&study.level, &order);
    expect(order.count == 8 && is_band(&order, 0, 0) && is_band(&order, 1, MOST_STATIONS) && is_band(&order, 2, 1), "bands in the order of the first path");
    expect(is_band(&order, 3, MOST_STATIONS + 1) && is_band(&order, 4, MOST_STATIONS + 3) && is_band(&order, 5, 2), "the track back between its stations");
    expect(band_of(&order, 4) == order.count, "a station that no path uses has no band");
    draw_both("arrivals with a train that goes back", "a shift with a train that goes back");
}

static int is_coupled_band(const struct bands *order, unsigned band, unsigned there, unsigned back)
{
    const struct band *found = &order->band[band];
    return found->elements == 2 && found->element[0] == MOST_STATIONS + there && found->element[1] == MOST_STATIONS + back;
}

/* A line of three stations with coupled tracks; two trains meet on it. */
static void make_branch(void)
{
    struct level *level = &study.level;
    make_line(2, 3, 30);
    level->track[2] = (struct track){"", 2, 1, 1, 0};
    level->track[3] = (struct track){"", 1, 0, 1, 0};
    level->tracks = 4;
    for (unsigned i = 0; i < 3; i++)
        level->train[1].stop[i].station = 2 - i;
    level->couple[0] = (struct couple){{3, 0}, 0};
    level->couple[1] = (struct couple){{1, 2}, 0};
    level->couples = 2;
    give_names(level);
}

static void couples(void)
{
    static struct bands order;
    make_branch();
    expect(changed() == 0, "coupled tracks are accepted");
    order_bands(&study.level, &order);
    expect(order.count == 5 && is_coupled_band(&order, 1, 0, 3) && is_coupled_band(&order, 3, 1, 2), "coupled tracks have one band");
    expect(band_of(&order, MOST_STATIONS + 2) == 3 && is_band(&order, 2, 1), "the station in between stands between the bands");
    draw_both("arrivals over coupled tracks", "a shift over coupled tracks");
    expect(draws_well(1) && times(">holds 1</text>") == 2 && times(">holds 7</text>") == 3, "what the rails hold is said once");
    expect(shows(">S0-S1</text>") && shows(">S1-S0</text>") && shows(">S1-S2</text>") && shows(">S2-S1</text>"), "both tracks are named");
    expect(shows(": S0, S0-S1 and S1-S0 on the same rails, S1,") && shows(">both ways on the same rails</text>"), "that they share the rails is said");
    study.level.couples = 0;
    expect(changed() == 0 && draws_well(1) && !shows("rails") && times(">holds 1</text>") == 4, "without couples each track has a band");
    make_branch();
    study.level.trains = 1;
    expect(changed() == 0 && draws_well(1) && !shows("rails") && !shows(">S1-S0</text>"), "a track that no train uses is not drawn");
}

/* The first train runs over a part of the line, from this station to the next; the second, which goes up, over all of it. */
static void longer_line(unsigned first, const char *what)
{
    static struct bands order;
    make_branch();
    study.level.train[0].stops = 2;
    for (unsigned i = 0; i < 2; i++)
        study.level.train[0].stop[i].station = first + i;
    order_bands(&study.level, &order);
    expect(changed() == 0 && order.count == 5 && is_band(&order, 0, 0) && is_band(&order, 2, 1) && is_band(&order, 4, 2), what);
}

/* ---- drawn cases */

enum { MOST_PAIRS_DRAWN = 300, MOST_MINUTES_DRAWN = 60000 };

/* Each accepted pair, up to a number, whose room suffices. */
static void pairs(const char *name)
{
    FILE *file = fopen(name, "rb");
    unsigned drawn = 0, minutes = 0;
    expect(file != NULL, "the file of pairs is there");
    while (file != NULL && drawn < MOST_PAIRS_DRAWN && minutes < MOST_MINUTES_DRAWN && next_pair(file, &study)) {
        if (ask_files(&study).refusal != 0)
            continue;
        take_case(&study.case_bytes, &study.level);
        take_book(&study.book_bytes, &study.book);
        if (ask_run(&study, study.level.head.last, &lent).refusal != 0)
            continue;
        draw_both("a drawn case's arrivals are well formed", "a drawn case's shift is well formed");
        minutes += study.level.head.last + 1;
        drawn++;
    }
    expect(drawn > 0, "a pair of the file is accepted");
    if (file != NULL)
        fclose(file);
}

int main(int count, char **words)
{
    shift_arrivals();
    shift_heights();
    shift_presence();
    safety_times();
    titles();
    names();
    windows();
    seven_trains();
    bands();
    couples();
    longer_line(1, "a train that goes up past the places that are there goes on upwards");
    longer_line(0, "a train that comes to them from below begins below");
    if (count > 1)
        pairs(words[1]);
    return tally();
}
