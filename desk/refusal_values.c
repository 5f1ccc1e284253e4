/* Refusals 6 to 9 in words: values out of range, the ends of tracks, paths and times. */
#include "refusal_words.h"

enum { STOP_BYTES = 5 };

/* ---- 6 */

struct range {
    const char *what, *unit;
    unsigned found, least, most;
    unsigned line; /* of the text, 0 if there is none */
};

/* Says that a value is out of its range, if it is. */
static int out_of_range(struct words *words, const struct range *range)
{
    if (range->found >= range->least && range->found <= range->most)
        return 0;
    say_wrong(words, "the %s is %u%s; it can be %u to %u.", range->what, range->found, range->unit, range->least, range->most);
    say_mend(words, "choose a number from %u to %u.", range->least, range->most);
    words->line = range->line;
    return 1;
}

static void words_of_head(const struct fault *fault, const uint8_t *body, struct words *words)
{
    const struct level *level = text_level(fault);
    const struct head head = level != NULL ? level->head : (struct head){0};
    const struct range ranges[] = {{"last minute", "", number_at(body), 1, MOST_MINUTE, head.line},
                                   {"safety time", " minutes", body[2], 0, MOST_SAFETY, head.safety_line},
                                   {"room", " rows", number_at(body + 3), 1, MOST_ROOM, head.room_line}};
    for (unsigned i = 0; i < sizeof ranges / sizeof *ranges; i++)
        if (out_of_range(words, &ranges[i]))
            return;
}

void words_of_range(const struct fault *fault, struct words *words)
{
    const uint8_t *body = body_of(fault);
    unsigned tag = fault->field.tag;
    if (body == NULL)
        return;
    if (tag == TAG_HEAD)
        words_of_head(fault, body, words);
    else if ((tag == TAG_STATION && body[0] == 0) || (tag == TAG_TRACK && body[2] == 0)) {
        say_wrong(words, "%s holds 0 trains; a capacity is 1 to 255.", element_called(fault).text);
        say_mend(words, "let it hold at least one train.");
    }
}

/* ---- 7 */

/* Says that a station is not there, if it is not. */
static int is_unknown(const struct fault *fault, unsigned station, const char *who, struct words *words)
{
    unsigned stations = count_before(fault->bytes, TAG_STATION, fault->field.place);
    if (station < stations)
        return 0;
    say_wrong(words, "%s at station %u, but there is no station %u.", who, station, station);
    if (stations == 0)
        say_mend(words, "the case has no stations: add them.");
    else if (stations == 1)
        say_mend(words, "the only station is 0.");
    else
        say_mend(words, "the stations are 0 to %u.", stations - 1);
    return 1;
}

void words_of_ends(const struct fault *fault, struct words *words)
{
    const uint8_t *body = body_of(fault);
    unsigned nth = fault->field.nth, same;
    char who[CALLED_BYTES + 16];
    if (body == NULL || fault->field.tag != TAG_TRACK)
        return;
    for (unsigned end = 0; end < 2; end++) {
        snprintf(who, sizeof who, "%s %s", track_called(fault, nth).text, end == 0 ? "begins" : "ends");
        if (is_unknown(fault, body[end], who, words))
            return;
    }
    if (body[0] == body[1]) {
        say_wrong(words, "%s begins and ends at %s.", track_called(fault, nth).text, station_called(fault, body[0]).text);
        say_mend(words, "let it lead from one station to another.");
        return;
    }
    same = track_with_ends(fault, body[0], body[1]);
    if (same == nth)
        return;
    say_wrong(words, "%s leads from %s to %s, as %s does already.", track_called(fault, nth).text, station_called(fault, body[0]).text,
              station_called(fault, body[1]).text, track_called(fault, same).text);
    if (text_level(fault) != NULL && same < text_level(fault)->tracks)
        say_wrong(words, "that one stands in line %u.", text_level(fault)->track[same].line);
    say_mend(words, "if this is the way back, swap its ends; otherwise take one of the two out, and let the other hold the trains of both.");
}

/* ---- 8 */

/* The stop of the refused train, with its line if it was written as text. */
static struct stop stop_at(const struct fault *fault, const uint8_t *body, unsigned i)
{
    const uint8_t *at = body + 2 + (size_t)i * STOP_BYTES;
    const struct level *level = text_level(fault);
    struct stop stop = {at[0], number_at(at + 1), number_at(at + 3), 0};
    if (level != NULL && fault->field.nth < level->trains && i < level->train[fault->field.nth].stops)
        stop.line = level->train[fault->field.nth].stop[i].line;
    return stop;
}

static unsigned stops_of(const struct fault *fault)
{
    return (fault->field.size - 2) / STOP_BYTES;
}

static int has_unknown_station(const struct fault *fault, const uint8_t *body, struct words *words)
{
    char who[CALLED_BYTES + 32];
    for (unsigned i = 0; i < stops_of(fault); i++) {
        snprintf(who, sizeof who, "stop %u of %s is", i + 1, train_called(fault, fault->field.nth).text);
        if (is_unknown(fault, stop_at(fault, body, i).station, who, words))
            return 1;
    }
    return 0;
}

static int has_repeated_station(const struct fault *fault, const uint8_t *body, struct words *words)
{
    for (unsigned i = 0; i < stops_of(fault); i++)
        for (unsigned before = 0; before < i; before++) {
            struct stop stop = stop_at(fault, body, i);
            if (stop_at(fault, body, before).station != stop.station)
                continue;
            words->line = stop.line;
            say_wrong(words, "%s comes to %s twice, at its stops %u and %u.", train_called(fault, fault->field.nth).text,
                      station_called(fault, stop.station).text, before + 1, i + 1);
            say_mend(words, "a path visits a station once: write the way back as a train of its own.");
            return 1;
        }
    return 0;
}

static void words_of_missing_track(const struct fault *fault, const uint8_t *body, struct words *words)
{
    unsigned tracks = count_before(fault->bytes, TAG_TRACK, fault->field.place);
    for (unsigned i = 1; i < stops_of(fault); i++) {
        struct stop here = stop_at(fault, body, i - 1), next = stop_at(fault, body, i);
        struct called from = station_called(fault, here.station), to = station_called(fault, next.station);
        if (track_with_ends(fault, here.station, next.station) < tracks)
            continue;
        words->line = next.line;
        say_wrong(words, "%s goes from %s to %s, but no track leads there.", train_called(fault, fault->field.nth).text, from.text, to.text);
        if (track_with_ends(fault, next.station, here.station) < tracks)
            say_wrong(words, "there is a track from %s to %s, but tracks lead one way.", to.text, from.text);
        say_mend(words, "add a track from %s to %s, or change the path.", from.text, to.text);
        return;
    }
}

void words_of_path(const struct fault *fault, struct words *words)
{
    const uint8_t *body = body_of(fault);
    if (body == NULL || fault->field.tag != TAG_TRAIN)
        return;
    if (!has_unknown_station(fault, body, words) && !has_repeated_station(fault, body, words))
        words_of_missing_track(fault, body, words);
}

/* ---- 9 */

/* Says that the times at a stop, or from it to the next, are out of order, if they are. */
static int out_of_order(const struct fault *fault, const uint8_t *body, unsigned i, struct words *words)
{
    struct stop here = stop_at(fault, body, i), next;
    struct called train = train_called(fault, fault->field.nth), station = station_called(fault, here.station);
    words->line = here.line;
    if (here.arrival > here.departure) {
        say_wrong(words, "%s arrives at %s in minute %u, but leaves it in minute %u, which is earlier.", train.text, station.text, here.arrival,
                  here.departure);
        say_mend(words, "let it leave in the minute of its arrival or later.");
        return 1;
    }
    if (i + 1 == stops_of(fault))
        return 0;
    next = stop_at(fault, body, i + 1);
    words->line = next.line;
    if (here.departure < next.arrival)
        return 0;
    say_wrong(words, "%s leaves %s in minute %u, but arrives at %s in minute %u, which is not later.", train.text, station.text, here.departure,
              station_called(fault, next.station).text, next.arrival);
    say_mend(words, "a drive takes at least one minute: let it leave earlier, or arrive later.");
    return 1;
}

void words_of_times(const struct fault *fault, struct words *words)
{
    const uint8_t *body = body_of(fault), *head = nth_body(fault->bytes, TAG_HEAD, 0);
    struct stop last;
    if (body == NULL || head == NULL || fault->field.tag != TAG_TRAIN)
        return;
    for (unsigned i = 0; i < stops_of(fault); i++)
        if (out_of_order(fault, body, i, words))
            return;
    last = stop_at(fault, body, stops_of(fault) - 1);
    words->line = last.line;
    if (last.departure <= number_at(head))
        return;
    say_wrong(words, "%s leaves %s in minute %u, but the last minute is %u.", train_called(fault, fault->field.nth).text,
              station_called(fault, last.station).text, last.departure, number_at(head));
    if (last.departure <= MOST_MINUTE)
        say_mend(words, "let it leave earlier, or make the window longer.");
    else
        say_mend(words, "let it leave earlier; the last minute can be %d at most.", (int)MOST_MINUTE);
}
