/* Refusal 18 in words: couples. */
#include "refusal_words.h"

/* A track as its field has it. */
struct ends {
    unsigned track, from, to, capacity;
};

static struct ends ends_of(const struct fault *fault, unsigned track)
{
    const uint8_t *body = nth_body(fault->bytes, TAG_TRACK, track);
    struct ends ends = {track, 0, 0, 0};
    if (body != NULL)
        ends = (struct ends){track, body[0], body[1], body[2]};
    return ends;
}

static int has_unknown_track(const struct fault *fault, const uint8_t *body, struct words *words)
{
    unsigned tracks = count_before(fault->bytes, TAG_TRACK, fault->field.place), track = body[0] < tracks ? body[1] : body[0];
    if (track < tracks)
        return 0;
    say_wrong(words, "%s has track %u, but there is no track %u.", element_called(fault).text, track, track);
    if (tracks == 0)
        say_mend(words, "the case has no tracks: add them, or take the couple out.");
    else if (tracks == 1)
        say_mend(words, "the only track is 0: add the track back, or take the couple out.");
    else
        say_mend(words, "the tracks are 0 to %u.", tracks - 1);
    return 1;
}

static int has_same_track(const struct fault *fault, const uint8_t *body, struct words *words)
{
    if (body[0] != body[1])
        return 0;
    say_wrong(words, "%s is coupled with itself.", track_called(fault, body[0]).text);
    say_mend(words, "couple it with the track that leads back.");
    return 1;
}

static void say_track(const struct fault *fault, const struct ends *ends, struct words *words)
{
    say_wrong(words, "%s leads from %s to %s.", track_called(fault, ends->track).text, station_called(fault, ends->from).text,
              station_called(fault, ends->to).text);
}

static int does_not_mirror(const struct fault *fault, const struct ends *there, const struct ends *back, struct words *words)
{
    unsigned mirror = track_with_ends(fault, there->to, there->from);
    if (there->from == back->to && there->to == back->from)
        return 0;
    say_wrong(words, "coupled tracks lead there and back between two stations, but these don't.");
    say_track(fault, there, words);
    say_track(fault, back, words);
    if (mirror < count_before(fault->bytes, TAG_TRACK, fault->field.place))
        say_mend(words, "the way back of %s is %s: couple these two.", track_called(fault, there->track).text, track_called(fault, mirror).text);
    else
        say_mend(words, "no track leads from %s to %s: add it, or take the couple out.", station_called(fault, there->to).text,
                 station_called(fault, there->from).text);
    return 1;
}

static int holds_another_number(const struct fault *fault, const struct ends *there, const struct ends *back, struct words *words)
{
    if (there->capacity == back->capacity)
        return 0;
    say_wrong(words, "%s holds %u, but %s holds %u.", track_called(fault, there->track).text, there->capacity, track_called(fault, back->track).text,
              back->capacity);
    say_mend(words, "they are the same rails: let both hold the same number of trains.");
    return 1;
}

/* The first couple before the field that has one of its tracks. */
static void words_of_earlier(const struct fault *fault, const uint8_t *body, struct words *words)
{
    for (unsigned i = 0; i < fault->field.nth; i++) {
        const uint8_t *earlier = nth_body(fault->bytes, TAG_COUPLE, i);
        for (unsigned k = 0; earlier != NULL && k < 4; k++) {
            if (body[k / 2] != earlier[k % 2])
                continue;
            say_wrong(words, "%s is coupled already, with %s.", track_called(fault, body[k / 2]).text, track_called(fault, earlier[1 - k % 2]).text);
            say_wrong(words, "that is %s.", couple_called(fault, i).text);
            say_mend(words, "a track is in one couple at most: take one of the two out.");
            return;
        }
    }
}

void words_of_couple(const struct fault *fault, struct words *words)
{
    const uint8_t *body = body_of(fault);
    struct ends there, back;
    if (body == NULL || fault->field.tag != TAG_COUPLE)
        return;
    if (has_unknown_track(fault, body, words) || has_same_track(fault, body, words))
        return;
    there = ends_of(fault, body[0]);
    back = ends_of(fault, body[1]);
    if (!does_not_mirror(fault, &there, &back, words) && !holds_another_number(fault, &there, &back, words))
        words_of_earlier(fault, body, words);
}
