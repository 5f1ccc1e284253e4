/* An SVG picture, written piece by piece. Lengths are hundredths of a millimetre on paper, counted from the top left corner, and always whole numbers. */
#ifndef DESK_DRAW_SVG_H
#define DESK_DRAW_SVG_H

#include <stdio.h>

/* What is drawn on has a margin of its own around it, and with it still fits A4. */
enum { SVG_WIDTH = 19000, SVG_MOST_HEIGHT = 27700, SVG_MARGIN = 250 };

/* Sizes of letters. */
enum { SVG_LEAST = 150, SVG_TINY = 210, SVG_SMALL = 235, SVG_NORMAL = 265, SVG_HEADING = 310, SVG_TITLE = 440 };

enum anchor { FROM_HERE, AROUND_HERE, UP_TO_HERE };

/* A line of text; `y` is its foot. With a room, letters shrink to fit it, and what then still does not fit is cut off. */
struct words {
    const char *text;
    long x, y, size, room;
    enum anchor anchor;
    int bold;
};

struct box {
    long left, top, width, height;
};

/* The boxes that labels take, so that no two meet. */
enum { SVG_MOST_BOXES = 800 };
struct boxes {
    unsigned count;
    struct box at[SVG_MOST_BOXES];
};

/* Begins a picture of a height, with its title for readers that can't see, a white ground, and a hatching to fill with: `url(#hatched)`. */
void svg_begin(FILE *out, const char *title, long height);
void svg_end(FILE *out);

/* Text as XML has it: & < > " escaped, and what is not UTF-8 or not allowed replaced. */
void svg_escaped(FILE *out, const char *text);

void svg_words(FILE *out, struct words words);

/* A label: words on a ground of white. */
void svg_label(FILE *out, struct words words);

/* About how wide a text is at most in common letters of a size. */
long svg_width_of(const char *text, long size);

/* The box that words take. */
struct box svg_box_of(struct words words);

void svg_rect(FILE *out, struct box box, const char *style);
void svg_across(FILE *out, struct box line, const char *style);  /* from its left, as long as it is wide; no height */
void svg_upright(FILE *out, struct box line, const char *style); /* from its top, as long as it is high; no width */

/* Takes a box if it meets no box that is taken. */
int svg_take(struct boxes *boxes, struct box box);
int svg_meets(struct box a, struct box b);

/* The smallest step of minutes in common use that is at least `least` long, if a whole window of `minutes` is as wide as `width`. */
unsigned svg_minute_step(unsigned minutes, long width, long least);

#endif
