/* Writing SVG 1.1 with presentation attributes alone, which every reader of SVG knows. */
#include "draw_svg.h"

#include <string.h>

/* ---- text */

enum { REPLACEMENT = 0xfffd, NOTHING_LEFT = 0 };

/* How many bytes the sequence has that begins with this byte; 0 if none does. */
static unsigned sequence_length(unsigned first)
{
    if (first < 0x80)
        return 1;
    if (first < 0xc2 || first > 0xf4)
        return 0;
    return first < 0xe0 ? 2 : first < 0xf0 ? 3 : 4;
}

static int allowed(unsigned long letter)
{
    static const unsigned long least[5] = {0, 0x20, 0xa0, 0x800, 0x10000};
    unsigned bytes = letter < 0x80 ? 1 : letter < 0x800 ? 2 : letter < 0x10000 ? 3 : 4;
    return letter >= least[bytes] && letter != 0x7f && !(letter >= 0xd800 && letter <= 0xdfff) && (letter & 0xfffe) != 0xfffe && letter <= 0x10ffff;
}

/* Takes the next letter of a text and goes past it; NOTHING_LEFT at its end. */
static unsigned long next_letter(const char **text)
{
    static const unsigned mask[5] = {0, 0x7f, 0x1f, 0x0f, 0x07};
    const unsigned char *at = (const unsigned char *)*text;
    unsigned length = sequence_length(*at);
    unsigned long letter = *at & mask[length];
    if (*at == 0)
        return NOTHING_LEFT;
    ++*text;
    for (unsigned i = 1; i < length; i++) {
        if ((at[i] & 0xc0) != 0x80)
            return REPLACEMENT;
        letter = letter << 6 | (at[i] & 0x3f);
    }
    if (length == 0 || !allowed(letter) || (length == 3 && letter < 0x800) || (length == 4 && letter < 0x10000))
        return REPLACEMENT;
    *text += length - 1;
    return letter;
}

static void put_letter(FILE *out, unsigned long letter)
{
    if (letter == '&')
        fputs("&amp;", out);
    else if (letter == '<')
        fputs("&lt;", out);
    else if (letter == '>')
        fputs("&gt;", out);
    else if (letter == '"')
        fputs("&quot;", out);
    else if (letter < 0x80)
        putc((int)letter, out);
    else {
        if (letter < 0x800)
            putc((int)(0xc0 | letter >> 6), out);
        else if (letter < 0x10000)
            fprintf(out, "%c%c", (int)(0xe0 | letter >> 12), (int)(0x80 | (letter >> 6 & 0x3f)));
        else
            fprintf(out, "%c%c%c", (int)(0xf0 | letter >> 18), (int)(0x80 | (letter >> 12 & 0x3f)), (int)(0x80 | (letter >> 6 & 0x3f)));
        putc((int)(0x80 | (letter & 0x3f)), out);
    }
}

void svg_escaped(FILE *out, const char *text)
{
    for (unsigned long letter; (letter = next_letter(&text)) != NOTHING_LEFT;)
        put_letter(out, letter);
}

/* A letter's width in hundredths of its size, as the wider of the common fonts have it. */
static long letter_width(unsigned long letter)
{
    if (letter < 0x80 && strchr("ijl.,:;'|!I", (int)letter) != NULL)
        return 34;
    if (letter < 0x80 && strchr("ftr ()-/", (int)letter) != NULL)
        return 42;
    if (letter < 0x80 && strchr("mwMW@%&<>=+", (int)letter) != NULL)
        return 98;
    if (letter >= 'A' && letter <= 'Z')
        return 71;
    if (letter >= 0x300 && letter < 0x370)
        return 0;
    return letter < 0x300 ? 64 : letter < 0x2e80 ? 80 : 105;
}

static long width_in_hundredths(const char *text)
{
    long width = 0;
    for (unsigned long letter; (letter = next_letter(&text)) != NOTHING_LEFT;)
        width += letter_width(letter);
    return width;
}

long svg_width_of(const char *text, long size)
{
    return (width_in_hundredths(text) * size + 99) / 100;
}

static long width_of_words(struct words words)
{
    long width = svg_width_of(words.text, words.size);
    return words.bold ? width * 11 / 10 : width;
}

/* The size at which words fit their room, and whether they are to be cut even so. */
static long fitted_size(struct words words, int *cut)
{
    long width = width_of_words(words), size = words.size;
    *cut = 0;
    if (words.room > 0 && width > words.room) {
        size = words.size * words.room / width;
        *cut = size < SVG_LEAST;
    }
    return *cut ? SVG_LEAST : size;
}

/* As many letters as fit a width, given in hundredths of their size, and a sign that the rest is left out. */
static void put_cut(FILE *out, const char *text, long width)
{
    width -= letter_width(0x2026);
    for (unsigned long letter; (letter = next_letter(&text)) != NOTHING_LEFT && (width -= letter_width(letter)) >= 0;)
        put_letter(out, letter);
    put_letter(out, 0x2026);
}

void svg_words(FILE *out, struct words words)
{
    static const char *const anchors[] = {"", " text-anchor=\"middle\"", " text-anchor=\"end\""};
    int cut;
    long size = fitted_size(words, &cut);
    fprintf(out, "<text x=\"%ld\" y=\"%ld\" font-size=\"%ld\"%s%s>", words.x, words.y, size, anchors[words.anchor], words.bold ? " font-weight=\"bold\"" : "");
    if (cut)
        put_cut(out, words.text, words.room * 100 / size * 10 / (words.bold ? 11 : 10));
    else
        svg_escaped(out, words.text);
    fputs("</text>\n", out);
}

struct box svg_box_of(struct words words)
{
    int cut;
    long size = fitted_size(words, &cut), width = width_of_words(words) * size / words.size;
    struct box box = {words.x, words.y - size * 8 / 10, width, size};
    if (cut || (words.room > 0 && box.width > words.room))
        box.width = words.room;
    if (words.anchor != FROM_HERE)
        box.left -= words.anchor == AROUND_HERE ? box.width / 2 : box.width;
    return box;
}

void svg_label(FILE *out, struct words words)
{
    svg_rect(out, svg_box_of(words), "fill=\"#fff\" fill-opacity=\"0.85\"");
    svg_words(out, words);
}

/* ---- shapes */

void svg_begin(FILE *out, const char *title, long height)
{
    long wide = SVG_WIDTH + 2 * SVG_MARGIN, high = height + 2 * SVG_MARGIN;
    fprintf(out,
            "<?xml version=\"1.0\" encoding=\"UTF-8\"?>\n<svg xmlns=\"http://www.w3.org/2000/svg\" version=\"1.1\" width=\"%ld.%02ldmm\" height=\"%ld.%02ldmm\""
            " viewBox=\"%d %d %ld %ld\" font-family=\"sans-serif\">\n<title>",
            wide / 100, wide % 100, high / 100, high % 100, -(int)SVG_MARGIN, -(int)SVG_MARGIN, wide, high);
    svg_escaped(out, title);
    fprintf(out,
            "</title>\n<defs><pattern id=\"hatched\" patternUnits=\"userSpaceOnUse\" width=\"90\" height=\"90\" patternTransform=\"rotate(45)\">"
            "<rect x=\"0\" y=\"0\" width=\"90\" height=\"90\" fill=\"#fff\"/>"
            "<rect x=\"0\" y=\"0\" width=\"30\" height=\"90\" fill=\"#333\"/></pattern></defs>\n"
            "<rect x=\"%d\" y=\"%d\" width=\"%ld\" height=\"%ld\" fill=\"#fff\"/>\n",
            -(int)SVG_MARGIN, -(int)SVG_MARGIN, wide, high);
}

void svg_end(FILE *out)
{
    fputs("</svg>\n", out);
}

void svg_rect(FILE *out, struct box box, const char *style)
{
    fprintf(out, "<rect x=\"%ld\" y=\"%ld\" width=\"%ld\" height=\"%ld\" %s/>\n", box.left, box.top, box.width, box.height, style);
}

void svg_across(FILE *out, struct box line, const char *style)
{
    fprintf(out, "<path d=\"M%ld %ldH%ld\" fill=\"none\" %s/>\n", line.left, line.top, line.left + line.width, style);
}

void svg_upright(FILE *out, struct box line, const char *style)
{
    fprintf(out, "<path d=\"M%ld %ldV%ld\" fill=\"none\" %s/>\n", line.left, line.top, line.top + line.height, style);
}

/* ---- room for labels */

int svg_meets(struct box a, struct box b)
{
    return a.left < b.left + b.width && b.left < a.left + a.width && a.top < b.top + b.height && b.top < a.top + a.height;
}

int svg_take(struct boxes *boxes, struct box box)
{
    for (unsigned i = 0; i < boxes->count; i++)
        if (svg_meets(boxes->at[i], box))
            return 0;
    if (boxes->count == SVG_MOST_BOXES)
        return 0;
    boxes->at[boxes->count++] = box;
    return 1;
}

unsigned svg_minute_step(unsigned minutes, long width, long least)
{
    static const unsigned steps[] = {1, 2, 5, 10, 15, 20, 30, 60, 120, 240};
    for (size_t i = 0; i < sizeof steps / sizeof *steps; i++)
        if ((long)steps[i] * width >= least * (long)minutes)
            return steps[i];
    return 720;
}
