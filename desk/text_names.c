/* Names of a text, looked up and compared letter by letter. */
#include "text_names.h"

#include <string.h>

static const char statement_keywords[][9] = {"title", "window", "safety", "room", "station", "track", "couple", "delays", "train"};
static const char part_keywords[][9] = {"holds", "from", "to", "type", "priority"};

#define COUNT(list) (unsigned)(sizeof(list) / sizeof *(list))

static int is_letter(char byte)
{
    return (byte >= 'a' && byte <= 'z') || (byte >= 'A' && byte <= 'Z') || (unsigned char)byte > 127;
}

static int has_letter(const struct word *word)
{
    for (size_t i = 0; i < word->length; i++)
        if (is_letter(word->at[i]))
            return 1;
    return 0;
}

int is_keyword(const struct word *word)
{
    for (unsigned i = 0; i < COUNT(statement_keywords); i++)
        if (is_word(word, statement_keywords[i]))
            return 1;
    for (unsigned i = 0; i < COUNT(part_keywords); i++)
        if (is_word(word, part_keywords[i]))
            return 1;
    return 0;
}

int is_name(const struct word *word)
{
    if (word->kind == QUOTED)
        return word->length > 0;
    return word->kind == PLAIN && has_letter(word) && !is_keyword(word);
}

int needs_quotes(const char *name)
{
    struct word word = {PLAIN, name, strlen(name), 0, 0};
    return !is_name(&word) || strpbrk(name, " #") != NULL;
}

/* ---- names of one kind */

struct names station_names(const struct level *level)
{
    return (struct names){level->station[0].name, sizeof level->station[0], level->stations};
}

struct names track_names(const struct level *level)
{
    return (struct names){level->track[0].name, sizeof level->track[0], level->tracks};
}

struct names train_names(const struct level *level)
{
    return (struct names){level->train[0].name, sizeof level->train[0], level->trains};
}

struct names table_names(const struct tables *tables)
{
    return (struct names){tables->table[0].name, sizeof tables->table[0], tables->count};
}

static const char *name_at(const struct names *names, unsigned i)
{
    return names->first + i * names->apart;
}

unsigned find_name(const struct names *names, const struct word *word)
{
    unsigned i = 0;
    while (i < names->count && (strlen(name_at(names, i)) != word->length || memcmp(name_at(names, i), word->at, word->length) != 0))
        i++;
    return i;
}

/* ---- names that are near */

enum nearness { FAR, CHANGED, MISSING, SWAPPED, CAPITALS };

/* A word as letters, a UTF-8 character being one; longer words than a name and a letter more are cut. */
struct letters {
    unsigned long at[NAME_BYTES + 2];
    unsigned count;
};

static struct letters letters_of(const char *at, size_t length)
{
    struct letters letters = {{0}, 0};
    for (size_t i = 0; i < length; i++) {
        unsigned char byte = (unsigned char)at[i];
        if ((byte & 0xC0) == 0x80 && letters.count > 0)
            letters.at[letters.count - 1] = letters.at[letters.count - 1] << 8 | byte;
        else if (letters.count < NAME_BYTES + 2)
            letters.at[letters.count++] = byte;
        else
            break;
    }
    return letters;
}

static unsigned long small(unsigned long letter)
{
    return letter >= 'A' && letter <= 'Z' ? letter - 'A' + 'a' : letter;
}

static int is_digit(unsigned long letter)
{
    return letter >= '0' && letter <= '9';
}

static int differ_in_capitals(const struct letters *a, const struct letters *b)
{
    for (unsigned i = 0; i < a->count && i < b->count; i++)
        if (small(a->at[i]) != small(b->at[i]))
            return 0;
    return a->count == b->count;
}

/* Another digit is no slip of the pen, and words of one letter are never near. */
static enum nearness nearness(const struct letters *a, const struct letters *b)
{
    unsigned same = 0, tail = 0, rest_a, rest_b;
    if (differ_in_capitals(a, b))
        return CAPITALS;
    if (a->count < 2 || b->count < 2)
        return FAR;
    while (same < a->count && same < b->count && a->at[same] == b->at[same])
        same++;
    while (tail < a->count - same && tail < b->count - same && a->at[a->count - 1 - tail] == b->at[b->count - 1 - tail])
        tail++;
    rest_a = a->count - same - tail;
    rest_b = b->count - same - tail;
    if (rest_a + rest_b == 1)
        return MISSING;
    if (rest_a == 2 && rest_b == 2 && a->at[same] == b->at[same + 1] && a->at[same + 1] == b->at[same])
        return SWAPPED;
    return rest_a == 1 && rest_b == 1 && !(is_digit(a->at[same]) && is_digit(b->at[same])) ? CHANGED : FAR;
}

const char *nearest_name(const struct names *names, const struct word *word)
{
    struct letters wrong = letters_of(word->at, word->length);
    const char *nearest = NULL;
    enum nearness most = FAR;
    for (unsigned i = 0; i < names->count; i++) {
        const char *name = name_at(names, i);
        struct letters right = letters_of(name, strlen(name));
        enum nearness near = nearness(&wrong, &right);
        if (near > most) {
            most = near;
            nearest = name;
        }
    }
    return nearest;
}

const char *nearest_statement(const struct word *word)
{
    struct names keywords = {statement_keywords[0], sizeof statement_keywords[0], COUNT(statement_keywords)};
    return word->kind == PLAIN ? nearest_name(&keywords, word) : NULL;
}
