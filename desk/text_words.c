/* Words of a text: blanks and comments passed, quotes taken off, lines and columns counted. */
#include "text_words.h"

#include <stdarg.h>
#include <stdio.h>
#include <string.h>

#include "numbers.h"

enum { SAID_CHARACTERS = 40, MOST_DIGITS = 10, AT_END = -1 };

static const char byte_order_mark[] = "\xEF\xBB\xBF";

void begin_words(struct reader *reader, const struct text *text, struct text_error *error)
{
    size_t mark = sizeof byte_order_mark - 1;
    reader->text = text;
    reader->at = text->length >= mark && memcmp(text->at, byte_order_mark, mark) == 0 ? mark : 0;
    reader->line = reader->column = 1;
    reader->raw = 0;
    reader->error = error;
}

/* ---- characters */

static int byte_here(const struct reader *reader)
{
    return reader->at < reader->text->length ? (unsigned char)reader->text->at[reader->at] : AT_END;
}

static int is_blank(int byte)
{
    return byte == ' ' || byte == '\t';
}

static int ends_line(int byte)
{
    return byte == '\n' || byte == '\r' || byte == AT_END;
}

/* How many bytes the UTF-8 character at the reader's place has, and its number; 0 if none stands there. */
static size_t character_here(const struct reader *reader, unsigned long *number)
{
    static const unsigned long least[] = {0, 0, 0x80, 0x800, 0x10000};
    const unsigned char *at = (const unsigned char *)reader->text->at + reader->at;
    size_t size = at[0] < 0x80 ? 1 : at[0] < 0xE0 ? 2 : at[0] < 0xF0 ? 3 : 4;
    if ((at[0] >= 0x80 && at[0] < 0xC0) || at[0] >= 0xF8 || size > reader->text->length - reader->at)
        return 0;
    *number = size == 1 ? at[0] : at[0] & (0x7Fu >> size);
    for (size_t i = 1; i < size; i++) {
        if ((at[i] & 0xC0) != 0x80)
            return 0;
        *number = *number << 6 | (at[i] & 0x3F);
    }
    return *number < least[size] || *number > 0x10FFFF || (*number >= 0xD800 && *number <= 0xDFFF) ? 0 : size;
}

/* Control characters, spaces that are no ordinary ones, marks that print nothing, and what no text may hold. */
static int is_unseen(unsigned long number)
{
    static const unsigned long ranges[][2] = {{0, 0x1F},         {0x7F, 0xA0},       {0xAD, 0xAD},     {0x2000, 0x200B},  {0x200E, 0x200F}, {0x2028, 0x202F},
                                              {0x205F, 0x206F}, {0x3000, 0x3000}, {0xFEFF, 0xFEFF}, {0xFFFE, 0xFFFF}};
    for (size_t i = 0; i < sizeof ranges / sizeof *ranges; i++)
        if (number >= ranges[i][0] && number <= ranges[i][1])
            return 1;
    return 0;
}

static struct word word_here(const struct reader *reader)
{
    return (struct word){PLAIN, reader->text->at + reader->at, 0, reader->line, reader->column};
}

static int pass_character(struct reader *reader)
{
    struct word here = word_here(reader);
    unsigned long number;
    size_t size = character_here(reader, &number);
    if (size == 0)
        return refuse(reader->error, &here, "this is no UTF-8 character (byte %d); save the text as UTF-8", byte_here(reader));
    if (is_unseen(number))
        return refuse(reader->error, &here, "a character that can't be seen stands here (U+%04lX); take it out, or write a space", number);
    reader->at += size;
    reader->column++;
    return 1;
}

/* ---- words */

/* A line ends with a line feed, a carriage return, or both. */
static void pass_line_end(struct reader *reader)
{
    if (byte_here(reader) == '\r' && reader->at + 1 < reader->text->length && reader->text->at[reader->at + 1] == '\n')
        reader->at++;
    reader->at++;
    reader->line++;
    reader->column = 1;
}

static int plain_word(struct reader *reader, struct word *word)
{
    int byte;
    while (byte = byte_here(reader), !is_blank(byte) && !ends_line(byte) && byte != '#') {
        struct word here = word_here(reader);
        if (byte == '"' && !reader->raw)
            return refuse(reader->error, &here, "a double quote stands within a word; put quotes around the whole name, and a space after it");
        if (!pass_character(reader))
            return 0;
    }
    word->length = (size_t)(reader->text->at + reader->at - word->at);
    return 1;
}

static int quoted_word(struct reader *reader, struct word *word)
{
    int byte;
    struct word here;
    reader->at++;
    reader->column++;
    word->kind = QUOTED;
    word->at++;
    while (byte = byte_here(reader), byte != '"') {
        if (ends_line(byte))
            return refuse(reader->error, word, "a name begins with this double quote, and the line ends without a second one");
        if (!pass_character(reader))
            return 0;
    }
    word->length = (size_t)(reader->text->at + reader->at - word->at);
    reader->at++;
    reader->column++;
    here = word_here(reader);
    byte = byte_here(reader);
    if (!is_blank(byte) && !ends_line(byte) && byte != '#')
        return refuse(reader->error, &here, "a space is expected after a name in double quotes");
    return 1;
}

int next_word(struct reader *reader, struct word *word)
{
    for (; is_blank(byte_here(reader)); reader->at++)
        reader->column++;
    *word = word_here(reader);
    if (byte_here(reader) == '#')
        while (!ends_line(byte_here(reader)))
            reader->at++;
    if (byte_here(reader) == AT_END) {
        word->kind = TEXT_ENDS;
        return 1;
    }
    if (ends_line(byte_here(reader))) {
        word->kind = LINE_ENDS;
        pass_line_end(reader);
        return 1;
    }
    return byte_here(reader) == '"' && !reader->raw ? quoted_word(reader, word) : plain_word(reader, word);
}

int ends(const struct word *word)
{
    return word->kind == LINE_ENDS || word->kind == TEXT_ENDS;
}

int is_word(const struct word *word, const char *this_one)
{
    return word->kind == PLAIN && word->length == strlen(this_one) && memcmp(word->at, this_one, word->length) == 0;
}

int is_number(const struct word *word, unsigned most, unsigned *number)
{
    char digits[MOST_DIGITS + 1];
    unsigned long value;
    if (word->kind != PLAIN || word->length > MOST_DIGITS)
        return 0;
    memcpy(digits, word->at, word->length);
    digits[word->length] = '\0';
    if (!read_number(digits, most, &value))
        return 0;
    *number = (unsigned)value;
    return 1;
}

/* ---- errors */

/* How many bytes of a word are said: whole characters, as many as an error has place for. */
static size_t said_length(const struct word *word)
{
    size_t characters = 0, i;
    for (i = 0; i < word->length; i++)
        if (((unsigned char)word->at[i] & 0xC0) != 0x80 && ++characters > SAID_CHARACTERS)
            break;
    return i;
}

struct said_word said_word(const struct word *word)
{
    struct said_word said;
    size_t length = said_length(word);
    const char *quote = word->kind == QUOTED ? "\"" : "", *cut = length < word->length ? ".." : "";
    snprintf(said.text, sizeof said.text, "`%s%.*s%s%s`", quote, (int)length, word->at, cut, quote);
    return said;
}

static void begin_error(struct text_error *error, const struct word *word)
{
    error->line = word->line;
    error->column = word->column;
}

int refuse(struct text_error *error, const struct word *word, const char *format, ...)
{
    va_list values;
    begin_error(error, word);
    va_start(values, format);
    vsnprintf(error->words, sizeof error->words, format, values);
    va_end(values);
    return 0;
}

void add_words(struct text_error *error, const char *format, ...)
{
    size_t length = strlen(error->words);
    va_list values;
    va_start(values, format);
    vsnprintf(error->words + length, sizeof error->words - length, format, values);
    va_end(values);
}

int expected(struct text_error *error, const struct word *word, const char *format, ...)
{
    va_list values;
    begin_error(error, word);
    va_start(values, format);
    vsnprintf(error->words, sizeof error->words, format, values);
    va_end(values);
    if (ends(word))
        add_words(error, ", and the %s ends here", word->kind == LINE_ENDS ? "line" : "text");
    else
        add_words(error, ", and %s stands here", said_word(word).text);
    return 0;
}
