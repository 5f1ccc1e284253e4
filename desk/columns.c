/* Padding by characters. */
#include "columns.h"

unsigned columns_of(const char *text)
{
    unsigned columns = 0;
    for (; *text != '\0'; text++)
        columns += ((unsigned char)*text & 0xc0) != 0x80; /* not a later byte of a character */
    return columns;
}

void print_left(FILE *out, const char *text, unsigned columns)
{
    fputs(text, out);
    for (unsigned taken = columns_of(text); taken < columns; taken++)
        fputc(' ', out);
}

unsigned train_columns(const struct level *level)
{
    unsigned most = columns_of("train");
    for (unsigned k = 0; k < level->trains; k++) {
        unsigned columns = columns_of(level->train[k].name);
        most = columns > most ? columns : most;
    }
    return most;
}

unsigned digits_of(uint64_t number)
{
    unsigned digits = 1;
    for (; number >= 10; number /= 10)
        digits++;
    return digits;
}

void print_title(FILE *out, const struct level *level)
{
    if (level->title[0] != '\0')
        fprintf(out, "%s\n", level->title);
}
