/* Numbers in words of a command line or a text, judged strictly. */
#ifndef DESK_NUMBERS_H
#define DESK_NUMBERS_H

/* Whether the word is a whole number in decimal digits, without sign, space or leading zero, of at most `most`; if so, it is stored. */
int read_number(const char *word, unsigned long most, unsigned long *number);

#endif
