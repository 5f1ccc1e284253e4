/* Whole numbers, digit by digit. */
#include "numbers.h"

int read_number(const char *word, unsigned long most, unsigned long *number)
{
    unsigned long sum = 0;
    if (*word == '\0' || (word[0] == '0' && word[1] != '\0'))
        return 0;
    for (; *word != '\0'; word++) {
        unsigned long digit = (unsigned long)(*word - '0');
        if (*word < '0' || *word > '9' || digit > most || sum > (most - digit) / 10)
            return 0;
        sum = sum * 10 + digit;
    }
    *number = sum;
    return 1;
}
