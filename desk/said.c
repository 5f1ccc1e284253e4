/* Messages on standard error. */
#include "said.h"

#include <stdarg.h>
#include <stdio.h>

int misused(const char *format, ...)
{
    va_list values;
    fputs("lampreysong: ", stderr);
    va_start(values, format);
    vfprintf(stderr, format, values);
    va_end(values);
    fputc('\n', stderr);
    return MISUSED;
}
