/* How a test counts what it tries, in C and in C++. */
#ifndef TESTS_TALLY_H
#define TESTS_TALLY_H

#include <stdio.h>

static unsigned passed, failed;

/* One check: what does not hold is named. */
static void expect(int holds, const char *what)
{
    if (holds) {
        passed++;
    } else {
        failed++;
        printf("failed: %s\n", what);
    }
}

/* The last line, 'N passed, M failed', and the exit status. */
static int tally(void)
{
    printf("%u passed, %u failed\n", passed, failed);
    return failed > 0;
}

#endif
