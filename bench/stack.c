/* The stack that the exports need: runs another program's `main` (compiled with -Dmain=inner) in a thread on a stack all of whose bytes were marked, and
 * prints to standard error how many bytes from its top on were touched, the thread's own some 3,000 included. */
#include <pthread.h>
#include <stdint.h>
#include <stdio.h>
#include <string.h>

enum { SIZE = 1 << 20, PAGE = 4096, MARK = 0xA5 };

int inner(int count, char **words);

static uint8_t stack[SIZE] __attribute__((aligned(PAGE)));
static int count, status;
static char **words;

static void *call(void *nothing)
{
    status = inner(count, words);
    return nothing;
}

int main(int given, char **arguments)
{
    pthread_attr_t lent;
    pthread_t thread;
    size_t untouched = 0;
    count = given;
    words = arguments;
    memset(stack, MARK, sizeof stack);
    pthread_attr_init(&lent);
    if (pthread_attr_setstack(&lent, stack, sizeof stack) != 0 || pthread_create(&thread, &lent, call, NULL) != 0)
        return 2;
    pthread_join(thread, NULL);
    while (untouched < sizeof stack && stack[untouched] == MARK)
        untouched++;
    fprintf(stderr, "%zu\n", sizeof stack - untouched);
    return status;
}
