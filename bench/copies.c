/* What the library copies: linked with it under --wrap, notes each call of memcpy and memmove, and makes the same copies again, so that they can be timed
 * alone. A pass over the rows copies those from the first that is asked on to other words, always the same, and then back, run after run.
 * The copies are made again at the same distances from each other in memory of its own: the library's was that of a call that has returned. */
#include <stddef.h>
#include <stdint.h>

enum { MOST = 1 << 20, ROOM = 1 << 20, PAGE = 4096 };

struct copy {
    uintptr_t to, from;
    size_t length;
};

/* What is counted: passes, calls, bytes, and the bytes of rows that a pass puts back at another place than they had. */
struct counted {
    size_t passes, calls, bytes, moved;
};

static struct copy noted[MOST];
static struct counted counted;
static struct copy away; /* the copy with which the last pass began */
static uintptr_t lowest, highest;
static int noting;
static uint8_t room[ROOM] __attribute__((aligned(PAGE)));

void *__real_memcpy(void *to, const void *from, size_t length);
void *__real_memmove(void *to, const void *from, size_t length);

static void reach(uintptr_t start, size_t length)
{
    if (start < lowest)
        lowest = start / PAGE * PAGE;
    if (start + length > highest)
        highest = start + length;
}

static void count(struct copy copy)
{
    if (counted.calls == 0 || copy.to == away.to) {
        away = copy;
        counted.passes++;
    } else if (copy.to - away.from != copy.from - away.to) {
        counted.moved += copy.length;
    }
    counted.calls++;
    counted.bytes += copy.length;
}

static void note(const void *to, const void *from, size_t length)
{
    struct copy copy = {(uintptr_t)to, (uintptr_t)from, length};
    if (!noting)
        return;
    if (counted.calls < MOST)
        noted[counted.calls] = copy;
    count(copy);
    reach(copy.to, length);
    reach(copy.from, length);
}

void *__wrap_memcpy(void *to, const void *from, size_t length)
{
    note(to, from, length);
    return __real_memcpy(to, from, length);
}

void *__wrap_memmove(void *to, const void *from, size_t length)
{
    note(to, from, length);
    return __real_memmove(to, from, length);
}

/* From here on copies are noted, and those before are forgotten. */
void copies_begin(void)
{
    counted = (struct counted){0, 0, 0, 0};
    lowest = UINTPTR_MAX;
    highest = 0;
    noting = 1;
}

/* No more copies are noted. Answers 1 if they can be made again, and 0 if there were too many. */
int copies_end(struct counted *all)
{
    noting = 0;
    *all = counted;
    return counted.calls <= MOST && (counted.calls == 0 || highest - lowest <= ROOM);
}

/* All copies that were noted, once more. */
void copies_again(void)
{
    for (size_t i = 0; i < counted.calls; i++)
        __real_memcpy(room + (noted[i].to - lowest), room + (noted[i].from - lowest), noted[i].length);
}
