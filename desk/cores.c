/* The cores that the system lets this process run on. */
#define _GNU_SOURCE
#include "cores.h"

#include <sched.h>
#include <unistd.h>

unsigned cores_available(void)
{
    cpu_set_t allowed;
    long online;
    if (sched_getaffinity(0, sizeof allowed, &allowed) == 0 && CPU_COUNT(&allowed) > 0)
        return (unsigned)CPU_COUNT(&allowed);
    online = sysconf(_SC_NPROCESSORS_ONLN);
    return online > 0 ? (unsigned)online : 1;
}
