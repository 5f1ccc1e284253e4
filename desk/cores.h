/* How much of the machine this process may use. */
#ifndef DESK_CORES_H
#define DESK_CORES_H

/* The cores that the process may run on; 1 where that can't be learnt. */
unsigned cores_available(void);

#endif
