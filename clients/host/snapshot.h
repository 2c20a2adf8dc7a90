/* How a completion is read that the device may be writing. */
#ifndef NVMEHOST_SNAPSHOT_H
#define NVMEHOST_SNAPSHOT_H

#include <stdbool.h>
#include <stdint.h>

/* Copies the completion at this place, if its phase tag is the expected one. The device writes the tag last, or with the
 * rest, so the double word that has it is read first. */
static inline bool take_snapshot(const volatile uint32_t *at, uint32_t phase, uint32_t entry[4])
{
    entry[3] = at[3];
    if ((entry[3] >> 16 & 1) != phase)
        return false;
    __atomic_thread_fence(__ATOMIC_ACQUIRE);
    for (int i = 0; i < 3; i++)
        entry[i] = at[i];
    return true;
}

#endif
