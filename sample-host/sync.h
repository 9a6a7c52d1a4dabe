/*
 * A mutex and a condition variable over futex words, as a C library has them: most calls don't enter the kernel at all.
 *
 * Threads here give up their turn only where they sleep or say so, so a load and a store after it are one step. On a host with
 * several CPUs they would be one atomic instruction.
 */
#ifndef SYNC_H
#define SYNC_H

#include "host.h"

/* A mutex word is 0 free, 1 locked, 2 locked and perhaps waited for (U. Drepper, "Futexes Are Tricky"). */
void mutex_lock(struct host *h, uint32_t mutex);
void mutex_unlock(struct host *h, uint32_t mutex);

/* A condition's word counts its signals. Both are called with the mutex locked. */
void cond_wait(struct host *h, uint32_t cond, uint32_t mutex);
void cond_broadcast(struct host *h, uint32_t cond, uint32_t mutex);

#endif
