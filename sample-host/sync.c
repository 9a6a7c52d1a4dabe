#include "sync.h"

/* Locks with 2: whoever slept cannot know whether others still do, so the unlock must wake. */
static void lock_contended(struct host *h, uint32_t mutex)
{
    while (load(h, mutex) != 0) {
        store(h, mutex, 2);
        say(h, "waits for mutex %u", (unsigned)mutex);
        futex(h, (struct futex){.op = VRADOMIL_WAIT, .uaddr = mutex, .val = 2});
    }
    store(h, mutex, 2);
}

void mutex_lock(struct host *h, uint32_t mutex)
{
    if (load(h, mutex) == 0)
        store(h, mutex, 1);
    else
        lock_contended(h, mutex);
}

void mutex_unlock(struct host *h, uint32_t mutex)
{
    uint32_t old = load(h, mutex);
    store(h, mutex, 0);
    if (old == 2) {
        int32_t woken = futex(h, (struct futex){.op = VRADOMIL_WAKE, .uaddr = mutex, .val = 1});
        say(h, "unlocks mutex %u, wakes %d", (unsigned)mutex, (int)woken);
    }
}

/* The count is read before the unlock: a signal that comes in between changes it, and the wait is -11 in place of a lost wake. */
void cond_wait(struct host *h, uint32_t cond, uint32_t mutex)
{
    uint32_t count = load(h, cond);
    mutex_unlock(h, mutex);
    say(h, "waits for condition %u", (unsigned)cond);
    futex(h, (struct futex){.op = VRADOMIL_WAIT, .uaddr = cond, .val = count});
    lock_contended(h, mutex);
}

/* Wakes one and moves the others to the mutex, where each unlock wakes the next: all at once would only meet at the mutex. */
void cond_broadcast(struct host *h, uint32_t cond, uint32_t mutex)
{
    uint32_t count = load(h, cond) + 1;
    store(h, cond, count);
    store(h, mutex, 2);
    int32_t answer = futex(h, (struct futex){.op = VRADOMIL_CMP_REQUEUE,
                                             .uaddr = cond,
                                             .val = 1,
                                             .uaddr2 = mutex,
                                             .cap2 = VRADOMIL_ALL,
                                             .val3 = count});
    say(h, "broadcasts condition %u: %d woken or moved", (unsigned)cond, (int)answer);
}
