/* FUTEX_WAKE_OP as the Linux does it that the program runs on, on real futexes with a thread asleep at each. */
#ifndef LINUX_FUTEXES_H
#define LINUX_FUTEXES_H

#include <stdbool.h>
#include <stdint.h>

/* A WAKE_OP with both caps 1, and one sleeper at uaddr and one at uaddr2. */
struct wake_op {
    uint32_t op, cmp;
    int32_t oparg, cmparg;
    uint32_t old; /* what stands at uaddr2 before */
};

/* What it did. */
struct outcome {
    int32_t answer;     /* how many were released, or an errno number, negated */
    uint32_t word;      /* what stands at uaddr2 afterwards */
    bool woken, woken2; /* whether the sleeper at uaddr was released, and the one at uaddr2 */
};

/* Prints a line and ends the program. */
void fail(const char *what);

/* Makes so many calls, each on two words of its own. */
enum { BATCH = 100 };
void linux_wake_ops(const struct wake_op calls[BATCH], struct outcome outcomes[BATCH]);

#endif
