#include "linux-futexes.h"

#include <errno.h>
#include <linux/futex.h>
#include <pthread.h>
#include <sched.h>
#include <stdatomic.h>
#include <stdio.h>
#include <stdlib.h>
#include <sys/syscall.h>
#include <time.h>
#include <unistd.h>

/* After so many seconds a thread that doesn't come to its next step is given up. */
enum { PATIENCE = 20, STACK_BYTES = 65536 };

/*
 * A thread sleeps once and ends. If it slept again, a wake could reach it that was meant for the sleep before and was late: it
 * would leave the queue for a moment, and a WAKE_OP in that moment would miss it.
 */
struct sleeper {
    uint32_t word, value; /* the word, and what stands there before the call */
    atomic_bool woken;
    pthread_t thread;
};

void fail(const char *what)
{
    printf("compare-linux: %s\n", what);
    exit(1);
}

/* Not private: the kernel lays out anew what it keeps of private futexes as threads come, and a thread may then queue up again. */
static long futex(uint32_t *uaddr, int op, uint32_t val, uintptr_t val2, uint32_t *uaddr2, uint32_t val3)
{
    return syscall(SYS_futex, uaddr, op, val, val2, uaddr2, val3);
}

static struct timespec limit(void)
{
    struct timespec t;
    clock_gettime(CLOCK_MONOTONIC, &t);
    t.tv_sec += PATIENCE;
    return t;
}

static void *sleep_once(void *argument)
{
    struct sleeper *s = argument;
    if (futex(&s->word, FUTEX_WAIT, s->value, 0, NULL, 0) != 0)
        fail("Linux refused a FUTEX_WAIT");
    atomic_store(&s->woken, true);
    return NULL;
}

static void start(struct sleeper *s, uint32_t value, const pthread_attr_t *attributes)
{
    s->word = s->value = value;
    atomic_store(&s->woken, false);
    if (pthread_create(&s->thread, attributes, sleep_once, s) != 0)
        fail("a thread could not be started");
}

/* A requeue from a word to the same word changes nothing, and its count says whether somebody is asleep there. */
static void await_sleep(struct sleeper *s)
{
    struct timespec now, last = limit();
    long asleep;
    while ((asleep = futex(&s->word, FUTEX_CMP_REQUEUE, 0, 1, &s->word, s->value)) == 0) {
        clock_gettime(CLOCK_MONOTONIC, &now);
        if (now.tv_sec > last.tv_sec)
            fail("a thread did not fall asleep");
        sched_yield();
    }
    if (asleep != 1)
        fail("Linux refused a FUTEX_CMP_REQUEUE");
}

/* Whether the call released a sleeper. If not, it is there to be woken, and is woken now. */
static bool was_released(struct sleeper *s)
{
    bool woken = atomic_load(&s->woken);
    long left = futex(&s->word, FUTEX_WAKE, 1, 0, NULL, 0);
    if (left < 0 || (left > 0 && woken))
        fail("a thread ran that Linux has asleep");
    return left == 0;
}

static void await_end(struct sleeper *s)
{
    struct timespec last = limit();
    if (pthread_clockjoin_np(s->thread, NULL, CLOCK_MONOTONIC, &last) != 0)
        fail("a thread that was released did not run");
}

static size_t stack_bytes(void)
{
    long least = sysconf(_SC_THREAD_STACK_MIN);
    return least > STACK_BYTES ? (size_t)least : STACK_BYTES;
}

void linux_wake_ops(const struct wake_op calls[BATCH], struct outcome outcomes[BATCH])
{
    static struct sleeper first[BATCH], second[BATCH];
    pthread_attr_t attributes;
    if (pthread_attr_init(&attributes) != 0 || pthread_attr_setstacksize(&attributes, stack_bytes()) != 0)
        fail("a thread cannot have so small a stack");
    for (size_t k = 0; k < BATCH; k++) {
        start(&first[k], 0, &attributes);
        start(&second[k], calls[k].old, &attributes);
    }
    pthread_attr_destroy(&attributes);
    for (size_t k = 0; k < BATCH; k++) {
        await_sleep(&first[k]);
        await_sleep(&second[k]);
    }
    for (size_t k = 0; k < BATCH; k++) {
        const struct wake_op *c = &calls[k];
        uint32_t val3 = FUTEX_OP(c->op, c->oparg, c->cmp, c->cmparg);
        long answer = futex(&first[k].word, FUTEX_WAKE_OP, 1, 1, &second[k].word, val3);
        outcomes[k].answer = answer == -1 ? -errno : (int32_t)answer;
        outcomes[k].word = second[k].word;
    }
    for (size_t k = 0; k < BATCH; k++) {
        outcomes[k].woken = was_released(&first[k]);
        outcomes[k].woken2 = was_released(&second[k]);
    }
    for (size_t k = 0; k < BATCH; k++) {
        await_end(&first[k]);
        await_end(&second[k]);
    }
}
