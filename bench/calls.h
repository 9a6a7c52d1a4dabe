/*
 * What plain.c and tuned.c have in common: the rules of a call once the tables are sound. They differ in how they check the tables
 * and how they change the list, so each defines release and requeue_sleepers for itself.
 */
#ifndef CALLS_H
#define CALLS_H

#include "../include/vradomil.h"

#include <stdbool.h>
#include <string.h>

#define THREADS VRADOMIL_THREADS
#define WORD_AREA (4 * VRADOMIL_WORDS_PER_PROCESS)
#define ALL_ONES UINT32_MAX

typedef struct vradomil_tables tables_t;

/* The arguments of a call that has passed the tests up to -16. */
struct call {
    tables_t *t;
    uint8_t *area; /* the words of the caller's process */
    size_t process;
    size_t caller;
    uint32_t op;
    uint32_t uaddr;
    uint32_t val;
    bool timed;
    uint64_t timeout;
    uint32_t uaddr2;
    uint32_t cap2;
    uint32_t val3;
    uint8_t *places; /* where each thread of the process stands in the list, from 1, or 0; only tuned.c has it */
};

struct requeued {
    int32_t released, moved;
};

/* Ends cap sleeps at a word whose mask shares a bit: those of higher priority, and the first among equals. Says how many. */
static inline int32_t release(const struct call *c, uint32_t uaddr, uint32_t mask, uint32_t cap);

/* Ends val sleeps at uaddr, in the same order; the next, up to cap2, go to uaddr2 and to the end of the list. */
static inline struct requeued requeue_sleepers(const struct call *c);

static inline uint32_t load(const uint8_t *word)
{
    uint32_t value;
    memcpy(&value, word, sizeof value);
    return value;
}

static inline uint64_t saturating_add(uint64_t a, uint64_t b)
{
    return a + b < a ? UINT64_MAX : a + b;
}

/* A thread whose sleep ends. The list is the caller's to mend. */
static inline void run_again(tables_t *t, size_t thread, uint8_t last)
{
    t->waiting[thread] = 0;
    t->timed[thread] = 0;
    t->last[thread] = last;
    t->uaddr[thread] = 0;
    t->bitset[thread] = 0;
    t->deadline[thread] = 0;
}

/* The list has room: it is of sound tables, and the caller runs. */
static inline int32_t wait(const struct call *c, uint32_t mask, uint64_t deadline)
{
    tables_t *t = c->t;
    if (c->uaddr % 4 != 0 || mask == 0)
        return VRADOMIL_EINVAL;
    if (c->uaddr >= WORD_AREA)
        return VRADOMIL_EFAULT;
    if (load(c->area + c->uaddr) != c->val)
        return VRADOMIL_EAGAIN;
    if (c->timed && deadline <= t->clock)
        return VRADOMIL_ETIMEDOUT;
    t->waiting[c->caller] = 1;
    t->timed[c->caller] = c->timed;
    t->uaddr[c->caller] = c->uaddr;
    t->bitset[c->caller] = mask;
    t->deadline[c->caller] = c->timed ? deadline : 0;
    t->list[t->count++] = (uint8_t)c->caller;
    return VRADOMIL_ASLEEP;
}

static inline int32_t wake(const struct call *c, uint32_t mask)
{
    if (c->val > VRADOMIL_ALL || mask == 0 || c->uaddr % 4 != 0)
        return VRADOMIL_EINVAL;
    if (c->uaddr >= WORD_AREA)
        return VRADOMIL_EFAULT;
    return release(c, c->uaddr, mask, c->val);
}

/* -22 and -14 of the commands with two addresses and two caps; else 0. */
static inline int32_t refuse_two(const struct call *c)
{
    if (c->val > VRADOMIL_ALL || c->cap2 > VRADOMIL_ALL || c->uaddr % 4 != 0 || c->uaddr2 % 4 != 0)
        return VRADOMIL_EINVAL;
    if (c->uaddr >= WORD_AREA || c->uaddr2 >= WORD_AREA)
        return VRADOMIL_EFAULT;
    return 0;
}

static inline int32_t requeue(const struct call *c, bool compare)
{
    int32_t refusal = c->uaddr == c->uaddr2 ? VRADOMIL_EINVAL : refuse_two(c);
    if (refusal != 0)
        return refusal;
    if (compare && load(c->area + c->uaddr) != c->val3)
        return VRADOMIL_EAGAIN;
    struct requeued n = requeue_sleepers(c);
    return compare ? n.released + n.moved : n.released;
}

/* oparg or cmparg, from the 12 bits that it has in val3. */
static inline int32_t signed_field(uint32_t bits)
{
    return bits < 2048 ? (int32_t)bits : (int32_t)bits - 4096;
}

static inline uint32_t operate(uint32_t op, int32_t oparg, uint32_t old)
{
    uint32_t operand = op & VRADOMIL_OP_SHIFT ? UINT32_C(1) << (oparg & 31) : (uint32_t)oparg;
    switch (op & 7) {
    case VRADOMIL_OP_SET:
        return operand;
    case VRADOMIL_OP_ADD:
        return old + operand;
    case VRADOMIL_OP_OR:
        return old | operand;
    case VRADOMIL_OP_ANDN:
        return old & ~operand;
    default:
        return old ^ operand;
    }
}

static inline bool compares(uint32_t cmp, int32_t old, int32_t cmparg)
{
    switch (cmp) {
    case VRADOMIL_CMP_EQ:
        return old == cmparg;
    case VRADOMIL_CMP_NE:
        return old != cmparg;
    case VRADOMIL_CMP_LT:
        return old < cmparg;
    case VRADOMIL_CMP_LE:
        return old <= cmparg;
    case VRADOMIL_CMP_GT:
        return old > cmparg;
    default:
        return old >= cmparg;
    }
}

static inline int32_t wake_op(const struct call *c)
{
    uint32_t op = c->val3 >> 28, cmp = c->val3 >> 24 & 15;
    int32_t refusal = refuse_two(c);
    if (refusal != 0)
        return refusal;
    if ((op & 7) > VRADOMIL_OP_XOR || cmp > VRADOMIL_CMP_GE)
        return VRADOMIL_ENOSYS;
    uint32_t old = load(c->area + c->uaddr2);
    uint32_t new = operate(op, signed_field(c->val3 >> 12 & 4095), old);
    memcpy(c->area + c->uaddr2, &new, sizeof new);
    bool second = compares(cmp, (int32_t)old, signed_field(c->val3 & 4095));
    if (second && c->uaddr2 == c->uaddr)
        return release(c, c->uaddr, ALL_ONES, c->val + c->cap2); /* both caps are below 2^31 */
    int32_t released = release(c, c->uaddr, ALL_ONES, c->val);
    if (second)
        released += release(c, c->uaddr2, ALL_ONES, c->cap2);
    return released;
}

static inline int32_t command(const struct call *c)
{
    switch (c->op & ~(uint32_t)VRADOMIL_PRIVATE) {
    case VRADOMIL_WAIT:
        return wait(c, ALL_ONES, saturating_add(c->t->clock, c->timeout));
    case VRADOMIL_WAIT_BITSET:
        return wait(c, c->val3, c->timeout);
    case VRADOMIL_WAKE:
        return wake(c, ALL_ONES);
    case VRADOMIL_WAKE_BITSET:
        return wake(c, c->val3);
    case VRADOMIL_REQUEUE:
        return requeue(c, false);
    case VRADOMIL_CMP_REQUEUE:
        return requeue(c, true);
    case VRADOMIL_WAKE_OP:
        return wake_op(c);
    default:
        return VRADOMIL_ENOSYS;
    }
}

/* Why a call was answered -22. It is asked only then, so the last reason needs no test. */
static inline uint8_t call_reason(uint32_t op, uint32_t uaddr, uint32_t val, uint32_t cap2, uint32_t uaddr2, uint32_t val3)
{
    uint32_t number = op & ~(uint32_t)VRADOMIL_PRIVATE;
    bool waits = number == VRADOMIL_WAIT || number == VRADOMIL_WAIT_BITSET;
    bool masked = number == VRADOMIL_WAIT_BITSET || number == VRADOMIL_WAKE_BITSET;
    bool two = number == VRADOMIL_REQUEUE || number == VRADOMIL_CMP_REQUEUE || number == VRADOMIL_WAKE_OP;
    if (!waits && val > VRADOMIL_ALL)
        return VRADOMIL_REASON_VAL;
    if (two && cap2 > VRADOMIL_ALL)
        return VRADOMIL_REASON_VAL2;
    if (masked && val3 == 0)
        return VRADOMIL_REASON_VAL3;
    if (uaddr % 4 != 0)
        return VRADOMIL_REASON_UADDR;
    if (uaddr2 % 4 != 0)
        return VRADOMIL_REASON_UADDR2;
    return VRADOMIL_REASON_SAME_UADDR;
}

/* Hands an answer on, and what there is room for of its report. */
static inline int32_t reported(int32_t answer, uint8_t reason, uint8_t *report, size_t report_len)
{
    if (report_len > offsetof(struct vradomil_report, reason))
        report[offsetof(struct vradomil_report, reason)] = reason;
    return answer;
}

#endif
