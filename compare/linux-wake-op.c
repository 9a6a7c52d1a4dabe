/*
 * Compares the library's WAKE_OP with that of the Linux which the program runs on: the answer, the word that it leaves at uaddr2
 * and whom it releases, with a sleeper at each of the two words. First every operation and comparison with oparg, cmparg and the
 * old word at their edges, then random ones. usage: linux-wake-op SEED
 */
#include "linux-futexes.h"
#include "vradomil.h"

#include <errno.h>
#include <linux/futex.h>
#include <stdio.h>
#include <stdlib.h>
#include <string.h>
#include <sys/utsname.h>

#define COUNT(array) (sizeof(array) / sizeof *(array))

/* What val3 is made of has the same numbers in both headers. */
#define SAME(ours, theirs) _Static_assert(VRADOMIL_##ours == FUTEX_##theirs, "the number of linux/futex.h")
SAME(OP_SET, OP_SET);
SAME(OP_ADD, OP_ADD);
SAME(OP_OR, OP_OR);
SAME(OP_ANDN, OP_ANDN);
SAME(OP_XOR, OP_XOR);
SAME(OP_SHIFT, OP_OPARG_SHIFT);
SAME(CMP_EQ, OP_CMP_EQ);
SAME(CMP_NE, OP_CMP_NE);
SAME(CMP_LT, OP_CMP_LT);
SAME(CMP_LE, OP_CMP_LE);
SAME(CMP_GT, OP_CMP_GT);
SAME(CMP_GE, OP_CMP_GE);

enum { OPERATIONS = 16, COMPARISONS = FUTEX_OP_CMP_GE + 1 };

/* The calls at the edges, and with them the random ones. */
enum { EDGES = 10 * COMPARISONS * 8 * 5 * 9, CALLS = EDGES + 10000 };
_Static_assert(CALLS % BATCH == 0, "whole batches");

/* How often each came up. */
static struct {
    unsigned long outcomes[2], refusals, late_refusals; /* late: Linux had stored the new word */
    unsigned long compared[COMPARISONS][2][2][2]; /* by comparison, old word below 0, cmparg below 0, and the outcome */
    unsigned long operated[OPERATIONS][2];        /* by operation with its shift bit, and oparg below 0 */
    unsigned long refused[2][2];                  /* by operation undefined, and comparison undefined */
} seen;

static struct utsname machine;

static bool operation_defined(uint32_t op)
{
    return op % FUTEX_OP_OPARG_SHIFT <= FUTEX_OP_XOR;
}

/* Thread 0 makes the call; 1 sleeps at uaddr and 2 at uaddr2. */
static struct outcome library_wake_op(uint32_t val3, uint32_t old)
{
    enum { UADDR = 8, UADDR2 = 16 };
    static struct vradomil_tables tables;
    static uint8_t words[VRADOMIL_WORDS_BYTES];
    uint8_t *t = (uint8_t *)&tables;
    size_t t_len = sizeof tables, w_len = sizeof words;
    if (vradomil_fresh(t, t_len) != 0 || vradomil_store(t, t_len, words, w_len, 0, UADDR2, old) != 0 ||
        vradomil_call(t, t_len, words, w_len, 0, 1, VRADOMIL_WAIT, UADDR, 0, 0, 0, 0, 0) != VRADOMIL_ASLEEP ||
        vradomil_call(t, t_len, words, w_len, 0, 2, VRADOMIL_WAIT, UADDR2, old, 0, 0, 0, 0) != VRADOMIL_ASLEEP)
        fail("the library refused to put a thread to sleep");
    struct outcome o = {.answer = vradomil_call(t, t_len, words, w_len, 0, 0, VRADOMIL_WAKE_OP, UADDR, 1, 0, 1, UADDR2, val3)};
    memcpy(&o.word, words + UADDR2, sizeof o.word);
    o.woken = !tables.waiting[1];
    o.woken2 = !tables.waiting[2];
    return o;
}

static void print_outcome(const char *name, const char *release, struct outcome o)
{
    static const char *const who[] = {"nobody", "the sleeper at uaddr", "the sleeper at uaddr2", "both sleepers"};
    printf("%s%s: answer %d, word %u afterwards, released: %s\n", name, release, (int)o.answer, (unsigned)o.word,
           who[o.woken + 2 * o.woken2]);
}

static void print_difference(struct wake_op w, struct outcome theirs, struct outcome ours)
{
    printf("compare-linux: they differ on this call\n");
    printf("op %u, oparg %d, cmp %u, cmparg %d, old word %u (%d)\n", (unsigned)w.op, (int)w.oparg, (unsigned)w.cmp, (int)w.cmparg,
           (unsigned)w.old, (int)w.old);
    print_outcome("Linux ", machine.release, theirs);
    print_outcome("the library", "", ours);
    if (ours.answer < 0 && ours.word != w.old)
        printf("and a refusal of the library must leave the word\n");
}

static void count(struct wake_op w, bool defined, bool outcome)
{
    if (defined) {
        seen.outcomes[outcome]++;
        seen.compared[w.cmp][w.old > INT32_MAX][w.cmparg < 0][outcome]++;
        seen.operated[w.op][w.oparg < 0]++;
    } else {
        seen.refusals++;
        seen.refused[!operation_defined(w.op)][w.cmp >= COMPARISONS]++;
    }
}

/* A refusal of the library leaves the word. Linux finds an undefined comparison only when it has stored the new one. */
static bool refused_alike(struct wake_op w, struct outcome theirs, struct outcome ours)
{
    uint32_t stored = library_wake_op(VRADOMIL_WAKE_OP_VAL3(w.op, w.oparg, FUTEX_OP_CMP_EQ, w.cmparg), w.old).word;
    seen.late_refusals += theirs.word != w.old;
    return ours.answer == -ENOSYS && ours.word == w.old && (theirs.word == w.old || theirs.word == stored);
}

static void compare(struct wake_op w, struct outcome theirs)
{
    bool defined = operation_defined(w.op) && w.cmp < COMPARISONS;
    struct outcome ours = library_wake_op(VRADOMIL_WAKE_OP_VAL3(w.op, w.oparg, w.cmp, w.cmparg), w.old);
    bool alike = defined ? ours.answer >= 0 && ours.word == theirs.word : refused_alike(w, theirs, ours);
    if (!alike || ours.answer != theirs.answer || ours.woken != theirs.woken || ours.woken2 != theirs.woken2) {
        print_difference(w, theirs, ours);
        exit(1);
    }
    count(w, defined, theirs.woken2);
}

/* Takes from a number the part that stands for one of so many choices. */
static size_t take(unsigned *number, size_t choices)
{
    size_t choice = *number % choices;
    *number /= (unsigned)choices;
    return choice;
}

/* Each number below EDGES is another call. */
static struct wake_op edge_wake_op(unsigned number)
{
    static const uint32_t ops[] = {0, 1, 2, 3, 4, 8, 9, 10, 11, 12};
    static const int32_t opargs[] = {-2048, -1, 0, 1, 31, 32, 33, 2047}, cmpargs[] = {-2048, -1, 0, 1, 2047};
    static const uint32_t olds[] = {0, 1, 2047, 2048, 2147483647, 2147483648, 4294965247, 4294965248, 4294967295};
    _Static_assert(EDGES == COUNT(ops) * COMPARISONS * COUNT(opargs) * COUNT(cmpargs) * COUNT(olds), "every edge once");
    struct wake_op w;
    w.old = olds[take(&number, COUNT(olds))];
    w.cmparg = cmpargs[take(&number, COUNT(cmpargs))];
    w.oparg = opargs[take(&number, COUNT(opargs))];
    w.cmp = (uint32_t)take(&number, COMPARISONS);
    w.op = ops[number];
    return w;
}

/* splitmix64 */
static uint64_t draw(uint64_t *seed)
{
    uint64_t x = *seed += UINT64_C(0x9E3779B97F4A7C15);
    x = (x ^ x >> 30) * UINT64_C(0xBF58476D1CE4E5B9);
    x = (x ^ x >> 27) * UINT64_C(0x94D049BB133111EB);
    return x ^ x >> 31;
}

/* Of four, two have the old word at cmparg or next to it, so that they meet; one has any operation and comparison. */
static struct wake_op draw_wake_op(uint64_t *seed, unsigned number)
{
    uint64_t x = draw(seed), y = draw(seed);
    struct wake_op w = {
        .oparg = (int32_t)(x & 4095) - 2048, .cmparg = (int32_t)(x >> 12 & 4095) - 2048, .old = (uint32_t)(x >> 32)};
    if (number % 4 == 0) {
        w.op = y & 15;
        w.cmp = y >> 4 & 15;
        return w;
    }
    w.op = y % 5 + (y >> 32 & FUTEX_OP_OPARG_SHIFT);
    w.cmp = (uint32_t)(y >> 40) % COMPARISONS;
    if (number % 4 < 3)
        w.old = (uint32_t)w.cmparg + w.old % 3 - 1;
    return w;
}

/* Both headers make the same val3, of every oparg and cmparg and of some that are none. */
static void compare_macros(uint32_t op, uint32_t cmp)
{
    for (int32_t oparg = -2050; oparg <= 2050; oparg++)
        for (int32_t cmparg = -2050; cmparg <= 2050; cmparg++)
            if (VRADOMIL_WAKE_OP_VAL3(op, oparg, cmp, cmparg) != FUTEX_OP(op, (uint32_t)oparg, cmp, (uint32_t)cmparg))
                fail("VRADOMIL_WAKE_OP_VAL3 and FUTEX_OP differ");
}

/* Numbers of different signs compare in one way only. */
static bool possible(uint32_t cmp, bool old_negative, bool cmparg_negative, bool outcome)
{
    if (old_negative == cmparg_negative)
        return true;
    switch (cmp) {
    case FUTEX_OP_CMP_EQ:
        return !outcome;
    case FUTEX_OP_CMP_NE:
        return outcome;
    case FUTEX_OP_CMP_LT:
    case FUTEX_OP_CMP_LE:
        return outcome == old_negative;
    default:
        return outcome == cmparg_negative;
    }
}

static bool compared_all(void)
{
    bool all = true;
    for (uint32_t cmp = 0; cmp < COMPARISONS; cmp++)
        for (unsigned way = 0; way < 8; way++) {
            bool old = way & 1, cmparg = way & 2, outcome = way & 4;
            if (!possible(cmp, old, cmparg, outcome) || seen.compared[cmp][old][cmparg][outcome] != 0)
                continue;
            printf("compare-linux: never came up: comparison %u %s, old word %s, cmparg %s\n", (unsigned)cmp,
                   outcome ? "true" : "false", old ? "negative" : "not negative", cmparg ? "negative" : "not negative");
            all = false;
        }
    return all;
}

static bool operated_all(void)
{
    bool all = true;
    for (uint32_t op = 0; op < OPERATIONS; op++)
        for (unsigned oparg = 0; oparg < 2; oparg++)
            if (operation_defined(op) && seen.operated[op][oparg] == 0) {
                printf("compare-linux: never came up: operation %u, oparg %s\n", (unsigned)op, oparg ? "negative" : "not negative");
                all = false;
            }
    if (seen.refused[0][1] == 0 || seen.refused[1][0] == 0 || seen.refused[1][1] == 0) {
        printf("compare-linux: never came up: an operation or a comparison that is undefined, or both\n");
        all = false;
    }
    return all;
}

int main(int argc, char **argv)
{
    static struct wake_op calls[BATCH];
    static struct outcome outcomes[BATCH];
    if (argc != 2) {
        fprintf(stderr, "usage: linux-wake-op SEED\n");
        return 2;
    }
    uint64_t seed = strtoull(argv[1], NULL, 10);
    uname(&machine);
    compare_macros(FUTEX_OP_SET, FUTEX_OP_CMP_EQ);
    compare_macros(FUTEX_OP_XOR | FUTEX_OP_OPARG_SHIFT, FUTEX_OP_CMP_GE);
    compare_macros(UINT32_MAX - 3, 17);
    for (unsigned number = 0; number < CALLS; number += BATCH) {
        for (unsigned k = 0; k < BATCH; k++)
            calls[k] = number + k < EDGES ? edge_wake_op(number + k) : draw_wake_op(&seed, number + k);
        linux_wake_ops(calls, outcomes);
        for (unsigned k = 0; k < BATCH; k++)
            compare(calls[k], outcomes[k]);
    }
    bool all = compared_all();
    all = operated_all() && all;
    printf("compare-linux: %d calls of FUTEX_WAKE_OP beside Linux %s (comparison true %lu, false %lu; refused %lu, by Linux %lu of them "
           "after it had stored the word), %s\n",
           CALLS, machine.release, seen.outcomes[true], seen.outcomes[false], seen.refusals, seen.late_refusals,
           all ? "no difference" : "too little was tried");
    return all ? 0 : 1;
}
