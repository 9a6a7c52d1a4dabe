#include "samples.h"

enum { REFUSED_11, REFUSED_22, REFUSED_CAP2, REFUSED_SAME, WAIT, WAKE_ONE, WAKE_ALL, WAKE_FEW, WAKE_NOBODY, REQUEUE, MOVE_ALL,
       WAKE_OP, WAKE_OP_ONE_WORD, STORED, CLOCK_NONE, CLOCK_HALF, INTERRUPTED, SET_RUNNING, SET_ASLEEP, SET_REFUSED, QUERIED };
_Static_assert(QUERIED == KINDS - 1, "all kinds");

const struct kind kinds[KINDS] = {
    [REFUSED_11] = {"refused -11", false, 0, -11, -11},
    [REFUSED_22] = {"refused -22", false, 0, -22, -22, VRADOMIL_REASON_UADDR},
    [REFUSED_CAP2] = {"wake_op -22, second cap", false, 0, -22, -22, VRADOMIL_REASON_VAL2},
    [REFUSED_SAME] = {"cmp_requeue -22, same", false, 0, -22, -22, VRADOMIL_REASON_SAME_UADDR},
    [WAIT] = {"wait sleeps", false, 0, VRADOMIL_ASLEEP, VRADOMIL_ASLEEP},
    [WAKE_ONE] = {"wake of 1", true, 1, 1, 1},
    [WAKE_ALL] = {"wake of all at a word", true, 1, 1, 7},
    [WAKE_FEW] = {"wake_bitset, few match", true, 1, 1, 2},
    [WAKE_NOBODY] = {"wake nobody", false, 0, 0, 0},
    [REQUEUE] = {"cmp_requeue 1 and all", true, 1, 1, 7},
    [MOVE_ALL] = {"cmp_requeue 0 and all", true, 1, 1, 7},
    [WAKE_OP] = {"wake_op 1 and 1", true, 1, 1, 2},
    [WAKE_OP_ONE_WORD] = {"wake_op 1 and 1, 1 word", true, 1, 1, 2},
    [STORED] = {"store", false, 0, 0, 0},
    [CLOCK_NONE] = {"clock ends none", false, 0, 0, 0},
    [CLOCK_HALF] = {"clock ends half", false, 1, 0, 63},
    [INTERRUPTED] = {"interrupt of a sleeper", false, 1, 1, 1},
    [SET_RUNNING] = {"set_priority, running", false, 0, 0, 0},
    [SET_ASLEEP] = {"set_priority, asleep", false, 1, 0, 0},
    [SET_REFUSED] = {"set_priority -22", false, 0, -22, -22, VRADOMIL_REASON_PRIORITY},
    [QUERIED] = {"query", false, 0, 0, UINT32_MAX, STALE},
};

static struct event make_set_priority(uint8_t thread, uint64_t priority)
{
    return (struct event){.function = SET_PRIORITY, .process = thread / 8, .index = thread % 8, .priority = (uint8_t)priority};
}

static struct event make_other(const struct vradomil_tables *t, int kind, uint8_t caller)
{
    uint8_t sleeper = t->list[t->count ? draw() % t->count : 0];
    switch (kind) {
    case STORED:
        return (struct event){.function = STORE, .process = caller / 8, .uaddr = addresses[3], .val = (uint32_t)draw()};
    case CLOCK_NONE:
    case CLOCK_HALF:
        return (struct event){.function = CLOCK, .time = t->clock + (kind == CLOCK_NONE ? 0 : 100)};
    case INTERRUPTED:
        return (struct event){.function = INTERRUPT, .process = sleeper / 8, .index = sleeper % 8};
    case SET_RUNNING:
        return make_set_priority(caller, draw() % (VRADOMIL_MAX_PRIORITY + 1));
    case SET_ASLEEP:
        return make_set_priority(sleeper, draw() % (VRADOMIL_MAX_PRIORITY + 1));
    case SET_REFUSED:
        return make_set_priority(caller, VRADOMIL_MAX_PRIORITY + 1 + draw() % (UINT8_MAX - VRADOMIL_MAX_PRIORITY));
    default:
        return (struct event){.function = QUERY, .process = caller / 8};
    }
}

/* Of one sleeper at the word one matches, of four one, of seven two. */
static struct event make_wake_few(struct vradomil_tables *t, uint8_t caller, uint64_t there)
{
    struct event e = make_call(caller, VRADOMIL_WAKE_BITSET, addresses[0], VRADOMIL_ALL);
    e.val3 = make_masks(t, caller, there, (there + 3) / 4);
    return e;
}

static struct event make_event(struct vradomil_tables *t, int kind, uint8_t caller, int there)
{
    struct event e = make_call(caller, VRADOMIL_WAKE, addresses[0], 1);
    switch (kind) {
    case REFUSED_11:
        return make_call(caller, VRADOMIL_WAIT, addresses[0], WORD_VALUE + 1);
    case REFUSED_22:
        return make_call(caller, VRADOMIL_WAIT, addresses[0] + 2, WORD_VALUE);
    case REFUSED_CAP2:
        e.op = VRADOMIL_WAKE_OP, e.time = VRADOMIL_ALL + UINT64_C(1);
        return e;
    case REFUSED_SAME:
        e.op = VRADOMIL_CMP_REQUEUE, e.uaddr2 = e.uaddr;
        return e;
    case WAIT:
        return make_call(caller, VRADOMIL_WAIT, addresses[0], WORD_VALUE);
    case WAKE_ONE:
        return e;
    case WAKE_ALL:
        return make_call(caller, VRADOMIL_WAKE, addresses[0], VRADOMIL_ALL);
    case WAKE_FEW:
        return make_wake_few(t, caller, (uint64_t)there);
    case WAKE_NOBODY:
        return make_call(caller, VRADOMIL_WAKE, addresses[3], VRADOMIL_ALL);
    case REQUEUE:
    case MOVE_ALL:
        return make_requeue(caller, kind == REQUEUE ? 1 : 0, VRADOMIL_ALL);
    case WAKE_OP:
    case WAKE_OP_ONE_WORD:
        return make_wake_op(caller, addresses[kind == WAKE_OP ? 1 : 0]);
    default:
        return make_other(t, kind, caller);
    }
}

void make_sample(struct sample *s, int kind, const struct fill *fill)
{
    uint8_t caller = (uint8_t)(draw() % VRADOMIL_THREADS);
    make_tables(&s->tables, caller, fill);
    s->event = make_event(&s->tables, kind, caller, fill->there);
}
