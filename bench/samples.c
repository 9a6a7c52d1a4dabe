#include "samples.h"

#include <string.h>

const uint32_t addresses[4] = {64, 128, 192, 4092};

uint64_t draw(void)
{
    static uint64_t seed;
    seed += UINT64_C(0x9E3779B97F4A7C15);
    uint64_t x = seed;
    x = (x ^ x >> 30) * UINT64_C(0xBF58476D1CE4E5B9);
    x = (x ^ x >> 27) * UINT64_C(0x94D049BB133111EB);
    return x ^ x >> 31;
}

static void shuffle(uint8_t *threads, int n)
{
    for (int k = n - 1; k > 0; k--) {
        int other = (int)(draw() % (uint64_t)(k + 1));
        uint8_t kept = threads[k];
        threads[k] = threads[other];
        threads[other] = kept;
    }
}

/* Half of the sleepers have a deadline within 50, a quarter a late one, a quarter none. */
static void put_asleep(struct vradomil_tables *t, uint8_t thread, uint32_t uaddr)
{
    uint64_t chance = draw() % 4;
    t->waiting[thread] = 1;
    t->uaddr[thread] = uaddr;
    t->bitset[thread] = draw() % 2 ? UINT32_MAX : (uint32_t)draw() | 1;
    t->timed[thread] = chance != 0;
    if (chance != 0)
        t->deadline[thread] = t->clock + (chance == 1 ? 1000 : 1) + draw() % 50;
    t->list[t->count++] = thread;
}

/* Those at the first word, one at the second and then any others are put asleep, and their order is drawn anew. */
void make_tables(struct vradomil_tables *t, uint8_t caller, const struct fill *fill)
{
    uint8_t fellows[VRADOMIL_THREADS_PER_PROCESS], others[VRADOMIL_THREADS], priority = draw() % (VRADOMIL_MAX_PRIORITY + 1);
    int n = 0, m = 0, asleep = 0, k;
    memset(t, 0, sizeof *t);
    memset(t->list, VRADOMIL_NO_ENTRY, sizeof t->list);
    t->clock = 1000 + draw() % 1000;
    for (uint8_t thread = 0; thread < VRADOMIL_THREADS; thread++) {
        t->last[thread] = draw() % 4;
        t->priority[thread] = fill->mixed ? draw() % (VRADOMIL_MAX_PRIORITY + 1) : priority;
        if (thread != caller && thread / 8 == caller / 8)
            fellows[n++] = thread;
        else if (thread != caller)
            others[m++] = thread;
    }
    shuffle(fellows, n);
    for (k = 0; k < fill->there; k++, asleep++)
        put_asleep(t, fellows[k], addresses[0]);
    if (k < n && asleep < fill->sleepers) {
        put_asleep(t, fellows[k++], addresses[1]);
        asleep++;
    }
    while (k < n)
        others[m++] = fellows[k++];
    shuffle(others, m);
    for (k = 0; asleep < fill->sleepers; k++, asleep++)
        put_asleep(t, others[k], addresses[others[k] / 8 == caller / 8 ? 1 + draw() % 2 : draw() % 3]);
    shuffle(t->list, asleep);
}

uint32_t make_masks(struct vradomil_tables *t, uint8_t caller, uint64_t there, uint64_t matching)
{
    const uint32_t shared = 1, other = UINT32_C(1) << 31;
    uint32_t mask = ((uint32_t)draw() & ~other) | shared;
    for (size_t place = 0; place < t->count; place++) {
        uint8_t thread = t->list[place];
        t->bitset[thread] = ((uint32_t)draw() & ~mask) | other;
        if (thread / 8 == caller / 8 && t->uaddr[thread] == addresses[0] && draw() % there-- < matching) {
            t->bitset[thread] |= shared;
            matching--;
        }
    }
    return mask;
}

struct event make_call(uint8_t caller, uint32_t op, uint32_t uaddr, uint32_t val)
{
    struct event e = {.function = CALL, .process = caller / 8, .index = caller % 8, .op = op, .uaddr = uaddr, .val = val};
    e.uaddr2 = addresses[1];
    return e;
}

struct event make_requeue(uint8_t caller, uint32_t cap, uint32_t cap2)
{
    struct event e = make_call(caller, VRADOMIL_CMP_REQUEUE, addresses[0], cap);
    e.val3 = WORD_VALUE, e.time = cap2;
    return e;
}

struct event make_wake_op(uint8_t caller, uint32_t uaddr2)
{
    struct event e = make_call(caller, VRADOMIL_WAKE_OP, addresses[0], 1);
    e.val3 = VRADOMIL_WAKE_OP_VAL3(VRADOMIL_OP_SET, WORD_VALUE, VRADOMIL_CMP_LT, WORD_VALUE + 1), e.time = 1, e.uaddr2 = uaddr2;
    return e;
}
