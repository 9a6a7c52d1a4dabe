/*
 * Shows some refusals; then runs one scenario twice, without and with the camera's flood, and checks that no other process could
 * tell.
 */
#include "camera.h"
#include "programs.h"
#include "refusals.h"

#include <stdio.h>
#include <string.h>

enum { TICKS = 50, TICK = 10, FLOOD_PER_TICK = 200 };

/* The base priorities of each process's threads, but for one: of the sleepers at a word a wake takes the highest first. */
enum { CAMERA_PRIORITY = 0, MAP_PRIORITY = 10, SECTIONS_PRIORITY = 20, STOP_KEY_PRIORITY = VRADOMIL_MAX_PRIORITY };
enum { LOGGER = 2, LOGGER_PRIORITY = 0 };

static void spawn_all(struct host *h)
{
    host_spawn(h, MAP, 0, map_loader);
    for (uint8_t index = 1; index <= PAINTERS; index++)
        host_spawn(h, MAP, index, map_painter);
    for (uint8_t index = 0; index < WORKERS; index++)
        host_spawn(h, SECTIONS, index, section_worker);
    host_spawn(h, STOP_KEY, 0, stop_key);
    host_spawn(h, STOP_KEY, 1, key_presser);
    host_spawn(h, STOP_KEY, LOGGER, key_logger);
}

static void set_priorities(struct host *h)
{
    static const uint8_t priorities[] = {
        [CAMERA] = CAMERA_PRIORITY,
        [MAP] = MAP_PRIORITY,
        [SECTIONS] = SECTIONS_PRIORITY,
        [STOP_KEY] = STOP_KEY_PRIORITY,
    };
    for (uint8_t process = CAMERA; process <= STOP_KEY; process++)
        for (uint8_t index = 0; index < VRADOMIL_THREADS_PER_PROCESS; index++)
            host_set_priority(h, process, index, priorities[process]);
    host_set_priority(h, STOP_KEY, LOGGER, LOGGER_PRIORITY);
}

static void run(struct host *h, struct flood *flood)
{
    host_start(h);
    spawn_all(h);
    set_priorities(h);
    for (unsigned tick = 1; tick <= TICKS; tick++) {
        if (flood != NULL)
            camera_flood(h, flood, FLOOD_PER_TICK / 2);
        host_turns(h);
        if (flood != NULL)
            camera_flood(h, flood, FLOOD_PER_TICK / 2);
        host_clock(h, tick * TICK);
    }
    host_interrupt(h, STOP_KEY, 0);
    host_turns(h);
}

/* The sleepers of every process but the camera, in their order of arrival. */
static size_t sleepers(const struct vradomil_tables *t, uint8_t *order)
{
    size_t n = 0;
    for (uint64_t k = 0; k < t->count; k++)
        if (t->list[k] / 8 != CAMERA)
            order[n++] = t->list[k];
    return n;
}

/* Whether all that belongs to the other processes is the same: answers, words, records, order of sleepers. */
static bool same(const struct host *a, const struct host *b)
{
    const struct vradomil_tables *t = &a->tables, *u = &b->tables;
    uint8_t order[2][VRADOMIL_THREADS];
    size_t n = sleepers(t, order[0]);
    bool equal = n == sleepers(u, order[1]) && memcmp(order[0], order[1], n) == 0;
    for (size_t k = 8 * (CAMERA + 1); k < VRADOMIL_THREADS; k++)
        equal = equal && t->waiting[k] == u->waiting[k] && t->timed[k] == u->timed[k] && t->last[k] == u->last[k] &&
                t->uaddr[k] == u->uaddr[k] && t->bitset[k] == u->bitset[k] && t->deadline[k] == u->deadline[k] &&
                t->priority[k] == u->priority[k];
    size_t others = 4096 * (CAMERA + 1);
    return equal && memcmp(a->words + others, b->words + others, sizeof a->words - others) == 0 && a->traced == b->traced &&
           memcmp(a->trace, b->trace, a->traced) == 0;
}

/* The locks must have done their work: every tile painted once, every round of the workers counted. */
static bool counted(const struct host *h)
{
    uint32_t painted, done;
    memcpy(&painted, h->words + 4096 * MAP + MAP_PAINTED, sizeof painted);
    memcpy(&done, h->words + 4096 * SECTIONS + SECTIONS_DONE, sizeof done);
    return painted == ROUNDS * PAINTERS && done == ROUNDS * WORKERS;
}

static void tell_flood(const struct host *h, const struct flood *flood)
{
    uint32_t panel = vradomil_query((const uint8_t *)&h->tables, sizeof h->tables, CAMERA);
    printf("the camera made %u calls: %u refused, %u put a thread to sleep, asleep at the end: %u\n", flood->calls,
           flood->refused, flood->asleep, (unsigned)vradomil_query_count(panel));
    printf("of the refused, those with a reason:\n");
    for (unsigned reason = 1; reason < 256; reason++)
        if (flood->reasons[reason] != 0)
            printf("%6u  %s\n", flood->reasons[reason], vradomil_reason_text((uint8_t)reason));
}

int main(void)
{
    static struct host calm, flooded, other;
    struct flood flood = {.seed = 1};
    printf("what a refusal looks like\n");
    show_refusals(&other);
    run(&calm, NULL);
    run(&flooded, &flood);
    printf("time  thread      what\n%s", calm.trace);
    tell_flood(&flooded, &flood);
    if (!counted(&calm) || !same(&calm, &flooded)) {
        printf("NOT the same; with the flood:\n%s", flooded.trace);
        return 1;
    }
    printf("same with and without the flood\n");
    return 0;
}
