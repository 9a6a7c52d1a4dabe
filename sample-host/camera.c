#include "camera.h"

#include <string.h>

/* A seeded generator (splitmix64), so that every run is the same. */
static uint64_t draw(struct flood *flood)
{
    flood->seed += UINT64_C(0x9E3779B97F4A7C15);
    uint64_t x = flood->seed;
    x = (x ^ x >> 30) * UINT64_C(0xBF58476D1CE4E5B9);
    x = (x ^ x >> 27) * UINT64_C(0x94D049BB133111EB);
    return x ^ x >> 31;
}

/* Mostly numbers that calls use, the words of the other processes among them; at times any number. */
static uint32_t number(struct flood *flood)
{
    static const uint32_t usual[] = {0, 1, 2, 4, 8, 12, 4092, 4094, 4096, 2147483647, 2147483648, UINT32_MAX};
    uint64_t x = draw(flood);
    return x % 8 == 0 ? (uint32_t)(x >> 32) : usual[(x >> 32) % 12];
}

static uint32_t op(struct flood *flood)
{
    static const uint32_t ops[] = {0, 1, 3, 4, 5, 9, 10, 128, 129, 137, 2, 256, 512};
    uint64_t x = draw(flood);
    return x % 16 == 0 ? (uint32_t)(x >> 32) : ops[(x >> 32) % 13];
}

/* What a wait should expect to sleep: the word at an address, where there is one. */
static uint32_t own_word(const struct host *h, uint32_t address)
{
    uint32_t value;
    memcpy(&value, h->words + 4096 * CAMERA + address % 4093, sizeof value);
    return value;
}

/* The process is put in here, where the camera has no say: it can ask for its own threads only. */
static int32_t one_event(struct host *h, struct flood *flood, struct vradomil_report *report)
{
    uint8_t *tables = (uint8_t *)&h->tables, *r = (uint8_t *)report;
    uint8_t index = (uint8_t)(draw(flood) % 9); /* 8 is no thread */
    uint32_t command = op(flood), uaddr = number(flood), uaddr2 = number(flood), val3 = number(flood);
    uint32_t val = draw(flood) % 2 ? own_word(h, uaddr) : number(flood);
    uint8_t flag = draw(flood) % 2;
    uint64_t timeout = draw(flood) % 2 ? number(flood) : draw(flood);
    switch (draw(flood) % 8) {
    case 0:
        return vradomil_store_report(tables, sizeof h->tables, h->words, sizeof h->words, CAMERA, uaddr, val, r, sizeof *report);
    case 1:
        return vradomil_interrupt_report(tables, sizeof h->tables, h->words, sizeof h->words, CAMERA, index, r, sizeof *report);
    case 2: /* half of the priorities are too high */
        return vradomil_set_priority_report(tables, sizeof h->tables, h->words, sizeof h->words, CAMERA, index,
                                            (uint8_t)(draw(flood) % 64), r, sizeof *report);
    default:
        return vradomil_call_report(tables, sizeof h->tables, h->words, sizeof h->words, CAMERA, index, command, uaddr, val, flag,
                                    timeout, uaddr2, val3, r, sizeof *report);
    }
}

void camera_flood(struct host *h, struct flood *flood, unsigned calls)
{
    for (unsigned k = 0; k < calls; k++) {
        struct vradomil_report report;
        int32_t answer = one_event(h, flood, &report);
        flood->calls++;
        flood->asleep += answer == VRADOMIL_ASLEEP;
        flood->refused += answer < 0;
        flood->reasons[report.reason]++;
        /* As after every event. Only threads of the camera can run again, and the host has no program for those. */
        if (answer > 0)
            host_collect(h);
    }
}
