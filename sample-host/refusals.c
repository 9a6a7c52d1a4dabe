#include "refusals.h"

#include <stdio.h>

static const struct attempt {
    const char *what;
    struct futex call;
} attempts[] = {
    {"WAKE 2147483648 at 8", {.op = VRADOMIL_WAKE, .uaddr = 8, .val = 2147483648}},
    {"REQUEUE 1 and 2147483648 from 8 to 12",
     {.op = VRADOMIL_REQUEUE, .uaddr = 8, .val = 1, .uaddr2 = 12, .cap2 = 2147483648}},
    {"WAIT_BITSET at 8, mask 0", {.op = VRADOMIL_WAIT_BITSET, .uaddr = 8}},
    {"WAIT at 6", {.op = VRADOMIL_WAIT, .uaddr = 6}},
    {"WAKE_OP at 8 and 10", {.op = VRADOMIL_WAKE_OP, .uaddr = 8, .val = 1, .uaddr2 = 10, .cap2 = 1}},
    {"CMP_REQUEUE from 8 to 8", {.op = VRADOMIL_CMP_REQUEUE, .uaddr = 8, .val = 1, .uaddr2 = 8, .cap2 = 1}},
    {"CMP_REQUEUE 2147483648 from 6 to 6",
     {.op = VRADOMIL_CMP_REQUEUE, .uaddr = 6, .val = 2147483648, .uaddr2 = 6, .cap2 = 1}},
    {"WAIT at 4096", {.op = VRADOMIL_WAIT, .uaddr = 4096}},
    {"WAIT at 8, expecting 1", {.op = VRADOMIL_WAIT, .uaddr = 8, .val = 1}},
    {"command 2", {.op = 2}},
};

static void show(const char *what, int32_t answer, struct vradomil_report report)
{
    printf("  %-38s ", what);
    print_answer(stdout, answer, report);
}

void show_refusals(struct host *h)
{
    uint8_t *tables = (uint8_t *)&h->tables;
    struct vradomil_report report;
    int32_t answer;
    host_start(h);
    for (size_t k = 0; k < sizeof attempts / sizeof *attempts; k++) {
        answer = host_call(h, 0, 0, attempts[k].call, &report);
        show(attempts[k].what, answer, report);
    }
    answer = vradomil_store_report(tables, sizeof h->tables, h->words, sizeof h->words, 0, 2, 1, (uint8_t *)&report,
                                   sizeof report);
    show("store 1 at 2", answer, report);
    host_clock(h, 10);
    answer = vradomil_clock_report(tables, sizeof h->tables, h->words, sizeof h->words, 9, (uint8_t *)&report, sizeof report);
    show("clock 9 after 10", answer, report);
    answer = vradomil_set_priority_report(tables, sizeof h->tables, h->words, sizeof h->words, 0, 0, 32, (uint8_t *)&report,
                                          sizeof report);
    show("set_priority 32", answer, report);
}
