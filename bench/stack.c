/*
 * The most bytes of stack that each function of the library takes, over the events of kinds.c and each way in which the buffers can be
 * wrong: the stack below is painted before a call, and what is no longer painted afterwards was used. Arguments on the stack and the
 * return address count, and so does what the function writes below its own stack pointer.
 */
#include "kinds.h"

#include <stdio.h>
#include <string.h>

enum { DEPTH = 8192, PAINT = 0xa5, SAMPLES = 200 };

static uint8_t words[VRADOMIL_WORDS_BYTES];
static struct vradomil_report report;
static size_t most[2 * (QUERY + 1) + 1]; /* by function, without a report and with one; the last: vradomil_fresh */

/* Runs STATEMENT and keeps in MOST how deep it wrote. It stands in no function of its own, whose frame would lie between. */
#define MEASURE(MOST, STATEMENT) \
    do { \
        volatile uint8_t *sp; \
        __asm__ volatile("mov %%rsp, %0" : "=r"(sp)); \
        for (size_t i = 1; i <= DEPTH; i++) \
            sp[-(ptrdiff_t)i] = PAINT; \
        STATEMENT; \
        size_t depth = DEPTH; \
        while (depth > 0 && sp[-(ptrdiff_t)depth] == PAINT) \
            depth--; \
        if ((MOST) < depth) \
            (MOST) = depth; \
    } while (0)

static void measure(uint8_t *t, size_t length, size_t words_length, const struct event *e)
{
    uint8_t *r = (uint8_t *)&report;
    size_t *of = &most[2 * e->function];
    struct vradomil_tables copy;
    memcpy(&copy, t, sizeof copy);
    switch (e->function) {
    case CALL:
        MEASURE(of[0], vradomil_call(t, length, words, words_length, e->process, e->index, e->op, e->uaddr, e->val, e->flag, e->time,
                                     e->uaddr2, e->val3));
        memcpy(t, &copy, sizeof copy);
        MEASURE(of[1], vradomil_call_report(t, length, words, words_length, e->process, e->index, e->op, e->uaddr, e->val, e->flag,
                                            e->time, e->uaddr2, e->val3, r, sizeof report));
        break;
    case STORE:
        MEASURE(of[0], vradomil_store(t, length, words, words_length, e->process, e->uaddr, e->val));
        MEASURE(of[1], vradomil_store_report(t, length, words, words_length, e->process, e->uaddr, e->val, r, sizeof report));
        break;
    case CLOCK:
        MEASURE(of[0], vradomil_clock(t, length, words, words_length, e->time));
        memcpy(t, &copy, sizeof copy);
        MEASURE(of[1], vradomil_clock_report(t, length, words, words_length, e->time, r, sizeof report));
        break;
    case INTERRUPT:
        MEASURE(of[0], vradomil_interrupt(t, length, words, words_length, e->process, e->index));
        memcpy(t, &copy, sizeof copy);
        MEASURE(of[1], vradomil_interrupt_report(t, length, words, words_length, e->process, e->index, r, sizeof report));
        break;
    case SET_PRIORITY:
        MEASURE(of[0], vradomil_set_priority(t, length, words, words_length, e->process, e->index, e->priority));
        MEASURE(of[1], vradomil_set_priority_report(t, length, words, words_length, e->process, e->index, e->priority, r, sizeof report));
        break;
    default:
        MEASURE(of[0], vradomil_query(t, length, e->process));
    }
    memcpy(t, &copy, sizeof copy);
}

/* One event, as it is and on buffers of a wrong length. */
static void measure_sample(struct sample *s)
{
    uint8_t *t = (uint8_t *)&s->tables;
    for (size_t i = 0; i < VRADOMIL_WORDS; i++)
        memcpy(words + 4 * i, &(int32_t){WORD_VALUE}, 4);
    measure(t, sizeof s->tables, sizeof words, &s->event);
    measure(t, sizeof s->tables - 1, sizeof words, &s->event);
    measure(t, sizeof s->tables, sizeof words - 1, &s->event);
}

int main(void)
{
    static const struct fill fills[] = {{0, 0, true}, {1, 1, true}, {32, 1, true}, {32, 7, true}, {63, 3, true}, {63, 7, true}};
    static const char *const names[] = {"call", "store", "clock", "interrupt", "set_priority", "query"};
    static struct sample s;
    for (int kind = 0; kind < KINDS; kind++)
        for (size_t k = 0; k < sizeof fills / sizeof *fills; k++)
            for (int i = 0; i < SAMPLES && fills[k].sleepers >= kinds[kind].fewest; i++) {
                make_sample(&s, kind, &fills[k]);
                measure_sample(&s);
            }
    MEASURE(most[2 * (QUERY + 1)], vradomil_fresh((uint8_t *)&s.tables, sizeof s.tables));
    printf("%-14s %8s %12s\n", "vradomil_", "bytes", "with report");
    for (int f = CALL; f < QUERY; f++)
        printf("%-14s %8zu %12zu\n", names[f], most[2 * f], most[2 * f + 1]);
    printf("%-14s %8zu\n%-14s %8zu\n", "query", most[2 * QUERY], "fresh", most[2 * (QUERY + 1)]);
}
