#include "host.h"

#include <stdarg.h>
#include <stdlib.h>
#include <string.h>

/* Stacks lie 4 MiB apart, so that valgrind takes a jump from one to another for a change of stack. No more than this is used. */
#define STACK_BYTES 65536
static uint8_t stacks[4][VRADOMIL_THREADS_PER_PROCESS][4 << 20];

static uint8_t *tables(struct host *h)
{
    return (uint8_t *)&h->tables;
}

void print_answer(FILE *out, int32_t answer, struct vradomil_report report)
{
    fprintf(out, "%d, %s", (int)answer, vradomil_answer_text(answer));
    if (report.reason != VRADOMIL_REASON_NONE)
        fprintf(out, ": %s", vradomil_reason_text(report.reason));
    fprintf(out, "\n");
}

/* For events that must not be refused: a refusal says that this host, or one of its programs, is wrong. */
static int32_t granted(const char *what, int32_t answer, struct vradomil_report report)
{
    if (answer >= 0)
        return answer;
    fprintf(stderr, "the host's %s was refused: ", what);
    print_answer(stderr, answer, report);
    exit(1);
}

void say(struct host *h, const char *format, ...)
{
    static const char *const names[] = {"camera", "map", "sections", "stop key"};
    char text[128];
    va_list arguments;
    va_start(arguments, format);
    vsnprintf(text, sizeof text, format, arguments);
    va_end(arguments);
    size_t room = sizeof h->trace - h->traced;
    int length = snprintf(h->trace + h->traced, room, "%4u  %-8s %u  %s\n", (unsigned)h->tables.clock, names[h->running / 8],
                          h->running % 8, text);
    if ((size_t)length >= room) {
        fprintf(stderr, "no room for the trace\n");
        exit(1);
    }
    h->traced += (size_t)length;
}

void host_start(struct host *h)
{
    memset(h, 0, sizeof *h);
    granted("start", vradomil_fresh(tables(h), sizeof h->tables), (struct vradomil_report){0});
}

/* The first turn of a thread comes here; makecontext can hand over no pointer, so the host is kept aside. */
static struct host *starting;

static void first_turn(void)
{
    struct host *h = starting;
    struct thread *t = &h->threads[h->running];
    t->program(h);
    t->done = true;
    say(h, "ends");
    swapcontext(&t->context, &h->scheduler);
}

void host_spawn(struct host *h, uint8_t process, uint8_t index, program_t *program)
{
    struct thread *t = &h->threads[8 * process + index];
    t->program = program;
    getcontext(&t->context);
    t->context.uc_stack.ss_sp = stacks[process][index];
    t->context.uc_stack.ss_size = STACK_BYTES;
    makecontext(&t->context, first_turn, 0);
}

/* One turn for each thread that can run. The order is fixed, so that no process can change when another has its turn. */
void host_turns(struct host *h)
{
    starting = h;
    for (unsigned number = 0; number < VRADOMIL_THREADS; number++) {
        struct thread *t = &h->threads[number];
        if (t->program == NULL || t->asleep || t->done)
            continue;
        h->running = number;
        swapcontext(&h->scheduler, &t->context);
    }
}

void pause_turn(struct host *h)
{
    swapcontext(&h->threads[h->running].context, &h->scheduler);
}

/* A thread runs again if it was put to sleep and its waiting byte is 0; its call then has the value that last stands for. */
void host_collect(struct host *h)
{
    unsigned running = h->running;
    for (unsigned number = 0; number < VRADOMIL_THREADS; number++) {
        struct thread *t = &h->threads[number];
        if (!t->asleep || h->tables.waiting[number])
            continue;
        t->asleep = false;
        t->answer = vradomil_last_answer(h->tables.last[number]);
        h->running = number;
        say(h, "runs again: %d", (int)t->answer);
    }
    h->running = running;
}

void host_clock(struct host *h, uint64_t time)
{
    struct vradomil_report report;
    int32_t ended = vradomil_clock_report(tables(h), sizeof h->tables, h->words, sizeof h->words, time, (uint8_t *)&report,
                                          sizeof report);
    if (granted("clock", ended, report) > 0)
        host_collect(h);
}

void host_interrupt(struct host *h, uint8_t process, uint8_t index)
{
    struct vradomil_report report;
    int32_t ended = vradomil_interrupt_report(tables(h), sizeof h->tables, h->words, sizeof h->words, process, index,
                                              (uint8_t *)&report, sizeof report);
    if (granted("interrupt", ended, report) > 0)
        host_collect(h);
}

void host_set_priority(struct host *h, uint8_t process, uint8_t index, uint8_t priority)
{
    struct vradomil_report report;
    int32_t answer = vradomil_set_priority_report(tables(h), sizeof h->tables, h->words, sizeof h->words, process, index, priority,
                                                  (uint8_t *)&report, sizeof report);
    granted("priority", answer, report);
}

uint32_t load(const struct host *h, uint32_t address)
{
    uint32_t value;
    memcpy(&value, h->words + 4096 * (h->running / 8) + address, sizeof value);
    return value;
}

void store(struct host *h, uint32_t address, uint32_t value)
{
    uint8_t process = (uint8_t)(h->running / 8);
    struct vradomil_report report;
    int32_t answer = vradomil_store_report(tables(h), sizeof h->tables, h->words, sizeof h->words, process, address, value,
                                           (uint8_t *)&report, sizeof report);
    granted("store", answer, report);
}

int32_t host_call(struct host *h, uint8_t process, uint8_t index, struct futex call, struct vradomil_report *report)
{
    uint64_t timeout = call.timed ? call.timeout : call.cap2;
    return vradomil_call_report(tables(h), sizeof h->tables, h->words, sizeof h->words, process, index, call.op, call.uaddr,
                                call.val, call.timed, timeout, call.uaddr2, call.val3, (uint8_t *)report, sizeof *report);
}

/*
 * The futex call of the running thread. It returns when the call has ended: at once, or after a sleep. The programs here are the
 * host's own and make no wrong calls; a host for others hands -22, -14 and -38 to the caller.
 */
int32_t futex(struct host *h, struct futex call)
{
    struct thread *t = &h->threads[h->running];
    struct vradomil_report report;
    int32_t answer = host_call(h, (uint8_t)(h->running / 8), (uint8_t)(h->running % 8), call, &report);
    if (answer != VRADOMIL_EAGAIN && answer != VRADOMIL_ETIMEDOUT)
        granted("futex call", answer, report);
    if (answer == VRADOMIL_ASLEEP) {
        t->asleep = true;
        pause_turn(h);
        return t->answer;
    }
    if (answer > 0)
        host_collect(h);
    return answer;
}
