/*
 * A small host: it owns the tables and the words, runs the threads of several processes by turns on one CPU, and hands every
 * futex call, store, clock tick, interrupt and priority to the library.
 */
#ifndef HOST_H
#define HOST_H

#include "vradomil.h"

#include <stdbool.h>
#include <stdio.h>
#include <ucontext.h>

enum { CAMERA, MAP, SECTIONS, STOP_KEY };

struct host;
typedef void program_t(struct host *h);

/* What the host keeps of a thread that the library doesn't: its program and where it is in it. */
struct thread {
    program_t *program; /* null: the host runs no such thread */
    ucontext_t context;
    bool asleep;        /* its last call answered VRADOMIL_ASLEEP and hasn't ended */
    bool done;
    int32_t answer;     /* what that call is worth, once it has ended */
};

struct host {
    struct vradomil_tables tables;
    uint8_t words[VRADOMIL_WORDS_BYTES];
    struct thread threads[VRADOMIL_THREADS];
    unsigned running; /* the number of the thread whose turn it is */
    ucontext_t scheduler;
    char trace[16384]; /* a line for each answer that a thread gets */
    size_t traced;
};

/* The arguments of a futex call; what isn't named is 0. */
struct futex {
    uint32_t op, uaddr, val;
    bool timed;
    uint64_t timeout;
    uint32_t uaddr2, cap2, val3;
};

/* For the main program. */
void host_start(struct host *h);
/* One futex call by any thread, as the library answers it. */
int32_t host_call(struct host *h, uint8_t process, uint8_t index, struct futex call, struct vradomil_report *report);
/* A line with an answer as number and in words, and its reason if it has one. */
void print_answer(FILE *out, int32_t answer, struct vradomil_report report);
void host_spawn(struct host *h, uint8_t process, uint8_t index, program_t *program);
void host_turns(struct host *h);
void host_clock(struct host *h, uint64_t time);
void host_interrupt(struct host *h, uint8_t process, uint8_t index);
void host_set_priority(struct host *h, uint8_t process, uint8_t index, uint8_t priority);
/* To be told of every answer above 0: some thread may run again. */
void host_collect(struct host *h);

/* For the threads: the words of their own process, the futex call, and the end of a turn. */
uint32_t load(const struct host *h, uint32_t address);
void store(struct host *h, uint32_t address, uint32_t value);
int32_t futex(struct host *h, struct futex call);
void pause_turn(struct host *h);
void say(struct host *h, const char *format, ...) __attribute__((format(printf, 2, 3)));

#endif
