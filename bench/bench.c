/*
 * Times the library against plain.c and tuned.c on the same events: many short batches, the sides by turns, each batch on tables
 * that were copied into place just before, outside the time. Prints the median time of a call and the median ratios; first of the
 * functions that answer a number alone, then of those that also write a report. With an older library beside it, that is one more
 * side, by its numbers alone both times, with a dash where it lacks the function. It can also make each call once, for callgrind.
 */
#define _GNU_SOURCE
#include "kinds.h"
#include "plain.h"
#include "tuned.h"

#include <math.h>
#include <stdbool.h>
#include <stdio.h>
#include <stdlib.h>
#include <string.h>
#include <time.h>

/*
 * A batch's tables fit the first cache. Forty batches differ enough that no branch is foreseen by heart, which is hard on code that
 * branches on what the tables hold; with a single batch, over and over, the processor knows them all, which is kind to it.
 */
enum { BATCH = 24, BATCHES = 40, SAMPLES = BATCHES * BATCH, ROUNDS = 2000 };
#ifndef WITH_BEFORE
#define WITH_BEFORE 0
#endif
enum { PLAIN, TUNED, LIBRARY, BEFORE, SIDES = BEFORE + WITH_BEFORE };

/* A side without reports has null in the second half; a library from before priorities has null for the function that sets them. */
struct kernel {
    const char *name;
    int32_t (*call)(uint8_t *, size_t, uint8_t *, size_t, uint8_t, uint8_t, uint32_t, uint32_t, uint32_t, uint8_t, uint64_t,
                    uint32_t, uint32_t);
    int32_t (*store)(const uint8_t *, size_t, uint8_t *, size_t, uint8_t, uint32_t, uint32_t);
    int32_t (*clock)(uint8_t *, size_t, const uint8_t *, size_t, uint64_t);
    int32_t (*interrupt)(uint8_t *, size_t, const uint8_t *, size_t, uint8_t, uint8_t);
    int32_t (*set_priority)(uint8_t *, size_t, const uint8_t *, size_t, uint8_t, uint8_t, uint8_t);
    uint32_t (*query)(const uint8_t *, size_t, uint8_t);
    int32_t (*call_report)(uint8_t *, size_t, uint8_t *, size_t, uint8_t, uint8_t, uint32_t, uint32_t, uint32_t, uint8_t,
                           uint64_t, uint32_t, uint32_t, uint8_t *, size_t);
    int32_t (*store_report)(const uint8_t *, size_t, uint8_t *, size_t, uint8_t, uint32_t, uint32_t, uint8_t *, size_t);
    int32_t (*clock_report)(uint8_t *, size_t, const uint8_t *, size_t, uint64_t, uint8_t *, size_t);
    int32_t (*interrupt_report)(uint8_t *, size_t, const uint8_t *, size_t, uint8_t, uint8_t, uint8_t *, size_t);
    int32_t (*set_priority_report)(uint8_t *, size_t, const uint8_t *, size_t, uint8_t, uint8_t, uint8_t, uint8_t *, size_t);
};

#define NUMBERS(name) name##_call, name##_store, name##_clock, name##_interrupt, name##_set_priority, name##_query
#define REPORTS(name) \
    name##_call_report, name##_store_report, name##_clock_report, name##_interrupt_report, name##_set_priority_report

#if WITH_BEFORE
/* The older library; bench/build gives its functions these names. */
__typeof__(vradomil_call) before_vradomil_call;
__typeof__(vradomil_store) before_vradomil_store;
__typeof__(vradomil_clock) before_vradomil_clock;
__typeof__(vradomil_interrupt) before_vradomil_interrupt;
__typeof__(vradomil_set_priority) before_vradomil_set_priority __attribute__((weak)); /* null if it has none */
__typeof__(vradomil_query) before_vradomil_query;
#endif

static const struct kernel kernels[SIDES] = {
    [PLAIN] = {"plain", NUMBERS(plain), REPORTS(plain)},
    [TUNED] = {"tuned", NUMBERS(tuned), REPORTS(tuned)},
    [LIBRARY] = {"library", NUMBERS(vradomil), REPORTS(vradomil)},
#if WITH_BEFORE
    [BEFORE] = {"before", NUMBERS(before_vradomil), NULL, NULL, NULL, NULL, NULL},
#endif
};

/* What one side works on, and what it answered. */
struct side {
    struct vradomil_tables tables[BATCH];
    int64_t answers[BATCH];
    struct vradomil_report reports[BATCH];
    uint32_t words[VRADOMIL_WORDS];
};

/* The fills of the kinds that take sleepers by priority, and of the others, to whom priorities are all the same. */
static const struct fill taking_fills[] = {
    {1, 1, false}, {1, 1, true},
    {32, 1, false}, {32, 1, true}, {32, 4, false}, {32, 4, true}, {32, 7, false}, {32, 7, true},
    {63, 1, false}, {63, 1, true}, {63, 4, false}, {63, 4, true}, {63, 7, false}, {63, 7, true},
};
static const struct fill other_fills[] = {{0, 0, true}, {1, 1, true}, {32, 3, true}, {63, 3, true}};
enum { MOST_FILLS = sizeof taking_fills / sizeof *taking_fills, MOST_CELLS = KINDS * MOST_FILLS };

/* What one line is of. */
struct cell {
    int kind;
    const struct fill *fill;
};

static size_t batches = BATCHES; /* how many are run by turns */
static bool by_arrival[SIDES];   /* which sides are from before request (vii) */
static struct sample samples[SAMPLES];
static struct side sides[SIDES];

static double now(void)
{
    struct timespec t;
    clock_gettime(CLOCK_MONOTONIC, &t);
    return (double)t.tv_sec * 1e9 + (double)t.tv_nsec;
}

/* The tables of a library from before priorities are the same bytes, and end where the priorities begin. */
static size_t tables_length(const struct kernel *k)
{
    return k->set_priority != NULL ? sizeof(struct vradomil_tables) : offsetof(struct vradomil_tables, priority);
}

static inline int64_t apply(const struct kernel *k, uint8_t *t, size_t length, uint8_t *w, const struct event *e)
{
    switch (e->function) {
    case CALL:
        return k->call(t, length, w, VRADOMIL_WORDS_BYTES, e->process, e->index, e->op, e->uaddr, e->val, e->flag, e->time,
                       e->uaddr2, e->val3);
    case STORE:
        return k->store(t, length, w, VRADOMIL_WORDS_BYTES, e->process, e->uaddr, e->val);
    case CLOCK:
        return k->clock(t, length, w, VRADOMIL_WORDS_BYTES, e->time);
    case INTERRUPT:
        return k->interrupt(t, length, w, VRADOMIL_WORDS_BYTES, e->process, e->index);
    case SET_PRIORITY:
        return k->set_priority(t, length, w, VRADOMIL_WORDS_BYTES, e->process, e->index, e->priority);
    default:
        return k->query(t, length, e->process);
    }
}

static inline int64_t apply_report(const struct kernel *k, uint8_t *t, size_t length, uint8_t *w, const struct event *e,
                                   struct vradomil_report *report)
{
    uint8_t *r = (uint8_t *)report;
    switch (e->function) {
    case CALL:
        return k->call_report(t, length, w, VRADOMIL_WORDS_BYTES, e->process, e->index, e->op, e->uaddr, e->val, e->flag, e->time,
                              e->uaddr2, e->val3, r, sizeof *report);
    case STORE:
        return k->store_report(t, length, w, VRADOMIL_WORDS_BYTES, e->process, e->uaddr, e->val, r, sizeof *report);
    case CLOCK:
        return k->clock_report(t, length, w, VRADOMIL_WORDS_BYTES, e->time, r, sizeof *report);
    case INTERRUPT:
        return k->interrupt_report(t, length, w, VRADOMIL_WORDS_BYTES, e->process, e->index, r, sizeof *report);
    case SET_PRIORITY:
        return k->set_priority_report(t, length, w, VRADOMIL_WORDS_BYTES, e->process, e->index, e->priority, r, sizeof *report);
    default:
        return k->query(t, length, e->process);
    }
}

/* Whether a side has the function that the samples call. */
static bool takes_part(size_t side)
{
    return samples[0].event.function != SET_PRIORITY || kernels[side].set_priority != NULL;
}

/* One batch on one side: nanoseconds a call. */
static double run_batch(const struct kernel *k, struct side *s, const struct sample *first, bool report, double timer)
{
    uint8_t *words = (uint8_t *)s->words;
    size_t length = tables_length(k);
    for (size_t i = 0; i < BATCH; i++) {
        s->tables[i] = first[i].tables;
        s->reports[i].reason = STALE;
    }
    double start = now();
    if (report && k->call_report != NULL)
        for (size_t i = 0; i < BATCH; i++)
            s->answers[i] = apply_report(k, (uint8_t *)&s->tables[i], length, words, &first[i].event, &s->reports[i]);
    else
        for (size_t i = 0; i < BATCH; i++)
            s->answers[i] = apply(k, (uint8_t *)&s->tables[i], length, words, &first[i].event);
    return (now() - start - timer) / BATCH;
}

static void fail(const struct kind *kind, int side, const char *what)
{
    printf("bench: %s: %s differs from plain, or from the kind, in %s\n", kind->name, kernels[side].name, what);
    exit(1);
}

/*
 * Each side must have answered and reported as plain.c, as the kind says, and left the same bytes; the priorities too where an
 * older library was not lent them, for no event that it has changes one. One that takes sleepers by arrival must still have taken
 * as many, and the same ones in the same order if priorities are equal.
 */
static void check(const struct cell *cell, bool report)
{
    const struct side *plain = &sides[PLAIN];
    const struct kind *kind = &kinds[cell->kind];
    for (int side = 0; side < SIDES; side++) {
        if (!takes_part(side))
            continue;
        uint8_t reason = report && kernels[side].call_report != NULL ? kind->reason : STALE;
        for (size_t i = 0; i < BATCH; i++) {
            int64_t answer = sides[side].answers[i];
            if (answer != plain->answers[i] || answer < kind->least || answer > kind->most)
                fail(kind, side, "an answer");
            if (sides[side].reports[i].reason != reason)
                fail(kind, side, "a reason");
        }
        bool others = by_arrival[side] && kind->takes && cell->fill->mixed;
        if (!others && memcmp(sides[side].tables, plain->tables, sizeof plain->tables) != 0)
            fail(kind, side, "the tables");
        if (memcmp(sides[side].words, plain->words, sizeof plain->words) != 0)
            fail(kind, side, "the words");
    }
}

/* Whether a side wakes the first of two sleepers at a word, and not the second, whose priority is higher. */
static bool wakes_first(const struct kernel *k)
{
    static struct vradomil_tables t;
    static uint8_t words[VRADOMIL_WORDS_BYTES];
    uint8_t *bytes = (uint8_t *)&t;
    plain_fresh(bytes, sizeof t);
    for (uint8_t index = 1; index <= 2; index++) {
        k->call(bytes, tables_length(k), words, sizeof words, 0, index, VRADOMIL_WAIT, 0, 0, 0, 0, 0, 0);
        t.priority[index] = index;
    }
    k->call(bytes, tables_length(k), words, sizeof words, 0, 0, VRADOMIL_WAKE, 0, 1, 0, 0, 0, 0);
    return !t.waiting[1];
}

static void find_by_arrival(void)
{
    for (int side = 0; side < SIDES; side++) {
        by_arrival[side] = wakes_first(&kernels[side]);
        if (by_arrival[side])
            printf("%s takes sleepers by arrival: whom it took of mixed priorities is not compared.\n", kernels[side].name);
    }
}

static int by_size(const void *a, const void *b)
{
    double x = *(const double *)a, y = *(const double *)b;
    return (x > y) - (x < y);
}

static double median(double *values, size_t n)
{
    qsort(values, n, sizeof *values, by_size);
    return values[n / 2];
}

/* What reading the time twice costs. */
static double timer_cost(void)
{
    double costs[1000];
    for (size_t k = 0; k < 1000; k++) {
        double start = now();
        costs[k] = now() - start;
    }
    return median(costs, 1000);
}

static void prepare(const struct cell *cell)
{
    for (size_t i = 0; i < SAMPLES; i++)
        make_sample(&samples[i], cell->kind, cell->fill);
    for (int side = 0; side < SIDES; side++)
        for (size_t i = 0; i < VRADOMIL_WORDS; i++)
            sides[side].words[i] = WORD_VALUE;
}

/* The next batch on all sides: nanoseconds a call, no number where a side takes no part. */
static void run_round(const struct cell *cell, size_t round, bool report, double timer, double times[SIDES])
{
    const struct sample *first = &samples[round % batches * BATCH];
    size_t step = round / SIDES % 2 ? SIDES - 1 : 1; /* each side at each place, both ways round */
    for (size_t turn = 0; turn < SIDES; turn++) {
        size_t side = (round + turn * step) % SIDES;
        times[side] = takes_part(side) ? run_batch(&kernels[side], &sides[side], first, report, timer) : NAN;
    }
    check(cell, report);
}

/* The kind, how many sleep in all and at the word, and how the priorities are; dashes for the last two where they don't matter. */
static void print_cell(const struct cell *cell)
{
    printf("%-24s %8d", kinds[cell->kind].name, cell->fill->sleepers);
    if (kinds[cell->kind].takes)
        printf(" %5d %10s", cell->fill->there, cell->fill->mixed ? "mixed" : "equal");
    else
        printf(" %5s %10s", "-", "-");
}

/* In its column, or a dash. */
static void print_figure(double figure, int width, int digits)
{
    if (isnan(figure))
        printf(" %*s", width, "-");
    else
        printf(" %*.*f", width, digits, figure);
}

/* Prints one line; gives the library's time over that of each side. */
static void measure(const struct cell *cell, bool report, double timer, double over[SIDES])
{
    static double times[SIDES][ROUNDS], ratios[SIDES][ROUNDS];
    double took[SIDES];
    prepare(cell);
    for (size_t round = 0; round < ROUNDS; round++) {
        run_round(cell, round, report, timer, took);
        for (int side = 0; side < SIDES; side++) {
            times[side][round] = took[side];
            ratios[side][round] = took[LIBRARY] / took[side];
        }
    }
    print_cell(cell);
    for (int side = 0; side < SIDES; side++)
        print_figure(median(times[side], ROUNDS), 10, 1);
    for (int side = 0; side < SIDES; side++) {
        over[side] = median(ratios[side], ROUNDS);
        if (side != LIBRARY)
            print_figure(over[side], 14, 2);
    }
    printf("\n");
}

static void headings(void)
{
    printf("%-24s %8s %5s %10s", "event", "sleepers", "there", "priorities");
    for (int side = 0; side < SIDES; side++)
        printf(" %7s ns", kernels[side].name);
    for (int side = 0; side < SIDES; side++)
        if (side != LIBRARY)
            printf(" %*s/%s", 13 - (int)strlen(kernels[side].name), kernels[LIBRARY].name, kernels[side].name);
    printf("\n");
}

/* All kinds with all their fills; says how many. */
static size_t list_cells(struct cell cells[MOST_CELLS])
{
    size_t n = 0;
    for (int kind = 0; kind < KINDS; kind++) {
        const struct fill *fills = kinds[kind].takes ? taking_fills : other_fills;
        size_t count = kinds[kind].takes ? sizeof taking_fills / sizeof *fills : sizeof other_fills / sizeof *fills;
        for (size_t k = 0; k < count; k++)
            if (fills[k].sleepers >= kinds[kind].fewest)
                cells[n++] = (struct cell){kind, &fills[k]};
    }
    return n;
}

/* A line for each cell, and a last line over all of them. */
static void measure_all(const char *title, bool report, double timer)
{
    struct cell cells[MOST_CELLS];
    double over[SIDES], all[SIDES][MOST_CELLS];
    size_t n = list_cells(cells), figures[SIDES] = {0};
    headings();
    for (size_t k = 0; k < n; k++) {
        measure(&cells[k], report, timer, over);
        for (int side = 0; side < SIDES; side++)
            if (!isnan(over[side]))
                all[side][figures[side]++] = over[side];
    }
    for (int side = 0; side < SIDES; side++) {
        double middle = median(all[side], figures[side]);
        if (side != LIBRARY)
            printf("%s library/%s: median %.2f, lowest %.2f, highest %.2f", side == 0 ? title : ";", kernels[side].name, middle,
                   all[side][0], all[side][figures[side] - 1]);
    }
    printf("\n");
}

/* Does nothing, but is called: bench/count has callgrind write down here what it counted, before the first cell and after each. */
__attribute__((noinline)) void counted(void)
{
    __asm__ volatile("");
}

/* Makes each call once on all sides, and prints each cell with how many calls there were. */
static void count_all(void)
{
    struct cell cells[MOST_CELLS];
    double times[SIDES];
    size_t n = list_cells(cells);
    for (size_t k = 0; k < n; k++) {
        prepare(&cells[k]);
        for (size_t round = 0; round < batches; round++)
            run_round(&cells[k], round, false, 0, times);
        counted();
        print_cell(&cells[k]);
        printf(" %10zu\n", batches * BATCH);
    }
}

int main(int argc, char **argv)
{
    double timer = timer_cost();
    const char *what = argc > 1 ? argv[1] : "";
    if (argc > 2)
        batches = strtoul(argv[2], NULL, 10);
    bool good = argc <= 3 && batches >= 1 && batches <= BATCHES;
    if (good && strcmp(what, "time") == 0) {
        find_by_arrival();
        measure_all("numbers:", false, timer);
        printf("\n");
        measure_all("reports:", true, timer);
    } else if (good && strcmp(what, "count") == 0) {
        find_by_arrival();
        counted();
        count_all();
    } else {
        fprintf(stderr, "usage: bench time|count [BATCHES], 1 to %d\n", BATCHES);
        return 2;
    }
    return 0;
}
