/*
 * Feeds the library random tables, words, lengths and arguments, in heap buffers of just their length, so that valgrind sees a
 * read or write outside them. A refusal must change nothing. Half of the events are asked for a report, in a buffer that may be too
 * short or too long. usage: random-bytes SEED EVENTS
 */
#include "vradomil.h"

#include <stdio.h>
#include <stdlib.h>
#include <string.h>

static uint64_t seed;

/* splitmix64 */
static uint64_t draw(void)
{
    seed += UINT64_C(0x9E3779B97F4A7C15);
    uint64_t x = seed;
    x = (x ^ x >> 30) * UINT64_C(0xBF58476D1CE4E5B9);
    x = (x ^ x >> 27) * UINT64_C(0x94D049BB133111EB);
    return x ^ x >> 31;
}

struct buffer {
    uint8_t *bytes, *before;
    size_t length;
};

static struct buffer buffer(size_t length)
{
    struct buffer b = {malloc(length), malloc(length), length};
    if (b.bytes == NULL || b.before == NULL)
        exit(2);
    for (size_t k = 0; k < length; k++)
        b.bytes[k] = 0;
    return b;
}

static void drop(struct buffer b)
{
    free(b.bytes);
    free(b.before);
}

static size_t length_near(size_t good)
{
    return draw() % 4 != 0 ? good : draw() % 2 ? (size_t)(draw() % (2 * good)) : good - 2 + (size_t)(draw() % 5);
}

/* Sound tables from the start, at times with a few bytes changed, at times random all over. */
static void make_tables(struct buffer t)
{
    uint64_t way = draw() % 8;
    if (vradomil_fresh(t.bytes, t.length) != 0 || way == 0)
        for (size_t k = 0; k < t.length; k++)
            t.bytes[k] = (uint8_t)draw();
    for (; way > 5 && t.length > 0; way--)
        t.bytes[draw() % t.length] = (uint8_t)draw();
}

/* Small numbers, edges, and any. */
static uint32_t number(void)
{
    static const uint32_t edges[] = {4092, 4094, 4095, 4096, 4097, 2147483647, 2147483648, UINT32_MAX};
    uint64_t x = draw();
    return x % 4 < 2 ? (x >> 8) % 3 * 4 : x % 4 == 2 ? edges[(x >> 8) % 8] : (uint32_t)(x >> 32);
}

/* Mostly good: one in eight is any byte. */
static uint8_t small(void)
{
    return (uint8_t)(draw() % 8 ? draw() % 8 : draw());
}

enum function { STORE, CLOCK, INTERRUPT, SET_PRIORITY, QUERY, CALL };

struct event {
    enum function function;
    uint8_t process, index, flag, priority;
    uint32_t op, uaddr, val, uaddr2, val3;
    uint64_t time;
};

static struct event make_event(void)
{
    static const uint32_t ops[] = {0, 0, 9, 9, 1, 3, 4, 5, 10};
    struct event e = {.process = small(), .index = small(), .flag = draw() % 2, .uaddr = number(), .uaddr2 = number()};
    uint64_t function = draw() % 12;
    e.function = function < CALL ? (enum function)function : CALL;
    e.op = draw() % 16 ? ops[draw() % 9] | (draw() % 4 ? 0 : 128) : (uint32_t)draw();
    e.priority = (uint8_t)(draw() % 8 ? draw() % 40 : draw());
    e.val = draw() % 8 ? 0 : number();
    e.val3 = number();
    e.time = draw() % 8 ? draw() % 64 : draw();
    return e;
}

static int64_t ask(struct buffer t, struct buffer w, struct event e)
{
    switch (e.function) {
    case STORE:
        return vradomil_store(t.bytes, t.length, w.bytes, w.length, e.process, e.uaddr, e.val);
    case CLOCK:
        return vradomil_clock(t.bytes, t.length, w.bytes, w.length, e.time);
    case INTERRUPT:
        return vradomil_interrupt(t.bytes, t.length, w.bytes, w.length, e.process, e.index);
    case SET_PRIORITY:
        return vradomil_set_priority(t.bytes, t.length, w.bytes, w.length, e.process, e.index, e.priority);
    case QUERY:
        return vradomil_query(t.bytes, t.length, e.process);
    default:
        return vradomil_call(t.bytes, t.length, w.bytes, w.length, e.process, e.index, e.op, e.uaddr, e.val, e.flag, e.time,
                             e.uaddr2, e.val3);
    }
}

static int64_t ask_report(struct buffer t, struct buffer w, struct event e, struct buffer r)
{
    switch (e.function) {
    case STORE:
        return vradomil_store_report(t.bytes, t.length, w.bytes, w.length, e.process, e.uaddr, e.val, r.bytes, r.length);
    case CLOCK:
        return vradomil_clock_report(t.bytes, t.length, w.bytes, w.length, e.time, r.bytes, r.length);
    case INTERRUPT:
        return vradomil_interrupt_report(t.bytes, t.length, w.bytes, w.length, e.process, e.index, r.bytes, r.length);
    case SET_PRIORITY:
        return vradomil_set_priority_report(t.bytes, t.length, w.bytes, w.length, e.process, e.index, e.priority, r.bytes,
                                            r.length);
    default:
        return vradomil_call_report(t.bytes, t.length, w.bytes, w.length, e.process, e.index, e.op, e.uaddr, e.val, e.flag, e.time,
                                    e.uaddr2, e.val3, r.bytes, r.length);
    }
}

static void fail(const char *what)
{
    printf("random-bytes: %s\n", what);
    exit(1);
}

/* A reason stands there just where the answer is -22, whatever stood there before, and nothing behind it is touched. */
static void check_report(struct buffer r, int64_t answer)
{
    size_t written = r.length < VRADOMIL_REPORT_BYTES ? r.length : VRADOMIL_REPORT_BYTES;
    if (written != 0 && (r.bytes[0] > VRADOMIL_REASON_PRIORITY || (r.bytes[0] != 0) != (answer == VRADOMIL_EINVAL)))
        fail("a report has a wrong reason");
    if (memcmp(r.before + written, r.bytes + written, r.length - written) != 0)
        fail("a byte behind a report was changed");
}

static int64_t event(struct buffer t, struct buffer w, struct buffer r)
{
    struct event e = make_event();
    if (e.function == QUERY || draw() % 2)
        return ask(t, w, e);
    for (size_t k = 0; k < r.length; k++)
        r.before[k] = r.bytes[k] = (uint8_t)draw();
    int64_t answer = ask_report(t, w, e, r);
    check_report(r, answer);
    return answer;
}

/* Events on one set of buffers. Gives how many were refused; stops if a refusal changed a byte. */
static unsigned long try_buffers(unsigned long events)
{
    struct buffer t = buffer(length_near(VRADOMIL_TABLES_BYTES)), w = buffer(length_near(VRADOMIL_WORDS_BYTES));
    struct buffer r = buffer((size_t)(draw() % 2 ? VRADOMIL_REPORT_BYTES : draw() % 9));
    unsigned long refused = 0;
    make_tables(t);
    for (unsigned long k = 0; k < events; k++) {
        memcpy(t.before, t.bytes, t.length);
        memcpy(w.before, w.bytes, w.length);
        if (event(t, w, r) >= 0)
            continue;
        refused++;
        if (memcmp(t.before, t.bytes, t.length) != 0 || memcmp(w.before, w.bytes, w.length) != 0)
            fail("a refusal changed a byte");
    }
    drop(t);
    drop(w);
    drop(r);
    return refused;
}

int main(int argc, char **argv)
{
    if (argc != 3) {
        fprintf(stderr, "usage: random-bytes SEED EVENTS\n");
        return 2;
    }
    seed = strtoull(argv[1], NULL, 10);
    unsigned long events = strtoul(argv[2], NULL, 10), refused = 0;
    for (unsigned long done = 0; done < events; done += 50)
        refused += try_buffers(50);
    printf("random-bytes: %lu events, %lu refused\n", events, refused);
    return 0;
}
