/* The events that are measured, and tables to measure them on. */
#ifndef KINDS_H
#define KINDS_H

#include "../include/vradomil.h"

#include <stdbool.h>

enum function { CALL, STORE, CLOCK, INTERRUPT, SET_PRIORITY, QUERY };

struct event {
    enum function function;
    uint8_t process, index, flag, priority;
    uint32_t op, uaddr, val, uaddr2, val3;
    uint64_t time;
};

/* A case: tables and one event on them. */
struct sample {
    struct vradomil_tables tables;
    struct event event;
};

/* How the tables of a case are filled. */
struct fill {
    int sleepers; /* of all processes */
    int there;    /* how many of them wait at the caller's first word, the rest at others */
    bool mixed;   /* priorities from 0 to 31, else all equal */
};

struct kind {
    const char *name;
    bool takes;          /* it takes sleepers by priority: measured by how many wait there, and with equal and mixed priorities */
    int fewest;          /* it makes sense from so many sleepers on */
    int64_t least, most; /* the answers that it must get */
    uint8_t reason;      /* and the reason that is reported with them */
};

/* What stands in a report before an event. A query has no report and leaves it. */
enum { STALE = 255 };

enum { KINDS = 21 };
extern const struct kind kinds[KINDS];

/* The words that the events read hold this number. */
enum { WORD_VALUE = -7 };

/* One random case of a kind. */
void make_sample(struct sample *s, int kind, const struct fill *fill);

#endif
