/* What the kinds are made with. */
#ifndef SAMPLES_H
#define SAMPLES_H

#include "kinds.h"

/*
 * Sleepers wait at the first three. Of the caller's process as many wait at the first as the fill says, the others at the second
 * and the third; if there are any, one at least at the second.
 */
extern const uint32_t addresses[4];

uint64_t draw(void);

/* Random tables, in which the caller runs. */
void make_tables(struct vradomil_tables *t, uint8_t caller, const struct fill *fill);

/* Gives all sleepers other masks; says which mask so many matching ones of those there, at the caller's first word, share alone. */
uint32_t make_masks(struct vradomil_tables *t, uint8_t caller, uint64_t there, uint64_t matching);

struct event make_call(uint8_t caller, uint32_t op, uint32_t uaddr, uint32_t val);

/* From the first address to the second; the comparison is true. */
struct event make_requeue(uint8_t caller, uint32_t cap, uint32_t cap2);

/* One sleeper at the first address and one at uaddr2, whose word stays; the comparison is true. */
struct event make_wake_op(uint8_t caller, uint32_t uaddr2);

#endif
