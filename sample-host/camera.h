/* A camera process gone wrong: it floods the kernel with good and bad calls, all of its own process. */
#ifndef CAMERA_H
#define CAMERA_H

#include "host.h"

struct flood {
    uint64_t seed;
    unsigned calls, asleep, refused;
    unsigned reasons[256]; /* how many were refused for each; 0 counts all other answers */
};

void camera_flood(struct host *h, struct flood *flood, unsigned calls);

#endif
