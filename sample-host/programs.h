/* What the threads of the map, section control and the stop key do. */
#ifndef PROGRAMS_H
#define PROGRAMS_H

#include "host.h"

program_t map_loader, map_painter, section_worker, stop_key, key_presser, key_logger;

/* How often each painter and each section worker does its work, and the words that count it. */
enum { ROUNDS = 2, PAINTERS = 3, WORKERS = 3 };
enum { MAP_PAINTED = 12, SECTIONS_DONE = 4 };

#endif
