/* What a refusal looks like to a host: its number, and for -22 its reason. */
#ifndef REFUSALS_H
#define REFUSALS_H

#include "host.h"

/* Makes events with wrong arguments, each reason among them, and prints what each gets. */
void show_refusals(struct host *h);

#endif
