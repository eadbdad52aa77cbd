/* Random chains and events, the same on every machine. */
#ifndef LISTS_H
#define LISTS_H

#include "model.h"

#include <stdbool.h>

struct source {
    uint64_t state;
};

/* The next number, one below n, and whether something that happens so often in a hundred happens. */
uint64_t next_random(struct source *r);
unsigned below(struct source *r, unsigned n);
bool chance(struct source *r, unsigned percent);

/* A chain with sound contents that events alone would seldom reach. Its records past the count hold what is sound only there. */
void random_chain(struct source *r, struct chain *s);

/*
 * The event at this position of a list, chosen to suit the chain s: the first ones arm and unmask, later ones raise requests and
 * pulse until the response ends, and some of each are out of place. All four bytes are random where the kind ignores them.
 */
void random_event(struct source *r, const struct chain *s, unsigned position, uint8_t event[4]);

/* An event that the chain s refuses; one that it accepts, and then s is the chain after it. */
void refused_event(struct source *r, const struct chain *s, uint8_t event[4]);
void accepted_event(struct source *r, struct chain *s, unsigned position, uint8_t event[4]);

#endif
