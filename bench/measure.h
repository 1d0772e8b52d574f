/* Times of the same work by several, taken in turns. */
#ifndef MEASURE_H
#define MEASURE_H

#include "world.h"

/* Does a piece of work so many times, and gives a sum of what came out of it. */
typedef uint64_t work(const struct contestant *contestant, struct world *world, uint32_t times);

/* Nanoseconds for one piece of work: half of the rounds took no longer, nine in ten took no longer, and the fastest. */
struct times {
    double median, ninth, fastest;
};

enum { MOST_COMPETITORS = 5 };

/* One of those who do a piece of work, in a world of its own. */
struct competitor {
    const char *name;
    const struct contestant *contestant;
    work *work;
    struct world *world;
    struct times times;
};

/* Each round lets every competitor work once, in turns. Stops the program where their sums differ. A piece counts as so many units. */
void measure(struct competitor *competitors, int count, int rounds, uint32_t times, double units);

#endif
