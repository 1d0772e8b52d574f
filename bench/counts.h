/* Puts for callgrind to count. */
#ifndef COUNTS_H
#define COUNTS_H

#include "contestant.h"

/*
 * Makes as many puts as `times` says, and empties the ring after each. The packet is a mouse's, of so many events, or for a name of a
 * type so many events of that type and behind them one that isn't offered. Ends the program where an answer is another one.
 */
void make_puts(const char *contestant, const char *kind, uint32_t events, uint32_t times);

#endif
