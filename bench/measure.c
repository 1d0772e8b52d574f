#include "measure.h"

#include <stdio.h>
#include <stdlib.h>
#include <time.h>

enum { MOST_ROUNDS = 4001 };

static double samples[MOST_COMPETITORS][MOST_ROUNDS];

static double now(void)
{
    struct timespec time;
    clock_gettime(CLOCK_MONOTONIC, &time);
    return (double)time.tv_sec * 1e9 + (double)time.tv_nsec;
}

static int by_size(const void *left, const void *right)
{
    double difference = *(const double *)left - *(const double *)right;
    return (difference > 0) - (difference < 0);
}

static struct times times_of(double *sample, int rounds)
{
    qsort(sample, (size_t)rounds, sizeof *sample, by_size);
    return (struct times){sample[rounds / 2], sample[rounds * 9 / 10], sample[0]};
}

static uint64_t run_once(struct competitor *competitor, uint32_t times, double *nanoseconds)
{
    double before = now();
    uint64_t sum = competitor->work(competitor->contestant, competitor->world, times);
    *nanoseconds = now() - before;
    return sum;
}

/* The first one changes from round to round, so that none always runs behind the same other. */
static void run_round(struct competitor *competitors, int count, int round, uint32_t times, double units)
{
    uint64_t sums[MOST_COMPETITORS];
    for (int i = 0; i < count; i++) {
        int turn = (i + round) % count;
        double nanoseconds;
        sums[turn] = run_once(&competitors[turn], times, &nanoseconds);
        samples[turn][round] = nanoseconds / (times * units);
    }
    for (int i = 1; i < count; i++)
        if (sums[i] != sums[0]) {
            fprintf(stderr, "bench: %s did other work than %s\n", competitors[i].name, competitors[0].name);
            exit(1);
        }
}

void measure(struct competitor *competitors, int count, int rounds, uint32_t times, double units)
{
    for (int i = 0; i < count; i++)
        competitors[i].work(competitors[i].contestant, competitors[i].world, times);
    for (int round = 0; round < rounds; round++)
        run_round(competitors, count, round, times, units);
    for (int i = 0; i < count; i++)
        competitors[i].times = times_of(samples[i], rounds);
}
