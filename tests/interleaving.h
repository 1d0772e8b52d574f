/*
 * For the tests of two ends that work at the same time. One end runs in a process of its own, which is stopped after each of its
 * instructions; the other end has its turns in between. So a store that comes too early and a load that comes too late are met at
 * the very instruction at which they do harm.
 */
#ifndef INTERLEAVING_H
#define INTERLEAVING_H

#include <signal.h>
#include <stdbool.h>
#include <stdio.h>
#include <stdlib.h>
#include <sys/mman.h>
#include <sys/ptrace.h>
#include <sys/types.h>
#include <sys/wait.h>
#include <unistd.h>

/*
 * How many instructions there are from turn to turn: with one, the other end is always at the heels of this one; with many, it lags
 * behind. Many are a prime number, so that the turns come at ever other instructions of a call.
 */
enum { ALWAYS = 1, SELDOM = 499 };

/* More than a test takes. An end that waits in vain goes no further. */
enum { MOST_PAUSES = 200000 };

/* Memory that both ends see. */
static inline void *share(size_t length)
{
    void *memory = mmap(NULL, length, PROT_READ | PROT_WRITE, MAP_SHARED | MAP_ANONYMOUS, -1, 0);
    if (memory == MAP_FAILED)
        abort();
    return memory;
}

/* The process waits before it begins to work, and does nothing more once the work is over. */
static inline pid_t start(void (*work)(void *), void *world, volatile bool *over)
{
    pid_t worker = fork();
    if (worker != 0)
        return worker;
    if (ptrace(PTRACE_TRACEME, 0, NULL, NULL) == 0 && raise(SIGSTOP) == 0)
        work(world);
    *over = true;
    _exit(0);
}

static inline bool has_stopped(pid_t worker, int signal)
{
    int status;
    return waitpid(worker, &status, 0) == worker && WIFSTOPPED(status) && WSTOPSIG(status) == signal;
}

static inline bool go_on(pid_t worker)
{
    return ptrace(PTRACE_SINGLESTEP, worker, NULL, NULL) == 0 && has_stopped(worker, SIGTRAP);
}

/* Works to the end, with a turn of the other end after every so many instructions. False where the end doesn't come. */
static inline bool interleave(void (*work)(void *), void (*turn)(void *), unsigned every, void *world)
{
    volatile bool *over = (volatile bool *)share(sizeof *over);
    pid_t worker = start(work, world, over);
    bool goes_on = worker > 0 && has_stopped(worker, SIGSTOP);
    for (unsigned pauses = 1; goes_on && !*over; pauses++) {
        goes_on = pauses < MOST_PAUSES && go_on(worker);
        if (goes_on && pauses % every == 0)
            turn(world);
    }
    if (worker > 0 && kill(worker, SIGKILL) == 0)
        waitpid(worker, NULL, 0);
    munmap((void *)over, sizeof *over);
    return goes_on;
}

static inline void do_nothing(void *world)
{
    (void)world;
}

/* Not every system lets a process be stopped so. */
static inline bool can_interleave(void)
{
    return interleave(do_nothing, do_nothing, ALWAYS, NULL);
}

#endif
