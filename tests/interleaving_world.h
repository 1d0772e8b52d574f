/*
 * For the tests of a device and its guest at the same time, in either revision: packets that are put, a log of their records and of
 * those that came out, and the meetings of both ends.
 */
#ifndef INTERLEAVING_WORLD_H
#define INTERLEAVING_WORLD_H

#include "interleaving.h"

#include "interleaving_ends.h"

#include "host_case.h"

#include <stdatomic.h>

/* The first packets leave both pointers shortly before the place where both bytes of an index change. */
enum { MOST_EVENTS = 3, FIRST_INDEX = 232, PACKETS = 20, RECORDS = 2048 };

/* Records as they were put, or as they came out. */
struct log {
    struct thayarqo_event records[RECORDS];
    uint32_t count;
};

struct world {
    struct ends ends;
    struct log put;
    struct log taken;
    uint32_t sent;
    uint32_t received;
    uint32_t gaps_sent;
    uint32_t gaps_received;
    uint32_t met_full;
    uint32_t met_empty;
    bool wrong;
};

static inline void add_to(struct world *world, struct log *log, const void *records, uint32_t count)
{
    if (count > RECORDS - log->count) {
        world->wrong = true;
        return;
    }
    memcpy(log->records + log->count, records, count * sizeof *log->records);
    log->count += count;
}

/* ---- packets, which their number tells apart ---- */

static inline uint32_t slot_of(uint32_t number)
{
    return SLOT + number / 2 % 2;
}

static inline uint32_t event_count(uint32_t number)
{
    return 1 + number % MOST_EVENTS;
}

static inline void make_events(struct thayarqo_event events[MOST_EVENTS], uint32_t number)
{
    static const uint16_t codes[MOST_EVENTS] = {REL_X, REL_Y, REL_WHEEL};
    for (uint32_t i = 0; i < event_count(number); i++) {
        struct thayarqo_event motion = {EV_REL, codes[i], number};
        events[i] = motion;
    }
}

/* ---- the device ---- */

static inline uint8_t put_packet(struct ends *ends, uint32_t number)
{
    struct thayarqo_event events[MOST_EVENTS];
    make_events(events, number);
    return thayarqo_put_packet(&ends->device, geometry, (uint8_t *)&ends->area, sizeof ends->area, ends->page, PAGE,
                               slot_of(number), events, event_count(number) * sizeof *events);
}

static inline void put(void *memory)
{
    struct world *world = (struct world *)memory;
    uint32_t index = world->ends.device.write_index;
    bool lost = world->ends.device.lost;
    uint8_t answer = put_packet(&world->ends, world->sent);
    if (answer == THAYARQO_DONE) {
        world->sent++;
        world->gaps_sent += lost;
    }
    for (; index != world->ends.device.write_index; index = (index + 1) % RING)
        add_to(world, &world->put, &world->ends.area.records[index], 1);
    world->met_full += answer == THAYARQO_NO_ROOM;
    world->wrong |= answer != THAYARQO_DONE && answer != THAYARQO_NO_ROOM;
}

/* The places that hold no unread record are the device's: it may write there as it likes. */
static inline void spoil_and_put(void *memory)
{
    struct world *world = (struct world *)memory;
    uint32_t index = world->ends.device.write_index;
    uint32_t unread = (index + RING - world->ends.area.read_ptr) % RING;
    for (uint32_t i = 0; i < RING - unread; i++)
        memset(&world->ends.area.records[(index + i) % RING], 0xEE, sizeof *world->ends.area.records);
    put(world);
}

/* The work of a device that is stopped. */
static inline void put_all(void *memory)
{
    struct world *world = (struct world *)memory;
    for (uint32_t last = world->sent + PACKETS; world->sent < last && !world->wrong;)
        put(world);
}

/* ---- the guest, whose read counts where it met an empty ring ---- */

static inline void read_to_the_end(struct world *world, void (*read)(void *))
{
    for (uint32_t before = world->met_empty; world->met_empty == before && !world->wrong;)
        read(world);
}

static inline bool is_all_logged(struct world *world, void (*read)(void *))
{
    read_to_the_end(world, read);
    return world->taken.count == world->put.count
        && memcmp(world->taken.records, world->put.records, world->put.count * sizeof *world->put.records) == 0;
}

/* A wrong end, which must be noticed. */
static inline void take_all_late(void *memory)
{
    struct world *world = (struct world *)memory;
    for (int i = 0; i < 4 * PACKETS; i++) {
        const struct thayarqo_event *oldest = &world->ends.area.records[world->ends.area.read_ptr];
        world->ends.area.read_ptr = (world->ends.area.read_ptr + 1) % RING;
        atomic_signal_fence(memory_order_seq_cst);
        add_to(world, &world->taken, oldest, 1);
    }
}

/* ---- the meetings ---- */

/* The work is done with a turn of the other end after every so many instructions, until all has come out. */
struct meeting {
    const char *name;
    void (*work)(void *);
    void (*turn)(void *);
    unsigned every;
    bool full;
    bool (*is_all_out)(struct world *);
    bool right;
};

/* All that was put so far has come out; then the ring is filled. */
static inline struct world *make_world(uint32_t revision, void (*read)(void *), bool full)
{
    struct world *world = (struct world *)share(sizeof *world);
    switch_on(&world->ends, revision);
    while (world->ends.device.write_index < FIRST_INDEX && !world->wrong) {
        put(world);
        read_to_the_end(world, read);
    }
    world->put.count = world->taken.count = 0;
    while (full && world->met_full == 0 && !world->wrong)
        put(world);
    world->met_full = world->met_empty = 0;
    return world;
}

static inline void meet(const struct meeting *meeting, uint32_t revision, void (*read)(void *))
{
    struct world *world = make_world(revision, read, meeting->full);
    bool ended = interleave(meeting->work, meeting->turn, meeting->every, world);
    bool waited = world->met_full + world->met_empty > 0;
    bool right = ended && waited && meeting->is_all_out(world) && !world->wrong;
    check(meeting->name, right == meeting->right);
    munmap(world, sizeof *world);
}

#endif
