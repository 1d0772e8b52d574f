/*
 * The device and its guest's driver at the same time. A record is stored before WRITE_PTR moves past it, and has been loaded before
 * READ_PTR moves past it: else other packets come out than were put.
 */
#define _DEFAULT_SOURCE
#include "interleaving_world.h"

enum { BATCH = 5 };

/* ---- the driver ---- */

static bool is_packet(const struct world *world, uint32_t number, struct thayarqo_told told)
{
    struct thayarqo_event events[MOST_EVENTS];
    make_events(events, number);
    return told.slot == slot_of(number) && told.count == event_count(number)
        && memcmp(world->ends.held, events, told.count * sizeof *events) == 0;
}

static void hear(struct world *world, struct thayarqo_told told)
{
    if (told.what == THAYARQO_TOLD_PACKET)
        world->wrong |= !is_packet(world, world->received++, told);
    world->gaps_received += told.what == THAYARQO_TOLD_GAP;
    world->wrong |= told.answer != THAYARQO_DONE || told.what == THAYARQO_TOLD_EMPTY_REPORT;
}

static void step(void *memory)
{
    struct world *world = (struct world *)memory;
    struct thayarqo_told told = step_once(&world->ends);
    if (told.answer == THAYARQO_NOTHING_TO_READ)
        world->met_empty++;
    else
        hear(world, told);
}

static void copy(void *memory)
{
    struct world *world = (struct world *)memory;
    struct thayarqo_event out[BATCH];
    struct thayarqo_copied copied =
        thayarqo_copy_out(geometry, (uint8_t *)&world->ends.area, sizeof world->ends.area, BATCH, (uint8_t *)out, sizeof out);
    add_to(world, &world->taken, out, copied.count);
    world->met_empty += copied.answer == THAYARQO_NOTHING_TO_READ;
    world->wrong |= copied.answer != THAYARQO_DONE && copied.answer != THAYARQO_NOTHING_TO_READ;
}

/* The work of a driver that is stopped. */
static void step_all(void *memory)
{
    struct world *world = (struct world *)memory;
    for (uint32_t last = world->received + PACKETS; world->received < last && !world->wrong;)
        step(world);
}

static void copy_all(void *memory)
{
    struct world *world = (struct world *)memory;
    for (uint32_t last = world->taken.count + 4 * PACKETS; world->taken.count < last && !world->wrong;)
        copy(world);
}

/* ---- the cases ---- */

static bool is_all_copied(struct world *world)
{
    return is_all_logged(world, copy);
}

static bool is_all_received(struct world *world)
{
    read_to_the_end(world, step);
    return world->received == world->sent && world->gaps_received == world->gaps_sent;
}

static const struct meeting meetings[] = {
    {"packets, with a step after every instruction", put_all, step, ALWAYS, false, is_all_received, true},
    {"packets to a full ring, with a step now and then", put_all, step, SELDOM, true, is_all_received, true},
    {"steps through a full ring, with a packet after every instruction", step_all, spoil_and_put, ALWAYS, true, is_all_received,
     true},
    {"steps, with a packet now and then", step_all, spoil_and_put, SELDOM, false, is_all_received, true},
    {"copy-outs of a full ring, with a packet after every instruction", copy_all, spoil_and_put, ALWAYS, true, is_all_copied, true},
    {"copy-outs, with a packet now and then", copy_all, spoil_and_put, SELDOM, false, is_all_copied, true},
    {"a copy that stores READ_PTR first is noticed", take_all_late, spoil_and_put, ALWAYS, true, is_all_copied, false},
};

int main(void)
{
    if (!can_interleave()) {
        puts("skip a device and its driver at once: a process can't be stopped after an instruction here");
        return 0;
    }
    for (size_t i = 0; i < sizeof meetings / sizeof *meetings; i++)
        meet(&meetings[i], 2, step);
    return broken;
}
