/*
 * The device and its guest's reader at the same time, in revision 1. A record is stored before WRITE_PTR moves past it, and has been
 * loaded before READ_PTR moves past it: else other records come out than were put.
 */
#define _DEFAULT_SOURCE
#include "interleaving_world.h"

/* ---- the reader ---- */

static void take(void *memory)
{
    struct world *world = (struct world *)memory;
    struct thayarqo_taken taken = thayarqo_revision1_step(geometry, (uint8_t *)&world->ends.area, sizeof world->ends.area);
    const struct thayarqo_event record = {taken.flags, taken.revision, taken.data};
    if (taken.answer == THAYARQO_DONE)
        add_to(world, &world->taken, &record, 1);
    world->met_empty += taken.answer == THAYARQO_NOTHING_TO_READ;
    world->wrong |= taken.answer != THAYARQO_DONE && taken.answer != THAYARQO_NOTHING_TO_READ;
}

/* The work of a reader that is stopped. */
static void take_all(void *memory)
{
    struct world *world = (struct world *)memory;
    for (uint32_t last = world->taken.count + 4 * PACKETS; world->taken.count < last && !world->wrong;)
        take(world);
}

/* ---- a wrong device, which must be noticed ---- */

static void put_all_early(void *memory)
{
    struct world *world = (struct world *)memory;
    for (uint32_t i = 0; i < PACKETS; i++) {
        const struct thayarqo_event motion = {THAYARQO_FLAG_RELATIVE, 1, i};
        uint32_t index = world->ends.device.write_index++;
        world->ends.area.write_ptr = index + 1;
        atomic_signal_fence(memory_order_seq_cst);
        world->ends.area.records[index] = motion;
        add_to(world, &world->put, &motion, 1);
    }
}

/* ---- the cases ---- */

static bool is_all_taken(struct world *world)
{
    return is_all_logged(world, take);
}

static const struct meeting meetings[] = {
    {"groups, with a step after every instruction", put_all, take, ALWAYS, false, is_all_taken, true},
    {"groups to a full ring, with a step now and then", put_all, take, SELDOM, true, is_all_taken, true},
    {"steps through a full ring, with a group after every instruction", take_all, spoil_and_put, ALWAYS, true, is_all_taken, true},
    {"steps, with a group now and then", take_all, spoil_and_put, SELDOM, false, is_all_taken, true},
    {"a step that stores READ_PTR first is noticed", take_all_late, spoil_and_put, ALWAYS, true, is_all_taken, false},
    {"a group that comes after WRITE_PTR is noticed", put_all_early, take, ALWAYS, false, is_all_taken, false},
};

int main(void)
{
    if (!can_interleave()) {
        puts("skip a device and its reader at once: a process can't be stopped after an instruction here");
        return 0;
    }
    for (size_t i = 0; i < sizeof meetings / sizeof *meetings; i++)
        meet(&meetings[i], 1, take);
    return broken;
}
