/*
 * Entries while the driver runs. When DEV_CONF tells of a slot its entry is whole, and when DEV_RESET does it is gone: an add and a
 * remove store the entry before WRITE_PTR moves past their record.
 */
#define _DEFAULT_SOURCE
#include "interleaving.h"

#include "interleaving_ends.h"

#include "host_case.h"

#include <stdatomic.h>

enum { PLUGGED = 9, ROUNDS = 20 };

struct world {
    struct ends ends;
    uint32_t added;
    uint32_t removed;
    uint32_t seen;
    uint32_t gone;
    bool wrong;
};

/* ---- the host ---- */

static void plug(void *memory)
{
    struct world *world = (struct world *)memory;
    for (uint8_t mark = 1; mark <= ROUNDS; mark++) {
        world->added += add(&world->ends, PLUGGED, mark) == THAYARQO_DONE;
        world->removed += remove_slot(&world->ends, PLUGGED) == THAYARQO_DONE;
    }
}

/* A wrong host, which must be noticed: its entry comes after the record. */
static void plug_late(void *memory)
{
    struct world *world = (struct world *)memory;
    struct area *area = &world->ends.area;
    const struct thayarqo_event conf = {EV_DEV, DEV_CONF, PLUGGED};
    uint32_t index = world->ends.device.write_index;
    area->records[index] = conf;
    atomic_signal_fence(memory_order_seq_cst);
    area->write_ptr = index + 1;
    atomic_signal_fence(memory_order_seq_cst);
    make_entry(world->ends.page + PLUGGED * ENTRY, 1);
}

/* ---- the guest ---- */

static bool is_there(struct world *world, uint8_t mark)
{
    uint8_t entry[ENTRY], found[ENTRY];
    make_entry(entry, mark);
    return thayarqo_lookup(geometry, world->ends.page, PAGE, PLUGGED, found, ENTRY) == THAYARQO_DONE
        && memcmp(entry, found, ENTRY) == 0;
}

static bool is_gone(struct world *world)
{
    static const uint8_t zeros[ENTRY];
    uint8_t found[ENTRY];
    return thayarqo_lookup(geometry, world->ends.page, PAGE, PLUGGED, found, ENTRY) == THAYARQO_BAD_SLOT
        && memcmp(world->ends.page + PLUGGED * ENTRY, zeros, ENTRY) == 0;
}

static void look(void *memory)
{
    struct world *world = (struct world *)memory;
    struct thayarqo_told told = step_once(&world->ends);
    if (told.what == THAYARQO_TOLD_CONF)
        world->wrong |= !is_there(world, (uint8_t)++world->seen);
    if (told.what == THAYARQO_TOLD_RESET) {
        world->gone++;
        world->wrong |= !is_gone(world);
    }
    world->wrong |= told.answer != THAYARQO_DONE && told.answer != THAYARQO_NOTHING_TO_READ;
}

int main(void)
{
    if (!can_interleave()) {
        puts("skip entries while the driver runs: a process can't be stopped after an instruction here");
        return 0;
    }
    struct world *world = (struct world *)share(sizeof *world);
    switch_on(&world->ends, 2);
    bool ended = interleave(plug, look, ALWAYS, world);
    bool all = world->added == ROUNDS && world->removed == ROUNDS && world->seen == ROUNDS && world->gone == ROUNDS;
    check("adds and removes, with a step after every instruction", ended && all && !world->wrong);
    check("an entry that comes after its record is noticed", interleave(plug_late, look, ALWAYS, world) && world->wrong);
    return broken;
}
