#include "world.h"

#include "thayarqo_codes.h"
#include "words.h"

#include <stdio.h>
#include <stdlib.h>

size_t area_length(const struct world *world)
{
    return (size_t)world->geometry.pages * PAGE;
}

uint32_t ring_length(const struct world *world)
{
    return world->geometry.pages * PAGE / world->geometry.record_size - 1;
}

static void expect_done(const char *what, unsigned answer)
{
    if (answer == THAYARQO_DONE)
        return;
    fprintf(stderr, "bench: %s answered %u\n", what, answer);
    exit(1);
}

static void add(struct world *world, uint32_t slot)
{
    uint8_t entry[256];
    memset(entry, 0xFF, sizeof entry);
    expect_done("an add", thayarqo_add(&world->device, world->geometry, world->area, area_length(world), world->page, PAGE, slot,
                                       entry, world->geometry.entry_size));
}

static void write_register(struct world *world, uint64_t offset, uint32_t value)
{
    expect_done("a register", thayarqo_write(&world->device, world->geometry, world->area, area_length(world), world->page, PAGE,
                                             offset, 4, value));
}

void start(struct world *world, struct thayarqo_geometry geometry, uint32_t slots, uint32_t client_rev)
{
    memset(world, 0, sizeof *world);
    world->geometry = geometry;
    world->device = thayarqo_fresh_device();
    world->driver = thayarqo_fresh_driver();
    for (uint32_t slot = 0; slot < slots; slot++)
        add(world, slot);
    if (client_rev != 0)
        write_register(world, 0x118, client_rev);
    write_register(world, 0x100, 3);
    while (thayarqo_step(&world->driver, geometry, world->area, area_length(world), world->packet, PACKET).answer == THAYARQO_DONE)
        ;
}

void empty(struct world *world)
{
    memcpy(world->area, world->area + 4, 4);
}

static bool same_device(const struct thayarqo_device *left, const struct thayarqo_device *right)
{
    return left->on == right->on && left->interrupts == right->interrupts && left->isr == right->isr
        && left->lost == right->lost && left->client_rev_written == right->client_rev_written
        && left->client_rev == right->client_rev && left->acceleration == right->acceleration
        && left->write_index == right->write_index && left->current_slot == right->current_slot
        && left->position.x == right->position.x && left->position.y == right->position.y && left->taken == right->taken;
}

static bool same_driver(const struct thayarqo_driver *left, const struct thayarqo_driver *right)
{
    return left->slot == right->slot && left->held == right->held && left->overlong == right->overlong
        && left->spoiled == right->spoiled && left->ignoring == right->ignoring;
}

bool same(const struct world *left, const struct world *right)
{
    return memcmp(left->area, right->area, sizeof left->area) == 0 && memcmp(left->page, right->page, sizeof left->page) == 0
        && memcmp(left->ring, right->ring, sizeof left->ring) == 0 && memcmp(left->packet, right->packet, sizeof left->packet) == 0
        && memcmp(left->out, right->out, sizeof left->out) == 0 && same_device(&left->device, &right->device)
        && same_driver(&left->driver, &right->driver) && left->in_prod == right->in_prod && left->in_cons == right->in_cons;
}
