/* What a hostile caller, guest or back end may do: one thing of a valid call is spoiled. */
#include "call.h"

#include "thayarqo_codes.h"
#include "random.h"
#include "words.h"

/* A number near an edge as often as not. */
static uint32_t draw_number(uint64_t *seed)
{
    static const uint32_t edges[] = {0, 1, 2, 31, 32, 33, 51, 59, 60, 61, 63, 64, 510, 511, 0xFFFF, 0xFFFFFFFE, 0xFFFFFFFF};
    return below(seed, 2) == 0 ? edges[below(seed, 17)] : any(seed) >> below(seed, 32);
}

static uint64_t draw_bad_offset(uint64_t *seed, const struct world *world)
{
    if (below(seed, 4) == 0)
        return area_length(world) + 2 * PAGE - 4 * below(seed, 2);
    return below(seed, 2) == 0 ? 4 * below(seed, 1024) : (uint64_t)draw_number(seed) << below(seed, 34);
}

static void spoil_call(uint64_t *seed, struct call *call, const struct world *world)
{
    switch (below(seed, 11)) {
    case 0: call->area_length = below(seed, 9) * 4096 + below(seed, 2); break;
    case 1: call->page_length = 4095 + 2 * below(seed, 2); break;
    case 2: call->packet_length = below(seed, 2) == 0 ? 33 * 8 * below(seed, 2) : below(seed, 33 * 8); break;
    case 3: call->out_length = below(seed, 100); break;
    case 4: call->event_length = 39 + 2 * below(seed, 2); break;
    case 5: call->slot = draw_number(seed); break;
    case 6: call->limit = draw_number(seed); break;
    case 7: call->width = below(seed, 9); break;
    case 8: call->contact_limit = draw_number(seed); break;
    case 9: call->held_length = 255 + 2 * below(seed, 2); break;
    default: call->offset = draw_bad_offset(seed, world);
    }
}

/* Events that a slot may not offer or that have no form, and kinds and bytes that a ring's event may not have. */
static void spoil_events(uint64_t *seed, struct call *call)
{
    static const uint16_t codes[] = {0, 1, 2, 3, 6, 8, 9, 31, 32, 63, 64, 0xFF, 0x100, 0x110, 0x112, 0x113, 0x15F, 0x160};
    store_event(call->events, (uint16_t)below(seed, 5), codes[below(seed, 18)], draw_number(seed));
    call->event[below(seed, 40)] = (uint8_t)draw_number(seed);
    call->numbers.kind = (uint8_t)below(seed, 7);
    call->numbers.subtype = (uint8_t)below(seed, 7);
}

/* An axis with a number at an edge of its form in revision 1, alone as often as not. A product of 32 bits would wrap at the last. */
static void spoil_axis(uint64_t *seed, struct call *call, const struct world *world)
{
    uint32_t acceleration = world->device.acceleration;
    const uint32_t motions[] = {327680 / acceleration, 0 - 327690 / acceleration, UINT32_MAX / acceleration};
    bool relative = below(seed, 2) == 0;
    uint32_t edge = relative ? motions[below(seed, 3)] : 65536;
    store_event(call->events, relative ? EV_REL : EV_ABS, (uint16_t)below(seed, 2), edge - 1 + below(seed, 3));
    if (below(seed, 2) == 0)
        call->packet_length = 8;
}

static void spoil_geometry(uint64_t *seed, struct world *world)
{
    uint32_t *numbers[] = {&world->geometry.pages, &world->geometry.record_size, &world->geometry.entry_size};
    *numbers[below(seed, 3)] = below(seed, 2) == 0 ? below(seed, 300) : draw_number(seed);
}

static void spoil_device(uint64_t *seed, struct world *world)
{
    struct thayarqo_device *device = &world->device;
    bool *marks[] = {&device->on, &device->interrupts, &device->isr, &device->lost, &device->client_rev_written};
    uint32_t which = below(seed, 10);
    if (which < 5) {
        *marks[which] = !*marks[which];
        return;
    }
    switch (which) {
    case 5: device->client_rev = (uint16_t)draw_number(seed); break;
    case 6: device->acceleration = (uint16_t)below(seed, 24); break;
    case 7: device->write_index = below(seed, 2) == 0 ? ring_length(world) : draw_number(seed); break;
    case 8: device->current_slot = draw_number(seed); break;
    default: device->taken ^= UINT64_C(1) << below(seed, 64);
    }
}

/* Off, with any CLIENT_REV. */
static void switch_off(uint64_t *seed, struct thayarqo_device *device)
{
    device->on = false;
    device->client_rev_written = below(seed, 2) == 0;
    device->client_rev = (uint16_t)below(seed, 4);
}

/* The oldest record becomes one of those that a driver has to look at. */
static void lay_record(uint64_t *seed, struct world *world)
{
    uint32_t length = ring_length(world);
    uint32_t read = load_u32(world->area) % length;
    uint32_t slot = below(seed, 2) == 0 ? world->driver.slot : below(seed, 2) == 0 ? below(seed, 70) : draw_number(seed);
    uint16_t type = below(seed, 2) == 0 ? EV_DEV : (uint16_t)(below(seed, 3) / 2);
    store_event(world->area + world->geometry.record_size * (read + 1), type, (uint16_t)below(seed, 5), slot);
    store_u32(world->area, read);
    store_u32(world->area + 4, (read + 1 + below(seed, length - 1)) % length);
}

static void spoil_driver(uint64_t *seed, struct world *world)
{
    struct thayarqo_driver *driver = &world->driver;
    driver->held = below(seed, 34);
    driver->overlong = below(seed, 4) == 0;
    driver->spoiled = below(seed, 4) == 0;
    driver->ignoring = below(seed, 3) == 0;
    if (below(seed, 4) == 0)
        driver->slot = draw_number(seed);
    lay_record(seed, world);
}

/* Pointers that can't be, one or both, a ring that is nearly full, and masks of any bits. */
static void spoil_pages(uint64_t *seed, struct world *world)
{
    lay_record(seed, world);
    if (below(seed, 2) == 0)
        store_u32(world->area, (world->device.write_index + 1 + below(seed, 40)) % ring_length(world));
    if (below(seed, 4) == 0) {
        uint32_t pointer = below(seed, 2) == 0 ? ring_length(world) : draw_number(seed), which = below(seed, 3);
        if (which != 0)
            store_u32(world->area, pointer);
        if (which != 1)
            store_u32(world->area + 4, pointer);
    }
    if (below(seed, 4) == 0)
        for (size_t at = 0; at < PAGE; at += 4)
            store_u32(world->page + at, any(seed));
}

static void spoil_ring(uint64_t *seed, struct world *world)
{
    uint32_t base = draw_number(seed);
    world->in_cons = base;
    world->in_prod = base + below(seed, 53);
    store_u32(world->ring, world->in_cons);
    store_u32(world->ring + 4, world->in_prod);
    uint8_t *event = world->ring + 1024 + 40 * (base % 51);
    fill_ring_event(event, below(seed, RING_KINDS), any(seed));
    if (below(seed, 3) != 0)
        event[below(seed, 40)] = (uint8_t)draw_number(seed);
    if (below(seed, 4) == 0)
        store_u32(world->ring + 4 * below(seed, 2), draw_number(seed));
}

/* The oldest record becomes any bytes, which a reader of revision 1 hands back. */
static void spoil_record(uint64_t *seed, struct world *world)
{
    uint32_t read = load_u32(world->area) % ring_length(world);
    store_event(world->area + world->geometry.record_size * (read + 1), (uint16_t)any(seed), (uint16_t)any(seed), any(seed));
}

static void spoil_packet(uint64_t *seed, struct call *call, struct world *world)
{
    switch (below(seed, 3)) {
    case 0: spoil_pages(seed, world); break;
    case 1: spoil_events(seed, call); break;
    default: spoil_axis(seed, call, world);
    }
}

/* What the call looks at, most of the time. */
static void spoil_subject(uint64_t *seed, struct call *call, struct world *world)
{
    switch (call->kind) {
    case STEP: spoil_driver(seed, world); break;
    case COPY_OUT: spoil_pages(seed, world); break;
    case REVISION1_STEP: spoil_pages(seed, world); spoil_record(seed, world); break;
    case READ: switch_off(seed, &world->device); break;
    case RING_ENCODE: spoil_events(seed, call); break;
    case RING_PUT: below(seed, 2) == 0 ? spoil_ring(seed, world) : spoil_events(seed, call); break;
    case RING_TAKE: spoil_ring(seed, world); break;
    default: spoil_packet(seed, call, world);
    }
}

void spoil(uint64_t *seed, struct call *call, struct world *world)
{
    switch (below(seed, 6)) {
    case 0: spoil_call(seed, call, world); spoil_call(seed, call, world); break;
    case 1: spoil_device(seed, world); break;
    case 2: spoil_geometry(seed, world); break;
    case 3: spoil_pages(seed, world); spoil_call(seed, call, world); break;
    default: spoil_subject(seed, call, world);
    }
}
