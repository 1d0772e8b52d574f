#include "work.h"

#include "call.h"
#include "thayarqo_codes.h"
#include "words.h"

uint32_t client_rev = 2, packet_slot, packet_events = 3;
uint64_t register_offset;
uint32_t ring_kind = RING_KINDS;

static uint8_t events[PACKET];
static uint8_t ring_events[RING_KINDS][THAYARQO_RING_EVENT_LENGTH];
static struct thayarqo_ring_event motion;

void fill_mouse(uint8_t *packet)
{
    for (uint32_t i = 0; i < PACKET / 8; i += 4) {
        store_event(packet + 8 * i, EV_REL, REL_X, i);
        store_event(packet + 8 * i + 8, EV_REL, REL_Y, i);
        store_event(packet + 8 * i + 16, EV_KEY, BTN_LEFT, 1);
        store_event(packet + 8 * i + 24, EV_ABS, ABS_X, i);
    }
}

void prepare_work(void)
{
    fill_mouse(events);
    for (uint32_t kind = 0; kind < RING_KINDS; kind++)
        fill_ring_event(ring_events[kind], kind, 1000 + kind);
    motion = ring_event(0, 1000);
}

static inline uint8_t put(const struct contestant *contestant, struct world *world, size_t length)
{
    return contestant->put_packet(&world->device, world->geometry, world->area, length, world->page, PAGE, packet_slot,
                                  events, 8 * packet_events);
}

uint64_t packet_put(const struct contestant *contestant, struct world *world, uint32_t times)
{
    uint64_t sum = 0;
    size_t length = area_length(world);
    for (uint32_t i = 0; i < times; i++) {
        sum += put(contestant, world, length);
        sum += world->device.write_index;
        empty(world);
    }
    return sum;
}

uint64_t packet_and_steps(const struct contestant *contestant, struct world *world, uint32_t times)
{
    uint64_t sum = 0;
    size_t length = area_length(world);
    for (uint32_t i = 0; i < times; i++) {
        sum += put(contestant, world, length);
        struct thayarqo_told told;
        do {
            told = contestant->step(&world->driver, world->geometry, world->area, length, world->packet, PACKET);
            sum += told.answer + 16 * told.what + 256 * told.count;
        } while (told.answer == THAYARQO_DONE);
    }
    return sum;
}

uint64_t revision1_packet_and_steps(const struct contestant *contestant, struct world *world, uint32_t times)
{
    uint64_t sum = 0;
    size_t length = area_length(world);
    for (uint32_t i = 0; i < times; i++) {
        sum += put(contestant, world, length);
        struct thayarqo_taken taken;
        do {
            taken = contestant->revision1_step(world->geometry, world->area, length);
            sum += taken.answer + 16u * taken.flags + taken.revision + 256 * (uint64_t)taken.data;
        } while (taken.answer == THAYARQO_DONE);
    }
    return sum;
}

/* Moves the pointers so that all records but one are unread. */
static void fill(struct world *world)
{
    store_u32(world->area, 0);
    store_u32(world->area + 4, ring_length(world) - 1);
}

uint64_t full_copy_out(const struct contestant *contestant, struct world *world, uint32_t times)
{
    uint64_t sum = 0;
    for (uint32_t i = 0; i < times; i++) {
        fill(world);
        sum += contestant->copy_out(world->geometry, world->area, area_length(world), UINT32_MAX, world->out, OUT).count;
    }
    return sum;
}

uint64_t full_memcpy_each(const struct contestant *contestant, struct world *world, uint32_t times)
{
    (void)contestant;
    uint64_t sum = 0;
    for (uint32_t i = 0; i < times; i++) {
        fill(world);
        memcpy_each(world->out, world->area, world->geometry.record_size, ring_length(world) - 1);
        sum += load_u32(world->area + 4);
    }
    return sum;
}

uint64_t full_memcpy_all(const struct contestant *contestant, struct world *world, uint32_t times)
{
    (void)contestant;
    uint64_t sum = 0;
    for (uint32_t i = 0; i < times; i++) {
        fill(world);
        memcpy_all(world->out, world->area, ring_length(world) - 1);
        sum += load_u32(world->area + 4);
    }
    return sum;
}

uint64_t ring_put_and_take(const struct contestant *contestant, struct world *world, uint32_t times)
{
    uint64_t sum = 0;
    for (uint32_t i = 0; i < times; i++) {
        const uint8_t *event = ring_events[ring_kind < RING_KINDS ? ring_kind : i % RING_KINDS];
        sum += contestant->ring_put(world->ring, PAGE, &world->in_prod, 10, event, THAYARQO_RING_EVENT_LENGTH);
        struct thayarqo_ring_found found = contestant->ring_take(world->ring, PAGE, &world->in_cons, 10);
        sum += found.answer + found.event.keycode + (uint32_t)found.event.x + found.event.minor + found.event.contact;
    }
    return sum;
}

uint64_t ring_encode_and_put(const struct contestant *contestant, struct world *world, uint32_t times)
{
    uint64_t sum = 0;
    uint8_t bytes[THAYARQO_RING_EVENT_LENGTH];
    for (uint32_t i = 0; i < times; i++) {
        sum += contestant->ring_encode(bytes, sizeof bytes, motion);
        sum += contestant->ring_put(world->ring, PAGE, &world->in_prod, 10, bytes, sizeof bytes);
        store_u32(world->ring, world->in_prod);
    }
    return sum;
}

uint64_t register_read(const struct contestant *contestant, struct world *world, uint32_t times)
{
    uint64_t sum = 0;
    for (uint32_t i = 0; i < times; i++) {
        struct thayarqo_value found = contestant->read(&world->device, world->geometry, world->area, area_length(world),
                                                       world->page, PAGE, register_offset, 4);
        sum += found.answer + found.value;
    }
    return sum;
}
