/*
 * The same calls as today's device models and guest drivers make them: the indices of the pages are trusted, records are put one
 * by one until the ring is full, and nothing is tested: no length, no state, no slot, no offer, no reserved byte.
 */
#include "contestant.h"
#include "encode.h"
#include "revision1.h"
#include "words.h"

#include "thayarqo_codes.h"

enum { EVENT_LENGTH = 40, IN_CONS = 0, IN_PROD = 4, EVENTS = 1024, RING_LENGTH = 51 };

static uint32_t ring_length(struct thayarqo_geometry geometry)
{
    return (geometry.pages * 4096 >> __builtin_ctz(geometry.record_size)) - 1;
}

static uint32_t next_index(struct thayarqo_geometry geometry, uint32_t index)
{
    return index + 1 == ring_length(geometry) ? 0 : index + 1;
}

static uint8_t *record_at(struct thayarqo_geometry geometry, uint8_t *area, uint32_t index)
{
    return area + (size_t)geometry.record_size * (index + 1);
}

static void put_record(struct thayarqo_geometry geometry, uint8_t *area, uint64_t record)
{
    uint32_t write = load_u32(area + 4);
    uint32_t next = next_index(geometry, write);
    if (next == load_u32(area))
        return;
    memcpy(record_at(geometry, area, write), &record, sizeof record);
    store_u32(area + 4, next);
}

static void put_revision2(struct thayarqo_device *device, struct thayarqo_geometry geometry, uint8_t *area,
                          uint32_t slot, const uint8_t *packet, size_t packet_length)
{
    if (device->current_slot != slot)
        put_record(geometry, area, EV_DEV | DEV_SET << 16 | (uint64_t)slot << 32);
    device->current_slot = slot;
    for (size_t at = 0; at < packet_length; at += 8) {
        uint64_t record;
        memcpy(&record, packet + at, sizeof record);
        put_record(geometry, area, record);
    }
    put_record(geometry, area, EV_SYN);
}

/* What a packet has for revision 1. A position goes to the device at once. */
struct gesture {
    bool moved, placed, turned;
    uint32_t motion, wheel, clicks;
    uint16_t buttons[THAYARQO_PACKET_LENGTH / 8];
};

static void gather(struct gesture *gesture, struct thayarqo_device *device, const uint8_t *event)
{
    uint32_t type = load_u16(event), code = load_u16(event + 2), value = load_u32(event + 4);
    if (type == EV_KEY) {
        gesture->buttons[gesture->clicks++] = button_flag(code, value);
    } else if (type == EV_ABS) {
        gesture->placed = true;
        *(code == ABS_X ? &device->position.x : &device->position.y) = (uint16_t)value;
    } else if (code == REL_WHEEL) {
        gesture->turned = true;
        gesture->wheel = value;
    } else {
        gesture->moved = true;
        gesture->motion |= (uint32_t)(uint16_t)((int32_t)value * device->acceleration / 10) << 16 * code;
    }
}

static void put_flagged(struct thayarqo_geometry geometry, uint8_t *area, uint32_t flags, uint32_t data)
{
    put_record(geometry, area, flags | 1u << 16 | (uint64_t)data << 32);
}

static void put_revision1(struct thayarqo_device *device, struct thayarqo_geometry geometry, uint8_t *area,
                          const uint8_t *packet, size_t packet_length)
{
    struct gesture gesture;
    gesture.moved = gesture.placed = gesture.turned = false;
    gesture.motion = gesture.wheel = gesture.clicks = 0;
    for (size_t at = 0; at < packet_length; at += 8)
        gather(&gesture, device, packet + at);
    if (gesture.moved)
        put_flagged(geometry, area, THAYARQO_FLAG_RELATIVE, gesture.motion);
    if (gesture.placed)
        put_flagged(geometry, area, THAYARQO_FLAG_ABSOLUTE, device->position.x | (uint32_t)device->position.y << 16);
    for (uint32_t i = 0; i < gesture.clicks; i++)
        put_flagged(geometry, area, gesture.buttons[i], 0);
    if (gesture.turned)
        put_flagged(geometry, area, THAYARQO_FLAG_VWHEEL, gesture.wheel);
    put_flagged(geometry, area, THAYARQO_FLAG_FENCE, 0);
}

uint8_t bare_put_packet(struct thayarqo_device *device, struct thayarqo_geometry geometry, uint8_t *area, size_t area_length,
                        const uint8_t *page, size_t page_length, uint32_t slot, const void *packet, size_t packet_length)
{
    (void)area_length, (void)page, (void)page_length;
    if (device->client_rev == 2)
        put_revision2(device, geometry, area, slot, packet, packet_length);
    else
        put_revision1(device, geometry, area, packet, packet_length);
    device->write_index = load_u32(area + 4);
    device->isr |= device->interrupts;
    return THAYARQO_DONE;
}

struct thayarqo_value bare_read(const struct thayarqo_device *device, struct thayarqo_geometry geometry,
                                const uint8_t *area, size_t area_length, const uint8_t *page, size_t page_length,
                                uint64_t offset, uint32_t width)
{
    (void)page_length, (void)width;
    uint32_t value = 0;
    switch (offset) {
    case 0x000: value = 0x584D4F55; break;
    case 0x004: value = is_revision1(device) ? 1 : 2; break;
    case 0x100: value = device->on | (uint32_t)device->interrupts << 1; break;
    case 0x104: value = geometry.record_size; break;
    case 0x108: value = geometry.pages; break;
    case 0x10C: value = is_revision1(device) ? device->acceleration : 0; break;
    case 0x110: value = device->isr; break;
    case 0x114: value = geometry.entry_size; break;
    case 0x118: value = device->client_rev; break;
    default: value = load_u32(offset < 4096 + area_length ? area + (offset - 4096) : page + (offset - 4096 - area_length));
    }
    return (struct thayarqo_value){THAYARQO_DONE, value};
}

static struct thayarqo_told device_record(struct thayarqo_driver *driver, uint16_t code, uint32_t value)
{
    switch (code) {
    case DEV_SET:
        driver->slot = value;
        return (struct thayarqo_told){THAYARQO_DONE, THAYARQO_TOLD_SET, value, 0};
    case DEV_CONF:
        return (struct thayarqo_told){THAYARQO_DONE, THAYARQO_TOLD_CONF, value, 0};
    default:
        driver->slot = THAYARQO_NO_SLOT;
        return (struct thayarqo_told){THAYARQO_DONE, THAYARQO_TOLD_RESET_ALL, 0, 0};
    }
}

struct thayarqo_told bare_step(struct thayarqo_driver *driver, struct thayarqo_geometry geometry,
                               uint8_t *area, size_t area_length, void *packet, size_t packet_length)
{
    (void)area_length, (void)packet_length;
    uint32_t read = load_u32(area);
    if (read == load_u32(area + 4))
        return (struct thayarqo_told){THAYARQO_NOTHING_TO_READ, THAYARQO_TOLD_NOTHING, 0, 0};
    const uint8_t *record = record_at(geometry, area, read);
    uint16_t type = load_u16(record), code = load_u16(record + 2);
    store_u32(area, next_index(geometry, read));
    if (type == EV_DEV)
        return device_record(driver, code, load_u32(record + 4));
    if (type == EV_SYN && code == SYN_REPORT) {
        uint32_t count = driver->held;
        driver->held = 0;
        return (struct thayarqo_told){THAYARQO_DONE, THAYARQO_TOLD_PACKET, driver->slot, count};
    }
    memcpy((uint8_t *)packet + 8 * driver->held++, record, 8);
    return (struct thayarqo_told){THAYARQO_DONE, THAYARQO_TOLD_NOTHING, 0, 0};
}

struct thayarqo_taken bare_revision1_step(struct thayarqo_geometry geometry, uint8_t *area, size_t area_length)
{
    (void)area_length;
    uint32_t read = load_u32(area);
    if (read == load_u32(area + 4))
        return (struct thayarqo_taken){THAYARQO_NOTHING_TO_READ, 0, 0, 0};
    const uint8_t *record = record_at(geometry, area, read);
    struct thayarqo_taken taken = {THAYARQO_DONE, load_u16(record), load_u16(record + 2), load_u32(record + 4)};
    store_u32(area, next_index(geometry, read));
    return taken;
}

struct thayarqo_copied bare_copy_out(struct thayarqo_geometry geometry, uint8_t *area, size_t area_length,
                                     uint32_t limit, uint8_t *out, size_t out_length)
{
    (void)area_length, (void)out_length;
    uint32_t read = load_u32(area), write = load_u32(area + 4), count = 0;
    while (read != write && count < limit) {
        memcpy(out + 8 * (size_t)count++, record_at(geometry, area, read), 8);
        read = next_index(geometry, read);
    }
    store_u32(area, read);
    return (struct thayarqo_copied){count == 0 ? THAYARQO_NOTHING_TO_READ : THAYARQO_DONE, count};
}

uint8_t bare_ring_encode(uint8_t *out, size_t out_length, struct thayarqo_ring_event event)
{
    (void)out_length;
    encode_event(out, &event);
    return THAYARQO_DONE;
}

uint8_t bare_ring_put(uint8_t *page, size_t page_length, uint32_t *in_prod, uint32_t contact_limit,
                      const uint8_t *event, size_t event_length)
{
    (void)page_length, (void)contact_limit, (void)event_length;
    uint32_t prod = load_u32(page + IN_PROD);
    if (prod - load_u32(page + IN_CONS) == RING_LENGTH)
        return THAYARQO_NO_ROOM;
    memcpy(page + EVENTS + prod % RING_LENGTH * EVENT_LENGTH, event, EVENT_LENGTH);
    store_u32(page + IN_PROD, prod + 1);
    *in_prod = prod + 1;
    return THAYARQO_DONE;
}

static void decode_touch(const uint8_t *bytes, struct thayarqo_ring_event *event)
{
    event->subtype = bytes[1];
    event->contact = bytes[2];
    switch (event->subtype) {
    case THAYARQO_TOUCH_DOWN:
    case THAYARQO_TOUCH_MOTION:
        event->x = (int32_t)load_u32(bytes + 8);
        event->y = (int32_t)load_u32(bytes + 12);
        break;
    case THAYARQO_TOUCH_SHAPE:
        event->major = load_u32(bytes + 8);
        event->minor = load_u32(bytes + 12);
        break;
    case THAYARQO_TOUCH_ORIENT:
        event->orientation = (int16_t)load_u16(bytes + 8);
    }
}

static void decode(const uint8_t *bytes, struct thayarqo_ring_event *event)
{
    event->kind = bytes[0];
    switch (event->kind) {
    case THAYARQO_RING_MOTION:
    case THAYARQO_RING_POSITION:
        event->x = (int32_t)load_u32(bytes + 4);
        event->y = (int32_t)load_u32(bytes + 8);
        event->z = (int32_t)load_u32(bytes + 12);
        break;
    case THAYARQO_RING_KEY:
        event->pressed = bytes[1] != 0;
        event->keycode = load_u32(bytes + 4);
        break;
    case THAYARQO_RING_TOUCH:
        decode_touch(bytes, event);
    }
}

struct thayarqo_ring_found bare_ring_take(uint8_t *page, size_t page_length, uint32_t *in_cons, uint32_t contact_limit)
{
    (void)page_length, (void)contact_limit;
    struct thayarqo_ring_found found = {THAYARQO_NOTHING_TO_READ, {0}};
    uint32_t cons = load_u32(page + IN_CONS);
    if (cons == load_u32(page + IN_PROD))
        return found;
    found.answer = THAYARQO_DONE;
    decode(page + EVENTS + cons % RING_LENGTH * EVENT_LENGTH, &found.event);
    store_u32(page + IN_CONS, cons + 1);
    *in_cons = cons + 1;
    return found;
}
