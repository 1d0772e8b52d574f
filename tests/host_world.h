/*
 * For the tests of the C library: a device and its driver. A case names what its call has to change, in the copies that begin with
 * next_ or in what lent memory is expected to be; then every byte and every field is compared.
 */
#ifndef HOST_WORLD_H
#define HOST_WORLD_H

#include "thayarqo.h"

#include "host_case.h"

/* Records are longer than their 8 bytes, and entries than the 68 that are known, so that what is written too far is noticed. */
enum { AREA = 8192, PAGE = THAYARQO_ENTRY_PAGE_LENGTH, RECORD = 16, ENTRY = 72, RING = 511, SLOTS = 56, SLOT = 4, EVENTS = 32 };
enum { READ_PTR = 0, WRITE_PTR = 4 };
enum { MAGIC = 0, REV = 4, CONTROL = 0x100, ACCELERATION = 0x10C, ISR = 0x110, CLIENT_REV = 0x118 };

static const struct thayarqo_geometry geometry = {2, RECORD, ENTRY};
static struct lent area, page, held, device_memory, driver_memory;
static struct thayarqo_device *device, next_device;
static struct thayarqo_driver *driver, next_driver;
static bool inputs_whole = true;

static inline void make_world(void)
{
    area = lend("area", AREA, 0x77);
    page = lend("page", PAGE, 0);
    held = lend("held", THAYARQO_PACKET_LENGTH, 0xCC);
    next_device = thayarqo_fresh_device();
    next_driver = thayarqo_fresh_driver();
    device_memory = lend_copy("device", &next_device, sizeof next_device);
    driver_memory = lend_copy("driver", &next_driver, sizeof next_driver);
    device = (struct thayarqo_device *)device_memory.bytes;
    driver = (struct thayarqo_driver *)driver_memory.bytes;
}

static inline void release_world(void)
{
    struct lent *all[] = {&area, &page, &held, &device_memory, &driver_memory};
    for (size_t i = 0; i < sizeof all / sizeof *all; i++)
        release(all[i]);
}

/* ---- the comparison ---- */

static inline bool same_device(const struct thayarqo_device *a, const struct thayarqo_device *b)
{
    return a->on == b->on && a->interrupts == b->interrupts && a->isr == b->isr && a->lost == b->lost
        && a->client_rev_written == b->client_rev_written && a->client_rev == b->client_rev && a->acceleration == b->acceleration
        && a->write_index == b->write_index && a->current_slot == b->current_slot && a->position.x == b->position.x
        && a->position.y == b->position.y && a->taken == b->taken;
}

static inline bool same_driver(const struct thayarqo_driver *a, const struct thayarqo_driver *b)
{
    return a->slot == b->slot && a->held == b->held && a->overlong == b->overlong && a->spoiled == b->spoiled
        && a->ignoring == b->ignoring;
}

/* The states by their fields, since the bytes between these may be any. */
static inline bool are_states_expected(void)
{
    bool right = same_device(device, &next_device);
    if (!right)
        printf("    the device's state is another\n");
    if (same_driver(driver, &next_driver))
        return right && is_guarded(&device_memory) && is_guarded(&driver_memory);
    printf("    the driver's state is another\n");
    return false;
}

static inline bool is_all_expected(void)
{
    bool right = is_as_expected(&area);
    right &= is_as_expected(&page);
    right &= is_as_expected(&held);
    right &= are_states_expected();
    return right && inputs_whole;
}

static inline void answers(const char *name, unsigned expected, unsigned answer)
{
    bool right = is_answer(expected, answer);
    check(name, is_all_expected() && right);
}

/* ---- what is expected ---- */

/* The next record, and WRITE_PTR after it. */
static inline void expect_record(uint16_t type, uint16_t code, uint32_t value)
{
    size_t at = RECORD * ((size_t)next_device.write_index + 1);
    expect_word(&area, at, type | (uint32_t)code << 16);
    expect_word(&area, at + 4, value);
    next_device.write_index = (next_device.write_index + 1) % RING;
    expect_word(&area, WRITE_PTR, next_device.write_index);
}

/* A packet of motions, value and up, for the slot that is current. */
static inline void expect_motions(uint32_t count, uint32_t value)
{
    for (uint32_t i = 0; i < count; i++)
        expect_record(EV_REL, REL_X, value + i);
    expect_record(EV_SYN, SYN_REPORT, 0);
}

/* Where the guest is told of slots, a record comes with each. */
static inline void expect_slot(uint16_t code, uint32_t slot)
{
    if (next_device.on && next_device.client_rev == 2)
        expect_record(EV_DEV, code, slot);
}

/* ---- the calls, with the memory of this world ---- */

static inline void reads(const char *name, uint8_t answer, uint32_t value, uint64_t offset, uint32_t width)
{
    struct thayarqo_value read = thayarqo_read(device, geometry, area.bytes, AREA, page.bytes, PAGE, offset, width);
    if (read.value != value)
        printf("    read %#x instead of %#x\n", (unsigned)read.value, (unsigned)value);
    bool right = is_answer(answer, read.answer);
    check(name, is_all_expected() && right && read.value == value);
}

static inline uint8_t write_register(uint64_t offset, uint32_t value)
{
    return thayarqo_write(device, geometry, area.bytes, AREA, page.bytes, PAGE, offset, 4, value);
}

/* Any number is taken for CLIENT_REV while off, and all but two of them are rejected. */
static inline void write_client_rev(const char *name, uint32_t value)
{
    next_device.client_rev_written = true;
    next_device.client_rev = value == 1 || value == 2 ? (uint16_t)value : 0;
    answers(name, THAYARQO_DONE, write_register(CLIENT_REV, value));
}

static inline uint8_t put_packet(uint32_t slot, const void *events, size_t length)
{
    struct lent packet = lend_copy("packet", events, length);
    uint8_t answer = thayarqo_put_packet(device, geometry, area.bytes, AREA, page.bytes, PAGE, slot, packet.bytes, length);
    inputs_whole &= came_back_whole(&packet);
    return answer;
}

static inline uint8_t put_event(uint32_t slot, uint16_t type, uint16_t code, uint32_t value)
{
    struct thayarqo_event event = {type, code, value};
    return put_packet(slot, &event, sizeof event);
}

/* Motions to the right, up to one more than a packet can have. */
static inline uint8_t put_motions(uint32_t slot, uint32_t count, uint32_t value)
{
    struct thayarqo_event events[EVENTS + 1];
    for (uint32_t i = 0; i < count; i++) {
        struct thayarqo_event motion = {EV_REL, REL_X, value + i};
        events[i] = motion;
    }
    return put_packet(slot, events, count * sizeof *events);
}

/* An entry with a byte of its own at each place that no mask has. */
static inline void make_entry(uint8_t entry[ENTRY], uint32_t evbits, uint32_t btnbits)
{
    for (int i = 0; i < ENTRY; i++)
        entry[i] = (uint8_t)(0x81 + i);
    for (int at = 40; at < THAYARQO_KNOWN_ENTRY_LENGTH; at += 4)
        set_word(entry, at, 0);
    set_word(entry, 40, evbits);
    set_word(entry, 56, btnbits);
}

static inline uint8_t add(uint32_t slot, const uint8_t *entry, size_t length)
{
    struct lent input = lend_copy("entry", entry, length);
    uint8_t answer = thayarqo_add(device, geometry, area.bytes, AREA, page.bytes, PAGE, slot, input.bytes, length);
    inputs_whole &= came_back_whole(&input);
    return answer;
}

static inline uint8_t remove_slot(uint32_t slot)
{
    return thayarqo_remove(device, geometry, area.bytes, AREA, page.bytes, PAGE, slot);
}

/* Adds a device to a slot that is free, in a ring with room. */
static inline void add_device(const char *name, uint32_t slot, uint32_t evbits, uint32_t btnbits)
{
    uint8_t entry[ENTRY];
    make_entry(entry, evbits, btnbits);
    memcpy(page.expected + slot * ENTRY, entry, ENTRY);
    next_device.taken |= UINT64_C(1) << slot;
    expect_slot(DEV_CONF, slot);
    answers(name, THAYARQO_DONE, add(slot, entry, ENTRY));
}

/* Removes the device of a slot, from a ring with room. */
static inline void remove_device(const char *name, uint32_t slot)
{
    memset(page.expected + slot * ENTRY, 0, ENTRY);
    next_device.taken &= ~(UINT64_C(1) << slot);
    if (next_device.current_slot == slot)
        next_device.current_slot = THAYARQO_NO_SLOT;
    expect_slot(DEV_RESET, slot);
    answers(name, THAYARQO_DONE, remove_slot(slot));
}

/* Switches on, with interrupts. SLOT alone is taken. */
static inline void switch_on(const char *name)
{
    next_device.on = next_device.interrupts = true;
    next_device.lost = false;
    next_device.write_index = 0;
    next_device.current_slot = THAYARQO_NO_SLOT;
    next_device.position.x = next_device.position.y = 0;
    expect_word(&area, READ_PTR, 0);
    expect_word(&area, WRITE_PTR, 0);
    expect_slot(DEV_RESET, THAYARQO_ALL_SLOTS);
    expect_slot(DEV_CONF, SLOT);
    answers(name, THAYARQO_DONE, write_register(CONTROL, 3));
}

static inline void switch_off(const char *name)
{
    next_device.on = next_device.interrupts = false;
    answers(name, THAYARQO_DONE, write_register(CONTROL, 0));
}

#endif
