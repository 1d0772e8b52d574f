/*
 * Each field of each struct of the C interface, by its own name, against what the library puts there or finds there: fields get
 * different numbers, and flags change one at a time, so that two fields that are exchanged on one side are noticed.
 */
#include "thayarqo.h"

#include "host_case.h"

enum { AREA = 8192, PAGE = 4096, ENTRY = 72, RECORD = 16 };

static struct thayarqo_geometry geometry;
static struct thayarqo_device device;
static struct thayarqo_driver driver;
static struct lent area, page, held;

/* ---- the device ---- */

static struct thayarqo_value read_register(uint64_t offset)
{
    return thayarqo_read(&device, geometry, area.bytes, AREA, page.bytes, PAGE, offset, 4);
}

static void write_register(uint64_t offset, uint32_t value)
{
    thayarqo_write(&device, geometry, area.bytes, AREA, page.bytes, PAGE, offset, 4, value);
}

static void add(uint32_t slot)
{
    uint8_t entry[ENTRY] = {0};
    set_word(entry, 40, 1 << EV_SYN | 1 << EV_REL | 1 << EV_ABS);
    set_word(entry, 44, 1 << ABS_X | 1 << ABS_Y);
    thayarqo_add(&device, geometry, area.bytes, AREA, page.bytes, PAGE, slot, entry, sizeof entry);
}

static void put_events(uint32_t slot, const struct thayarqo_event *events, size_t length)
{
    thayarqo_put_packet(&device, geometry, area.bytes, AREA, page.bytes, PAGE, slot, events, length);
}

static void put(uint32_t slot)
{
    struct thayarqo_event event;
    event.type = EV_REL;
    event.code = REL_WHEEL;
    event.value = 0x01020304;
    put_events(slot, &event, sizeof event);
}

static unsigned device_flags(void)
{
    return device.on | device.interrupts << 1 | device.isr << 2 | device.lost << 3 | device.client_rev_written << 4;
}

static void geometry_and_value(void)
{
    geometry.pages = 2;
    geometry.record_size = RECORD;
    geometry.entry_size = ENTRY;
    device = thayarqo_fresh_device();
    check("geometry.record_size", read_register(0x104).value == RECORD);
    check("geometry.pages", read_register(0x108).value == 2);
    check("geometry.entry_size", read_register(0x114).value == ENTRY);
    struct thayarqo_value magic = read_register(0), none = read_register(0x200);
    check("value.value", magic.value == 0x584D4F55 && none.value == 0);
    check("value.answer", magic.answer == THAYARQO_DONE && none.answer == THAYARQO_NO_REGISTER);
}

static void fields_of_device(void)
{
    check("the flags are false at first", device_flags() == 0);
    write_register(0x10C, 7);
    check("device.acceleration", device.acceleration == 7 && device.client_rev == 0 && device_flags() == 0);
    add(4);
    add(7);
    write_register(0x118, 3);
    check("device.client_rev_written", device_flags() == 16);
    write_register(0x118, 2);
    write_register(0x100, 2);
    check("device.interrupts", device_flags() == 18);
    write_register(0x100, 1);
    check("device.on", device_flags() == 17);
    put(7);
    check("device.client_rev", device.client_rev == 2);
    check("device.write_index", device.write_index == 6);
    check("device.current_slot", device.current_slot == 7);
    check("device.taken", device.taken == (1 << 4 | 1 << 7));
    write_register(0x100, 3);
    put(7);
    write_register(0x100, 1);
    check("device.isr", device_flags() == 21);
    write_register(0x110, 0);
    write_register(0x1000, UINT32_MAX);
    put(7);
    check("device.lost", device_flags() == 25);
}

static void fields_of_event(void)
{
    size_t at = RECORD * (4 + 1);
    check("event.type, event.code", word(&area, at) == (EV_REL | REL_WHEEL << 16));
    check("event.value", word(&area, at + 4) == 0x01020304);
}

/* The position that the library puts there, and the one that it finds there. */
static void fields_of_position(void)
{
    const struct thayarqo_event events[] = {{EV_ABS, ABS_X, 0x0102}, {EV_ABS, ABS_Y, 0x0304}};
    write_register(0x100, 0);
    write_register(0x118, 1);
    write_register(0x100, 1);
    put_events(4, events, sizeof events);
    check("position.x", device.position.x == 0x0102);
    check("position.y", device.position.y == 0x0304);
    device.position.x = 0x0506;
    device.position.y = 0x0708;
    put_events(4, events, sizeof *events);
    check("device.position", word(&area, RECORD * (2 + 1) + 4) == 0x07080102);
}

/* ---- the driver ---- */

static struct thayarqo_told step(uint16_t type, uint16_t code, uint32_t value)
{
    store_word(&area, 0, 0);
    store_word(&area, 4, 1);
    store_word(&area, RECORD, type | (uint32_t)code << 16);
    store_word(&area, RECORD + 4, value);
    return thayarqo_step(&driver, geometry, area.bytes, AREA, held.bytes, held.length);
}

static unsigned driver_flags(void)
{
    return driver.overlong | driver.spoiled << 1 | driver.ignoring << 2;
}

static void fields_of_driver(void)
{
    driver = thayarqo_fresh_driver();
    check("the driver's flags are false at first", driver_flags() == 0);
    step(EV_DEV, DEV_SET, 7);
    step(EV_REL, REL_X, 9);
    step(EV_REL, REL_X, 9);
    check("driver.slot", driver.slot == 7);
    check("driver.held", driver.held == 2);
    step(EV_DEV, DEV_SET, 8);
    check("driver.spoiled", driver_flags() == 2);
    step(EV_SYN, SYN_DROPPED, 0);
    check("driver.ignoring", driver_flags() == 4);
    step(EV_SYN, SYN_REPORT, 0);
    for (int i = 0; i < 33; i++)
        step(EV_REL, REL_X, 9);
    check("driver.overlong", driver_flags() == 1);
}

static void fields_of_told(void)
{
    driver = thayarqo_fresh_driver();
    step(EV_DEV, DEV_SET, 7);
    step(EV_REL, REL_X, 9);
    step(EV_REL, REL_X, 9);
    struct thayarqo_told told = step(EV_SYN, SYN_REPORT, 0), refused = step(EV_DEV, 9, 0);
    check("told.what", told.what == THAYARQO_TOLD_PACKET && refused.what == 0);
    check("told.slot", told.slot == 7 && refused.slot == 0);
    check("told.count", told.count == 2 && refused.count == 0);
    check("told.answer", told.answer == THAYARQO_DONE && refused.answer == THAYARQO_MALFORMED);
}

static void fields_of_copied(void)
{
    uint8_t out[24];
    store_word(&area, 0, 0);
    store_word(&area, 4, 3);
    struct thayarqo_copied copied = thayarqo_copy_out(geometry, area.bytes, AREA, 9, out, sizeof out);
    struct thayarqo_copied refused = thayarqo_copy_out(geometry, area.bytes, AREA, 9, out, sizeof out);
    check("copied.count", copied.count == 3 && refused.count == 0);
    check("copied.answer", copied.answer == THAYARQO_DONE && refused.answer == THAYARQO_NOTHING_TO_READ);
}

static void fields_of_taken(void)
{
    store_word(&area, 0, 0);
    store_word(&area, 4, 1);
    store_word(&area, RECORD, 0x12345678);
    store_word(&area, RECORD + 4, 0x9ABCDEF0);
    struct thayarqo_taken taken = thayarqo_revision1_step(geometry, area.bytes, AREA);
    struct thayarqo_taken refused = thayarqo_revision1_step(geometry, area.bytes, AREA);
    check("taken.flags", taken.flags == 0x5678 && refused.flags == 0);
    check("taken.revision", taken.revision == 0x1234 && refused.revision == 0);
    check("taken.data", taken.data == 0x9ABCDEF0 && refused.data == 0);
    check("taken.answer", taken.answer == THAYARQO_DONE && refused.answer == THAYARQO_NOTHING_TO_READ);
}

/* ---- the keyboard ring ---- */

/* An event's bytes: the first three, and the words at 4, 8 and 12. */
static struct thayarqo_ring_event decode(uint32_t head, uint32_t first, uint32_t second, uint32_t third)
{
    uint8_t bytes[THAYARQO_RING_EVENT_LENGTH] = {0}, again[THAYARQO_RING_EVENT_LENGTH];
    set_word(bytes, 0, head);
    set_word(bytes, 4, first);
    set_word(bytes, 8, second);
    set_word(bytes, 12, third);
    struct thayarqo_ring_found found = thayarqo_ring_decode(bytes, sizeof bytes, 32);
    check("found.answer of an event", found.answer == THAYARQO_DONE);
    thayarqo_ring_encode(again, sizeof again, found.event);
    check("the event is encoded as it was", memcmp(bytes, again, sizeof bytes) == 0);
    return found.event;
}

static void fields_of_ring_event(void)
{
    struct thayarqo_ring_event motion = decode(1, 11, 12, (uint32_t)-13);
    check("ring_event.kind", motion.kind == THAYARQO_RING_MOTION);
    check("ring_event.x", motion.x == 11 && motion.keycode == 0 && motion.major == 0);
    check("ring_event.y", motion.y == 12 && motion.minor == 0);
    check("ring_event.z", motion.z == -13 && motion.orientation == 0);
    struct thayarqo_ring_event key = decode(3 | 1 << 8, 14, 0, 0);
    check("ring_event.pressed", key.pressed && key.contact == 0 && key.subtype == 0);
    check("ring_event.keycode", key.keycode == 14 && key.x == 0);
    struct thayarqo_ring_event shape = decode(5 | 4 << 8 | 6 << 16, 0, 15, 16);
    check("ring_event.subtype", shape.subtype == THAYARQO_TOUCH_SHAPE);
    check("ring_event.contact", shape.contact == 6 && !shape.pressed);
    check("ring_event.major", shape.major == 15 && shape.x == 0);
    check("ring_event.minor", shape.minor == 16 && shape.y == 0);
    struct thayarqo_ring_event orient = decode(5 | 5 << 8 | 6 << 16, 0, 0xFFEF, 0);
    check("ring_event.orientation", orient.orientation == -17 && orient.major == 0);
}

static void fields_of_ring_found(void)
{
    const uint8_t malformed[THAYARQO_RING_EVENT_LENGTH] = {3, 2};
    struct thayarqo_ring_found found = thayarqo_ring_decode(malformed, sizeof malformed, 32);
    check("ring_found.answer", found.answer == THAYARQO_MALFORMED && found.event.kind == 0);
}

int main(void)
{
    area = lend("area", AREA, 0);
    page = lend("page", PAGE, 0);
    held = lend("held", THAYARQO_PACKET_LENGTH, 0);
    geometry_and_value();
    fields_of_device();
    fields_of_event();
    fields_of_position();
    fields_of_driver();
    fields_of_told();
    fields_of_copied();
    fields_of_taken();
    fields_of_ring_event();
    fields_of_ring_found();
    release(&area);
    release(&page);
    release(&held);
    return broken;
}
