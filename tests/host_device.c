/*
 * The host's calls through the C library: registers and pages, switch-on and -off, adds and removes; host_revision1.c has those of
 * revision 1. After each call every byte and every field is compared with what it has to be.
 */
#include "host_world.h"

enum { NO_REGISTER = 0x200, FIRST_RECORD = 0x1000 + RECORD, ENTRY_PAGE = 0x1000 + AREA, BAR = ENTRY_PAGE + PAGE };
enum { MOUSE = 1 << EV_SYN | 1 << EV_KEY | 1 << EV_REL, BUTTONS = 0x30000 };

static uint8_t write_wide(uint64_t offset, uint32_t width)
{
    return thayarqo_write(device, geometry, area.bytes, AREA, page.bytes, PAGE, offset, width, 1);
}

/* ---- the registers ---- */

static void start_fresh(void)
{
    struct thayarqo_device fresh;
    memset(&fresh, 0, sizeof fresh);
    fresh.acceleration = 10;
    fresh.current_slot = THAYARQO_NO_SLOT;
    check("a fresh device", same_device(device, &fresh));
    reads("MAGIC", THAYARQO_DONE, 0x584D4F55, MAGIC, 4);
    reads("REV at first", THAYARQO_DONE, 1, REV, 4);
    reads("CLIENT_REV at first", THAYARQO_DONE, 0, CLIENT_REV, 4);
    reads("EVENT_SIZE", THAYARQO_DONE, RECORD, 0x104, 4);
    reads("NPAGES", THAYARQO_DONE, 2, 0x108, 4);
    reads("CONF_SIZE", THAYARQO_DONE, ENTRY, 0x114, 4);
    reads("ACCELERATION at first", THAYARQO_DONE, 10, ACCELERATION, 4);
    reads("a word of the area", THAYARQO_DONE, 0x77777777, FIRST_RECORD, 4);
}

static void add_while_off(void)
{
    uint8_t entry[ENTRY];
    make_entry(entry, MOUSE, BUTTONS);
    answers("an add to a slot out of range", THAYARQO_BAD_SLOT, add(SLOTS, entry, ENTRY));
    answers("an entry of 71 bytes", THAYARQO_INVALID, add(SLOT, entry, ENTRY - 1));
    answers("an entry of 68 bytes", THAYARQO_INVALID, add(SLOT, entry, THAYARQO_KNOWN_ENTRY_LENGTH));
    answers("an entry of no bytes", THAYARQO_INVALID, add(SLOT, entry, 0));
    add_device("an add while off", SLOT, MOUSE, BUTTONS);
    add_device("an add to the last slot", SLOTS - 1, MOUSE, BUTTONS);
    make_entry(entry, MOUSE & ~1, BUTTONS);
    answers("an add to a taken slot", THAYARQO_BAD_SLOT, add(SLOT, entry, ENTRY));
    answers("an entry without SYN", THAYARQO_MALFORMED, add(SLOT + 1, entry, ENTRY));
    reads("a word of its entry", THAYARQO_DONE, MOUSE, ENTRY_PAGE + SLOT * ENTRY + 40, 4);
    reads("the last word of the BAR", THAYARQO_DONE, 0, BAR - 4, 4);
    remove_device("a remove while off", SLOTS - 1);
}

static void negotiate(void)
{
    write_client_rev("a CLIENT_REV that is rejected", 3);
    reads("a rejected number reads 0", THAYARQO_DONE, 0, CLIENT_REV, 4);
    reads("REV from then on", THAYARQO_DONE, 2, REV, 4);
    answers("CONTROL without CLIENT_REV", THAYARQO_DONE, write_register(CONTROL, 1));
    next_device.interrupts = true;
    answers("CONTROL, interrupts only", THAYARQO_DONE, write_register(CONTROL, 0xFFFFFFFF));
    reads("CONTROL keeps bit 1", THAYARQO_DONE, 2, CONTROL, 4);
    write_client_rev("CLIENT_REV 2", 2);
    reads("REV of it", THAYARQO_DONE, 2, REV, 4);
    switch_on("a switch-on");
    reads("CONTROL", THAYARQO_DONE, 3, CONTROL, 4);
    reads("WRITE_PTR", THAYARQO_DONE, 2, 0x1004, 4);
    answers("CLIENT_REV while on", THAYARQO_DONE, write_register(CLIENT_REV, 3));
    reads("it stays", THAYARQO_DONE, 2, CLIENT_REV, 4);
    answers("ACCELERATION is ignored", THAYARQO_DONE, write_register(ACCELERATION, 5));
    reads("it reads 0 in revision 2", THAYARQO_DONE, 0, ACCELERATION, 4);
}

static void refuse_accesses(void)
{
    static const struct {
        const char *name;
        uint64_t offset;
    } places[] = {
        {"a write of MAGIC", 0},
        {"a write of REV", 4},
        {"a write of EVENT_SIZE", 0x104},
        {"a write of NPAGES", 0x108},
        {"a write of CONF_SIZE", 0x114},
        {"a write of WRITE_PTR", 0x1004},
        {"a write of a record", FIRST_RECORD},
        {"a write of an entry", ENTRY_PAGE},
        {"a write of the last word", BAR - 4},
    };
    for (size_t i = 0; i < sizeof places / sizeof *places; i++)
        answers(places[i].name, THAYARQO_READ_ONLY, write_register(places[i].offset, 1));
    reads("a read of no register", THAYARQO_NO_REGISTER, 0, NO_REGISTER, 4);
    answers("a write of no register", THAYARQO_NO_REGISTER, write_register(NO_REGISTER, 1));
    reads("a read of 2 bytes", THAYARQO_BAD_ACCESS, 0, 0, 2);
    reads("a read between words", THAYARQO_BAD_ACCESS, 0, 2, 4);
    reads("a read past the BAR", THAYARQO_BAD_ACCESS, 0, BAR, 4);
    answers("a write of 8 bytes", THAYARQO_BAD_ACCESS, write_wide(CONTROL, 8));
    answers("a write past the BAR", THAYARQO_BAD_ACCESS, write_wide(BAR, 4));
    answers("a write far past the BAR", THAYARQO_BAD_ACCESS, write_wide(UINT64_MAX - 3, 4));
}

static void refuse_memory(void)
{
    uint8_t *a = area.bytes, *p = page.bytes;
    struct thayarqo_geometry other = geometry;
    answers("a short area", THAYARQO_INVALID, thayarqo_write(device, geometry, a, AREA - 1, p, PAGE, CONTROL, 4, 0));
    answers("no area", THAYARQO_INVALID, thayarqo_write(device, geometry, a, 0, p, PAGE, CONTROL, 4, 0));
    answers("a short page", THAYARQO_INVALID, thayarqo_write(device, geometry, a, AREA, p, PAGE - 1, CONTROL, 4, 0));
    other.entry_size = 70;
    answers("another geometry", THAYARQO_INVALID, thayarqo_write(device, other, a, AREA, p, PAGE, CONTROL, 4, 0));
    answers("a remove from a short page", THAYARQO_INVALID, thayarqo_remove(device, geometry, a, AREA, p, PAGE - 1, SLOT));
    device->write_index = next_device.write_index = RING;
    answers("a write index past the ring", THAYARQO_INVALID, write_register(CONTROL, 0));
    answers("then a remove", THAYARQO_INVALID, remove_slot(SLOT));
    reads("then a read", THAYARQO_INVALID, 0, 0, 4);
    device->write_index = next_device.write_index = 2;
}

/* ---- adds and removes while on ---- */

static void remove_current(void)
{
    add_device("an add while on", 7, MOUSE, BUTTONS);
    next_device.current_slot = SLOT;
    next_device.isr = true;
    expect_record(EV_DEV, DEV_SET, SLOT);
    expect_motions(1, 9);
    answers("a packet", THAYARQO_DONE, put_motions(SLOT, 1, 9));
    reads("ISR", THAYARQO_DONE, 1, ISR, 4);
    next_device.isr = false;
    answers("ISR is cleared", THAYARQO_DONE, write_register(ISR, 0));
    remove_device("a remove of another slot", 7);
    answers("a second remove", THAYARQO_BAD_SLOT, remove_slot(7));
    remove_device("a remove of the current slot", SLOT);
    answers("a packet for it", THAYARQO_BAD_SLOT, put_motions(SLOT, 1, 0));
    answers("a remove out of range", THAYARQO_BAD_SLOT, remove_slot(SLOTS));
    add_device("an add to it", SLOT, MOUSE, BUTTONS);
}

static void meet_full_ring(void)
{
    uint8_t entry[ENTRY];
    make_entry(entry, MOUSE, BUTTONS);
    store_word(&area, READ_PTR, next_device.write_index + 1);
    answers("an add to a full ring", THAYARQO_NO_ROOM, add(9, entry, ENTRY));
    answers("a remove from a full ring", THAYARQO_NO_ROOM, remove_slot(SLOT));
    expect_word(&area, READ_PTR, RING);
    answers("any READ_PTR is stored", THAYARQO_DONE, write_register(0x1000, RING));
    answers("an add under an impossible read pointer", THAYARQO_BAD_INDEX, add(9, entry, ENTRY));
    answers("a remove under it", THAYARQO_BAD_INDEX, remove_slot(SLOT));
}

static void switch_off_and_on(void)
{
    switch_off("a switch-off");
    add_device("an add while off again", 9, MOUSE, BUTTONS);
    remove_device("a remove while off again", 9);
    switch_on("a second switch-on");
}

int main(void)
{
    make_world();
    start_fresh();
    add_while_off();
    negotiate();
    refuse_accesses();
    refuse_memory();
    remove_current();
    meet_full_ring();
    switch_off_and_on();
    release_world();
    return broken;
}
