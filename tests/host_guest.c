/*
 * The guest's calls through the C library: steps over every kind of record, copy-out and lookup. The test writes the records itself.
 * After each call every byte and every field is compared with what it has to be.
 */
#include "host_world.h"

/* ---- what the device does ---- */

static void give(uint16_t type, uint16_t code, uint32_t value)
{
    uint32_t index = word(&area, WRITE_PTR);
    store_word(&area, RECORD * ((size_t)index + 1), type | (uint32_t)code << 16);
    store_word(&area, RECORD * ((size_t)index + 1) + 4, value);
    store_word(&area, WRITE_PTR, (index + 1) % RING);
}

/* ---- the calls ---- */

static bool is_told(uint8_t what, uint32_t slot, uint32_t count, struct thayarqo_told told)
{
    bool right = told.what == what && told.slot == slot && told.count == count;
    if (!right)
        printf("    told %u of slot %u, count %u\n", told.what, (unsigned)told.slot, (unsigned)told.count);
    return right;
}

static void refuses(const char *name, uint8_t answer, struct thayarqo_told told)
{
    bool right = is_answer(answer, told.answer) && is_told(THAYARQO_TOLD_NOTHING, 0, 0, told);
    check(name, is_all_expected() && right);
}

static struct thayarqo_told step(void)
{
    return thayarqo_step(driver, geometry, area.bytes, AREA, held.bytes, held.length);
}

/* A step that consumes a record. */
static struct thayarqo_told consume(void)
{
    expect_word(&area, READ_PTR, (word(&area, READ_PTR) + 1) % RING);
    return step();
}

static void tells(const char *name, uint8_t what, uint32_t slot, uint32_t count)
{
    struct thayarqo_told told = consume();
    bool right = is_answer(THAYARQO_DONE, told.answer) && is_told(what, slot, count, told);
    check(name, is_all_expected() && right);
}

/* Steps over an event that joins the packet. */
static void joins(const char *name, uint16_t type, uint16_t code, uint32_t value)
{
    give(type, code, value);
    expect_word(&held, 8 * next_driver.held, type | (uint32_t)code << 16);
    expect_word(&held, 8 * next_driver.held + 4, value);
    next_driver.held++;
    tells(name, THAYARQO_TOLD_NOTHING, 0, 0);
}

static void ends_packet(void)
{
    next_driver.held = 0;
    next_driver.overlong = next_driver.spoiled = next_driver.ignoring = false;
    give(EV_SYN, SYN_REPORT, 0);
}

/* ---- steps ---- */

static void start(void)
{
    const struct thayarqo_driver fresh = {THAYARQO_NO_SLOT, 0, false, false, false};
    check("a fresh driver", same_driver(driver, &fresh));
    store_word(&area, READ_PTR, RING - 3);
    store_word(&area, WRITE_PTR, RING - 3);
    refuses("an empty ring", THAYARQO_NOTHING_TO_READ, step());
}

static void refuse_steps(void)
{
    struct lent longer = lend("a longer packet", THAYARQO_PACKET_LENGTH + 8, 0xCC);
    give(EV_REL, REL_X, 1);
    refuses("a packet buffer of 255 bytes", THAYARQO_INVALID, thayarqo_step(driver, geometry, area.bytes, AREA, held.bytes, 255));
    refuses("of none", THAYARQO_INVALID, thayarqo_step(driver, geometry, area.bytes, AREA, held.bytes, 0));
    refuses("of 264", THAYARQO_INVALID, thayarqo_step(driver, geometry, area.bytes, AREA, longer.bytes, longer.length));
    check("which stays", came_back_whole(&longer));
    refuses("a short area", THAYARQO_INVALID, thayarqo_step(driver, geometry, area.bytes, AREA - 1, held.bytes, held.length));
    driver->held = next_driver.held = EVENTS + 1;
    refuses("33 events held", THAYARQO_INVALID, step());
    driver->held = next_driver.held = 0;
    driver->slot = next_driver.slot = SLOTS;
    refuses("a slot out of range", THAYARQO_INVALID, step());
    driver->slot = next_driver.slot = THAYARQO_NO_SLOT;
    store_word(&area, WRITE_PTR, RING);
    refuses("a step under an impossible write pointer", THAYARQO_BAD_INDEX, step());
    store_word(&area, WRITE_PTR, RING - 3);
    store_word(&area, READ_PTR, RING);
    refuses("a step under an impossible read pointer", THAYARQO_BAD_INDEX, step());
    store_word(&area, READ_PTR, RING - 3);
}

static void receive_a_packet(void)
{
    give(EV_DEV, DEV_RESET, THAYARQO_ALL_SLOTS);
    tells("a reset of all", THAYARQO_TOLD_RESET_ALL, 0, 0);
    give(EV_DEV, DEV_CONF, SLOT);
    tells("a configuration", THAYARQO_TOLD_CONF, SLOT, 0);
    give(EV_DEV, DEV_SET, SLOT);
    next_driver.slot = SLOT;
    tells("a slot", THAYARQO_TOLD_SET, SLOT, 0);
    joins("an event", EV_REL, REL_X, 7);
    joins("another event", EV_KEY, BTN_LEFT, 0x01020304);
    ends_packet();
    tells("the packet", THAYARQO_TOLD_PACKET, SLOT, 2);
    give(EV_SYN, SYN_REPORT, 0);
    tells("an empty report", THAYARQO_TOLD_EMPTY_REPORT, 0, 0);
    give(EV_DEV, DEV_RESET, 7);
    tells("a reset of another slot", THAYARQO_TOLD_RESET, 7, 0);
    give(EV_DEV, DEV_SET, THAYARQO_UNKNOWN_SLOT);
    next_driver.slot = THAYARQO_UNKNOWN_SLOT;
    tells("an unknown source", THAYARQO_TOLD_SET, THAYARQO_UNKNOWN_SLOT, 0);
    joins("its event", EV_REL, REL_Y, 9);
    ends_packet();
    tells("its packet", THAYARQO_TOLD_PACKET, THAYARQO_UNKNOWN_SLOT, 1);
    refuses("then nothing to read", THAYARQO_NOTHING_TO_READ, step());
}

static void meet_malformed_records(void)
{
    give(EV_DEV, DEV_CONF, SLOTS);
    refuses("a configuration out of range", THAYARQO_MALFORMED, consume());
    give(EV_DEV, 4, 0);
    refuses("another code of the device", THAYARQO_MALFORMED, consume());
    joins("an event", EV_REL, REL_X, 1);
    next_driver.slot = THAYARQO_NO_SLOT;
    next_driver.spoiled = true;
    give(EV_DEV, DEV_SET, SLOTS);
    refuses("a slot out of range within a packet", THAYARQO_MALFORMED, consume());
    ends_packet();
    refuses("the spoiled packet", THAYARQO_MALFORMED, consume());
    for (int i = 0; i < EVENTS; i++)
        joins("an event of 32", EV_REL, REL_X, (uint32_t)i);
    next_driver.overlong = true;
    give(EV_REL, REL_X, 99);
    tells("a 33rd event", THAYARQO_TOLD_NOTHING, 0, 0);
    ends_packet();
    refuses("the packet of 33", THAYARQO_MALFORMED, consume());
}

static void meet_a_gap(void)
{
    joins("an event", EV_REL, REL_X, 1);
    next_driver.held = 0;
    next_driver.ignoring = true;
    give(EV_SYN, SYN_DROPPED, 0);
    tells("a drop", THAYARQO_TOLD_NOTHING, 0, 0);
    give(EV_REL, REL_X, 2);
    tells("an event that is ignored", THAYARQO_TOLD_NOTHING, 0, 0);
    next_driver.slot = SLOT;
    give(EV_DEV, DEV_SET, SLOT);
    tells("a slot that isn't", THAYARQO_TOLD_SET, SLOT, 0);
    ends_packet();
    tells("the gap", THAYARQO_TOLD_GAP, 0, 0);
    next_driver.slot = THAYARQO_NO_SLOT;
    give(EV_DEV, DEV_RESET, SLOT);
    tells("a reset of the current slot", THAYARQO_TOLD_RESET, SLOT, 0);
}

/* ---- copy-out ---- */

static void copies(const char *name, uint32_t limit, size_t length, uint8_t answer, uint32_t count)
{
    struct lent out = lend("out", length, 0xCC);
    uint32_t read = word(&area, READ_PTR);
    for (uint32_t i = 0; i < count; i++)
        memcpy(out.expected + 8 * i, area.bytes + RECORD * ((size_t)(read + i) % RING + 1), 8);
    if (answer == THAYARQO_DONE)
        expect_word(&area, READ_PTR, (read + count) % RING);
    struct thayarqo_copied copied = thayarqo_copy_out(geometry, area.bytes, AREA, limit, out.bytes, length);
    bool right = is_answer(answer, copied.answer);
    right &= came_back_whole(&out);
    check(name, is_all_expected() && right && copied.count == count);
}

static void copy_out(void)
{
    copies("a copy of an empty ring", 9, 80, THAYARQO_NOTHING_TO_READ, 0);
    store_word(&area, READ_PTR, RING - 4);
    store_word(&area, WRITE_PTR, RING - 4);
    for (uint32_t i = 0; i < 9; i++)
        give(EV_REL, REL_X, 0x10203040 + i);
    copies("a limit of 0", 0, 80, THAYARQO_DONE, 0);
    copies("no output", 9, 0, THAYARQO_DONE, 0);
    copies("an output of 7 bytes", 9, 7, THAYARQO_DONE, 0);
    copies("two records in 20 bytes", 9, 20, THAYARQO_DONE, 2);
    copies("a limit of 4, around the ring's end", 4, 80, THAYARQO_DONE, 4);
    store_word(&area, WRITE_PTR, UINT32_MAX);
    copies("a copy under an impossible write pointer", 9, 80, THAYARQO_BAD_INDEX, 0);
    store_word(&area, WRITE_PTR, 5);
    store_word(&area, READ_PTR, RING);
    copies("a copy under an impossible read pointer", 9, 80, THAYARQO_BAD_INDEX, 0);
    store_word(&area, READ_PTR, 2);
    copies("the rest of them", UINT32_MAX, 80, THAYARQO_DONE, 3);
    struct thayarqo_geometry other = geometry;
    other.pages = 1;
    struct lent out = lend("out", 80, 0xCC);
    struct thayarqo_copied copied = thayarqo_copy_out(other, area.bytes, AREA, 9, out.bytes, out.length);
    bool kept = came_back_whole(&out);
    check("another geometry", copied.answer == THAYARQO_INVALID && copied.count == 0 && kept && is_all_expected());
}

/* ---- lookup ---- */

static void looks_up(const char *name, uint32_t slot, size_t page_length, size_t length, uint8_t answer)
{
    struct lent out = lend("out", length, 0xCC);
    if (answer == THAYARQO_DONE)
        memcpy(out.expected, page.bytes + slot * ENTRY, length);
    bool right = is_answer(answer, thayarqo_lookup(geometry, page.bytes, page_length, slot, out.bytes, length));
    right &= came_back_whole(&out);
    check(name, is_all_expected() && right);
}

static void look_up(void)
{
    const uint32_t last = SLOTS - 1;
    make_entry(page.bytes + last * ENTRY, 1 << EV_SYN | 1 << EV_REL, 0x30000);
    make_entry(page.bytes + SLOT * ENTRY, 1 << EV_REL, 0x30000);
    memcpy(page.expected, page.bytes, PAGE);
    looks_up("an entry", last, PAGE, THAYARQO_KNOWN_ENTRY_LENGTH, THAYARQO_DONE);
    looks_up("an absent entry", 5, PAGE, THAYARQO_KNOWN_ENTRY_LENGTH, THAYARQO_BAD_SLOT);
    looks_up("an entry without SYN", SLOT, PAGE, THAYARQO_KNOWN_ENTRY_LENGTH, THAYARQO_BAD_SLOT);
    looks_up("an entry out of range", SLOTS, PAGE, THAYARQO_KNOWN_ENTRY_LENGTH, THAYARQO_BAD_SLOT);
    looks_up("an output of 67 bytes", last, PAGE, THAYARQO_KNOWN_ENTRY_LENGTH - 1, THAYARQO_INVALID);
    looks_up("an output of 72 bytes", last, PAGE, ENTRY, THAYARQO_INVALID);
    looks_up("a short page", last, PAGE - 1, THAYARQO_KNOWN_ENTRY_LENGTH, THAYARQO_INVALID);
}

int main(void)
{
    make_world();
    start();
    refuse_steps();
    receive_a_packet();
    meet_malformed_records();
    meet_a_gap();
    copy_out();
    look_up();
    release_world();
    return broken;
}
