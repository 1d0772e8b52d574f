/*
 * Packets through the C library: each refusal, the records of one that is accepted, what an entry offers, a full ring, a gap, an
 * impossible read pointer. After each call every byte and every field is compared with what it has to be.
 */
#include "host_world.h"

enum { POINTER = 1 << EV_SYN | 1 << EV_KEY | 1 << EV_REL, LEFT_AND_RIGHT = 0x30000, OTHERS = 0xC00 };

/* The slots whose entries have the two masks of buttons. */
enum { PLAIN = 6 };

static void start(void)
{
    struct thayarqo_event half[2] = {{EV_REL, REL_X, 1}, {EV_REL, REL_X, 2}};
    answers("a packet while off", THAYARQO_DEVICE_OFF, put_motions(SLOT, 1, 0));
    answers("12 bytes while off", THAYARQO_INVALID, put_packet(SLOT, half, 12));
    add_device("an add", SLOT, POINTER, LEFT_AND_RIGHT);
    write_client_rev("CLIENT_REV", 2);
    switch_on("a switch-on");
}

static void refuse_packets(void)
{
    struct thayarqo_event some[2] = {{EV_REL, REL_X, 1}, {EV_ABS, ABS_X, 2}};
    answers("33 events", THAYARQO_MALFORMED, put_motions(SLOT, EVENTS + 1, 0));
    answers("no event", THAYARQO_MALFORMED, put_motions(SLOT, 0, 0));
    answers("a slot out of range", THAYARQO_BAD_SLOT, put_motions(UINT32_MAX, 1, 0));
    answers("an absent slot", THAYARQO_BAD_SLOT, put_motions(SLOT + 1, 1, 0));
    answers("an absent slot, and no event", THAYARQO_BAD_SLOT, put_motions(SLOT + 1, 0, 0));
    answers("an event and a half", THAYARQO_INVALID, put_packet(SLOT, some, 12));
    answers("two events without a byte", THAYARQO_INVALID, put_packet(SLOT, some, sizeof some - 1));
    answers("a second event that isn't offered", THAYARQO_NOT_OFFERED, put_packet(SLOT, some, sizeof some));
    answers("a report within", THAYARQO_NOT_OFFERED, put_event(SLOT, EV_SYN, SYN_REPORT, 0));
    answers("a record of the device", THAYARQO_NOT_OFFERED, put_event(SLOT, EV_DEV, DEV_CONF, SLOT));
    answers("REL code 32", THAYARQO_NOT_OFFERED, put_event(SLOT, EV_REL, 32, 0));
    device->current_slot = next_device.current_slot = SLOT + 1;
    answers("a current slot that is absent", THAYARQO_INVALID, put_motions(SLOT, 1, 0));
    device->current_slot = next_device.current_slot = THAYARQO_NO_SLOT;
}

static void put_two(void)
{
    next_device.isr = true;
    next_device.current_slot = SLOT;
    expect_record(EV_DEV, DEV_SET, SLOT);
    expect_motions(2, 7);
    answers("a packet of two events", THAYARQO_DONE, put_motions(SLOT, 2, 7));
    expect_motions(EVENTS, 40);
    answers("one of 32", THAYARQO_DONE, put_motions(SLOT, EVENTS, 40));
    expect_record(EV_SYN, SYN_MT_REPORT, 0);
    expect_record(EV_SYN, SYN_REPORT, 0);
    answers("SYN_MT_REPORT", THAYARQO_DONE, put_event(SLOT, EV_SYN, SYN_MT_REPORT, 0));
    next_device.isr = next_device.interrupts = false;
    device->isr = device->interrupts = false;
    expect_motions(1, 1);
    answers("a packet without interrupts", THAYARQO_DONE, put_motions(SLOT, 1, 1));
}

static void press(const char *name, uint32_t slot, uint16_t code)
{
    if (next_device.current_slot != slot)
        expect_record(EV_DEV, DEV_SET, slot);
    next_device.current_slot = slot;
    expect_record(EV_KEY, code, 1);
    expect_record(EV_SYN, SYN_REPORT, 0);
    answers(name, THAYARQO_DONE, put_event(slot, EV_KEY, code, 1));
}

/* The page of the device calls 0xC00 the mask of BTN_LEFT and BTN_RIGHT. By its own rule, that is 0x30000. */
static void offer_buttons(void)
{
    press("0x30000 offers BTN_LEFT", SLOT, BTN_LEFT);
    press("0x30000 offers BTN_RIGHT", SLOT, BTN_RIGHT);
    answers("it doesn't offer BTN_MIDDLE", THAYARQO_NOT_OFFERED, put_event(SLOT, EV_KEY, BTN_MIDDLE, 1));
    answers("nor code 0x10", THAYARQO_NOT_OFFERED, put_event(SLOT, EV_KEY, BTN_LEFT - BTN_0, 1));
    add_device("an add with mask 0xC00", PLAIN, POINTER, OTHERS);
    answers("0xC00 doesn't offer BTN_LEFT", THAYARQO_NOT_OFFERED, put_event(PLAIN, EV_KEY, BTN_LEFT, 1));
    answers("0xC00 doesn't offer BTN_RIGHT", THAYARQO_NOT_OFFERED, put_event(PLAIN, EV_KEY, BTN_RIGHT, 1));
    press("it offers code 0x10A", PLAIN, 0x10A);
    press("and code 0x10B", PLAIN, 0x10B);
    press("back to the first slot", SLOT, BTN_LEFT);
}

/* Two records more, since packets were lost. */
static uint8_t put_after_gap(uint32_t count)
{
    expect_record(EV_SYN, SYN_DROPPED, 0);
    expect_record(EV_SYN, SYN_REPORT, 0);
    expect_motions(count, 5);
    next_device.lost = false;
    return put_motions(SLOT, count, 5);
}

static void fill_the_ring(void)
{
    store_word(&area, READ_PTR, next_device.write_index + 11);
    next_device.lost = true;
    answers("a packet of 11 records where there is room for 10", THAYARQO_NO_ROOM, put_motions(SLOT, 10, 0));
    answers("again", THAYARQO_NO_ROOM, put_motions(SLOT, 10, 0));
    device->lost = next_device.lost = false;
    expect_motions(9, 3);
    answers("one of 10", THAYARQO_DONE, put_motions(SLOT, 9, 3));
    next_device.lost = true;
    answers("then there is none", THAYARQO_NO_ROOM, put_motions(SLOT, 1, 0));
}

static void show_the_gap(void)
{
    device->write_index = next_device.write_index = RING - 2;
    expect_word(&area, READ_PTR, 5);
    answers("READ_PTR is written", THAYARQO_DONE, write_register(0x1000, 5));
    answers("a gap and 4 events, where there is room for 6 records", THAYARQO_NO_ROOM, put_motions(SLOT, 4, 5));
    answers("a gap and 3 events", THAYARQO_DONE, put_after_gap(3));
    check("the ring has gone round", device->write_index == 4);
}

static void meet_impossible_pointer(void)
{
    expect_word(&area, READ_PTR, RING);
    answers("READ_PTR of the ring's length", THAYARQO_DONE, write_register(0x1000, RING));
    next_device.lost = true;
    answers("a packet under an impossible read pointer", THAYARQO_BAD_INDEX, put_motions(SLOT, 1, 0));
    answers("again", THAYARQO_BAD_INDEX, put_motions(SLOT, 1, 0));
    answers("an event that isn't offered, first", THAYARQO_NOT_OFFERED, put_event(SLOT, EV_ABS, ABS_X, 0));
    expect_word(&area, READ_PTR, RING - 1);
    answers("READ_PTR below it", THAYARQO_DONE, write_register(0x1000, RING - 1));
    answers("a packet is accepted again", THAYARQO_DONE, put_after_gap(3));
}

int main(void)
{
    make_world();
    start();
    refuse_packets();
    put_two();
    offer_buttons();
    fill_the_ring();
    show_the_gap();
    meet_impossible_pointer();
    release_world();
    return broken;
}
