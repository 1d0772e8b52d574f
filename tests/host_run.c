/*
 * The device and its driver over the same area, through the C library: a ring that is filled, all of it received in order, the gap
 * after it, and on around the ring's end.
 */
#include "host_world.h"

/* Packets of 33 records that fit in the ring behind the three records before them. */
enum { MOUSE = 1 << EV_SYN | 1 << EV_REL, FIT = 15 };

/* Steps up to the next report, slot or refusal. */
static struct thayarqo_told next_told(void)
{
    struct thayarqo_told told;
    do
        told = thayarqo_step(driver, geometry, area.bytes, AREA, held.bytes, held.length);
    while (told.answer == THAYARQO_DONE && told.what == THAYARQO_TOLD_NOTHING);
    return told;
}

static bool tells(uint8_t what, uint32_t slot, uint32_t count)
{
    struct thayarqo_told told = next_told();
    return told.answer == THAYARQO_DONE && told.what == what && told.slot == slot && told.count == count;
}

static bool hears_motions(uint32_t count, uint32_t value)
{
    for (uint32_t i = 0; i < count; i++) {
        expect_word(&held, 8 * i, EV_REL | REL_X << 16);
        expect_word(&held, 8 * i + 4, value + i);
    }
    return tells(THAYARQO_TOLD_PACKET, SLOT, count) && is_as_expected(&held);
}

/* What the steps have changed in all: they have read every record. */
static void all_is_read(const char *name)
{
    expect_word(&area, READ_PTR, next_device.write_index);
    next_driver.slot = SLOT;
    answers(name, THAYARQO_NOTHING_TO_READ, next_told().answer);
}

static void start(void)
{
    add_device("an add", SLOT, MOUSE, 0);
    write_client_rev("CLIENT_REV", 2);
    switch_on("a switch-on");
    next_device.current_slot = SLOT;
    next_device.isr = true;
    expect_record(EV_DEV, DEV_SET, SLOT);
}

static void fill_and_drain(void)
{
    for (uint32_t i = 0; i < FIT; i++) {
        expect_motions(EVENTS, 100 * i);
        answers("a packet of 32 events", THAYARQO_DONE, put_motions(SLOT, EVENTS, 100 * i));
    }
    next_device.lost = true;
    answers("a packet to a full ring", THAYARQO_NO_ROOM, put_motions(SLOT, EVENTS, 0));
    bool first = tells(THAYARQO_TOLD_RESET_ALL, 0, 0) && tells(THAYARQO_TOLD_CONF, SLOT, 0) && tells(THAYARQO_TOLD_SET, SLOT, 0);
    check("the first records come", first);
    uint32_t heard = 0;
    while (heard < FIT && hears_motions(EVENTS, 100 * heard))
        heard++;
    check("all packets come, in order", heard == FIT);
    all_is_read("then nothing to read");
}

static void go_on(void)
{
    expect_record(EV_SYN, SYN_DROPPED, 0);
    expect_record(EV_SYN, SYN_REPORT, 0);
    expect_motions(EVENTS, 7);
    next_device.lost = false;
    answers("a packet after the gap, around the ring's end", THAYARQO_DONE, put_motions(SLOT, EVENTS, 7));
    check("the gap shows", tells(THAYARQO_TOLD_GAP, 0, 0));
    check("then the packet", hears_motions(EVENTS, 7));
    all_is_read("and no more");
    check("the ring has gone round", device->write_index == 3 + (FIT + 1) * (EVENTS + 1) + 2 - RING);
}

int main(void)
{
    make_world();
    start();
    fill_and_drain();
    go_on();
    release_world();
    return broken;
}
