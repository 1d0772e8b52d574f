/*
 * Packets in revision 1 through the C library: the records of each kind of event and their order, what they change of the state, a full
 * ring, an impossible read pointer. After each call every byte and every field is compared with what it has to be.
 */
#include "host_revision1.h"

enum { OTHER = 6 };

/* A packet, and the records that it gives before its FENCE. */
struct sample {
    const char *name;
    uint32_t count;
    struct thayarqo_event events[7];
    uint32_t puts;
    struct {
        uint16_t flags;
        uint32_t data;
    } records[6];
};

static const struct sample samples[] = {
    {"a motion", 2, {{EV_REL, REL_X, 3}, {EV_REL, REL_Y, 0xFFFFFFFE}}, 1, {{RELATIVE, 0xFFFE0003}}},
    {"a motion, Y first", 2, {{EV_REL, REL_Y, 0x0102}, {EV_REL, REL_X, 0x0304}}, 1, {{RELATIVE, 0x01020304}}},
    {"a motion of X", 1, {{EV_REL, REL_X, 0xFFFFFFFF}}, 1, {{RELATIVE, 0x0000FFFF}}},
    {"a motion of Y", 1, {{EV_REL, REL_Y, 5}}, 1, {{RELATIVE, 0x00050000}}},
    {"a motion of 0", 1, {{EV_REL, REL_X, 0}}, 1, {{RELATIVE, 0}}},
    {"a first X, and Y is 0", 1, {{EV_ABS, ABS_X, 0x1234}}, 1, {{ABSOLUTE, 0x00001234}}},
    {"a Y, and X as it was", 1, {{EV_ABS, ABS_Y, 0x5678}}, 1, {{ABSOLUTE, 0x56781234}}},
    {"a position, Y first", 2, {{EV_ABS, ABS_Y, 65535}, {EV_ABS, ABS_X, 0}}, 1, {{ABSOLUTE, 0xFFFF0000}}},
    {"the largest X, and Y as it was", 1, {{EV_ABS, ABS_X, 65535}}, 1, {{ABSOLUTE, 0xFFFFFFFF}}},
    {"the left button", 2, {{EV_KEY, BTN_LEFT, 1}, {EV_KEY, BTN_LEFT, 0}}, 2, {{LEFT_DOWN, 0}, {LEFT_UP, 0}}},
    {"the right button", 2, {{EV_KEY, BTN_RIGHT, 256}, {EV_KEY, BTN_RIGHT, 0}}, 2, {{RIGHT_DOWN, 0}, {RIGHT_UP, 0}}},
    {"the middle button", 2, {{EV_KEY, BTN_MIDDLE, 0x80000000}, {EV_KEY, BTN_MIDDLE, 0}}, 2, {{MIDDLE_DOWN, 0}, {MIDDLE_UP, 0}}},
    {"the wheel", 1, {{EV_REL, REL_WHEEL, 0x01020304}}, 1, {{VWHEEL, 0x01020304}}},
    {"the wheel, back", 1, {{EV_REL, REL_WHEEL, 0xFFFFFFFF}}, 1, {{VWHEEL, 0xFFFFFFFF}}},
    {"buttons that come again",
     6,
     {{EV_KEY, BTN_RIGHT, 1}, {EV_KEY, BTN_LEFT, 1}, {EV_KEY, BTN_RIGHT, 0}, {EV_KEY, BTN_MIDDLE, 1}, {EV_KEY, BTN_LEFT, 1},
      {EV_KEY, BTN_RIGHT, 2}},
     6,
     {{RIGHT_DOWN, 0}, {LEFT_DOWN, 0}, {RIGHT_UP, 0}, {MIDDLE_DOWN, 0}, {LEFT_DOWN, 0}, {RIGHT_DOWN, 0}}},
    {"all kinds, in another order",
     7,
     {{EV_REL, REL_WHEEL, 7}, {EV_KEY, BTN_MIDDLE, 1}, {EV_ABS, ABS_Y, 4}, {EV_REL, REL_Y, 2}, {EV_KEY, BTN_LEFT, 0}, {EV_ABS, ABS_X, 3},
      {EV_REL, REL_X, 1}},
     5,
     {{RELATIVE, 0x00020001}, {ABSOLUTE, 0x00040003}, {MIDDLE_DOWN, 0}, {LEFT_UP, 0}, {VWHEEL, 7}}},
};

/* The last one gives six records, with its FENCE. */
enum { SAMPLES = sizeof samples / sizeof *samples, MIXED = SAMPLES - 1, MIXED_RECORDS = 6 };

static void expect_sample(const struct sample *sample)
{
    for (uint32_t i = 0; i < sample->puts; i++)
        expect_flagged(sample->records[i].flags, sample->records[i].data);
    expect_flagged(FENCE, 0);
}

static uint8_t put_sample(const struct sample *sample)
{
    return put_packet(SLOT, sample->events, sample->count * sizeof *sample->events);
}

static void accepts(const char *name, const struct sample *sample)
{
    expect_sample(sample);
    answers(name, THAYARQO_DONE, put_sample(sample));
}

/* ---- what is put, and what changes with it ---- */

static void put_samples(void)
{
    struct thayarqo_event clicks[EVENTS];
    next_device.isr = true;
    for (size_t i = 0; i < SAMPLES; i++)
        accepts(samples[i].name, &samples[i]);
    for (uint32_t i = 0; i < EVENTS; i++) {
        struct thayarqo_event click = {EV_KEY, BTN_LEFT, i % 2};
        clicks[i] = click;
        expect_flagged(i % 2 ? LEFT_DOWN : LEFT_UP, 0);
    }
    expect_flagged(FENCE, 0);
    answers("32 events", THAYARQO_DONE, put_packet(SLOT, clicks, sizeof clicks));
}

/* No record names a slot. The current one stays, and there is one position for all. */
static void put_for_slots(void)
{
    add_device("an add while on", OTHER, ALL_TYPES, FOUR_BUTTONS);
    store_word(&page, OTHER * ENTRY + ABSBITS, 3);
    device->current_slot = next_device.current_slot = OTHER;
    accepts("a packet beside a current slot", &samples[MIXED]);
    expect_group(ABSOLUTE, 0x00040009);
    answers("a packet of another slot", THAYARQO_DONE, put_event(OTHER, EV_ABS, ABS_X, 9));
    expect_group(ABSOLUTE, 0x00080009);
    answers("then one of the first", THAYARQO_DONE, put_event(SLOT, EV_ABS, ABS_Y, 8));
}

static void raise_interrupts(void)
{
    for (unsigned marks = 0; marks < 4; marks++) {
        device->isr = marks & 1;
        device->interrupts = next_device.interrupts = marks >> 1;
        next_device.isr = marks != 0;
        accepts("ISR is set if interrupts are on, and else it stays", &samples[0]);
    }
}

/* ---- refusals ---- */

static void refuse_packets(void)
{
    struct thayarqo_event some[2] = {{EV_ABS, ABS_X, 1}, {EV_SYN, SYN_MT_REPORT, 0}};
    answers("a packet while off", THAYARQO_DEVICE_OFF, put_event(SLOT, EV_REL, REL_X, 1));
    answers("12 bytes while off", THAYARQO_INVALID, put_packet(SLOT, some, 12));
    start();
    answers("33 events", THAYARQO_MALFORMED, put_motions(SLOT, EVENTS + 1, 0));
    answers("no event", THAYARQO_MALFORMED, put_motions(SLOT, 0, 0));
    answers("a slot out of range", THAYARQO_BAD_SLOT, put_motions(SLOTS, 1, 0));
    answers("an absent slot, and no event", THAYARQO_BAD_SLOT, put_motions(SLOT + 1, 0, 0));
    answers("an event and a half", THAYARQO_INVALID, put_packet(SLOT, some, 12));
    answers("a second event without a form", THAYARQO_NOT_OFFERED, put_packet(SLOT, some, sizeof some));
}

/* Room for so many records. */
static void leave_room(uint32_t records)
{
    store_word(&area, READ_PTR, (next_device.write_index + 1 + records) % RING);
}

/* A packet that is refused moves no position, and what was lost isn't shown. */
static void fill_the_ring(void)
{
    leave_room(MIXED_RECORDS - 1);
    next_device.lost = true;
    answers("a packet of 6 records where there is room for 5", THAYARQO_NO_ROOM, put_sample(&samples[MIXED]));
    expect_group(ABSOLUTE, 0x0008000A);
    answers("one of 2 records, and the lost mark stays", THAYARQO_DONE, put_event(SLOT, EV_ABS, ABS_X, 10));
    leave_room(MIXED_RECORDS);
    accepts("one of 6 where there is room for 6", &samples[MIXED]);
    answers("then there is none", THAYARQO_NO_ROOM, put_sample(&samples[0]));
    leave_room(1);
    answers("nor for 2 where there is room for 1", THAYARQO_NO_ROOM, put_sample(&samples[0]));
}

static void go_round(void)
{
    device->write_index = next_device.write_index = RING - 2;
    leave_room(MIXED_RECORDS);
    accepts("a packet around the ring's end", &samples[MIXED]);
    check("the ring has gone round", device->write_index == MIXED_RECORDS - 2);
}

static void meet_impossible_pointer(void)
{
    store_word(&area, READ_PTR, RING);
    device->lost = next_device.lost = false;
    answers("an event without a form, first", THAYARQO_NOT_OFFERED, put_event(SLOT, EV_REL, REL_HWHEEL, 1));
    next_device.lost = true;
    answers("a packet under an impossible read pointer", THAYARQO_BAD_INDEX, put_event(SLOT, EV_ABS, ABS_X, 11));
    answers("again", THAYARQO_BAD_INDEX, put_event(SLOT, EV_ABS, ABS_X, 11));
    store_word(&area, READ_PTR, RING - 1);
    accepts("a packet under one below it", &samples[0]);
}

/* ---- CLIENT_REV ---- */

static void serve_both(void)
{
    remove_device("a remove while on", OTHER);
    switch_off("a switch-off");
    write_client_rev("CLIENT_REV 1", 1);
    switch_on("a switch-on clears the lost mark and the position");
    accepts("a packet with CLIENT_REV 1", &samples[0]);
    expect_group(ABSOLUTE, 0x00050000);
    answers("a Y after the switch-on, and X is 0", THAYARQO_DONE, put_event(SLOT, EV_ABS, ABS_Y, 5));
    switch_off("a second switch-off");
    write_client_rev("CLIENT_REV 2", 2);
    switch_on("a switch-on in revision 2");
    next_device.current_slot = SLOT;
    expect_record(EV_DEV, DEV_SET, SLOT);
    expect_motions(2, 70000);
    answers("motions that have no form in revision 1", THAYARQO_DONE, put_motions(SLOT, 2, 70000));
}

int main(void)
{
    make_world();
    refuse_packets();
    put_samples();
    put_for_slots();
    raise_interrupts();
    fill_the_ring();
    go_round();
    meet_impossible_pointer();
    serve_both();
    release_world();
    return broken;
}
