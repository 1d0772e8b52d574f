/*
 * Revision 1 through the C library: its registers, switch-on and -off, adds and removes, and the way to the other revision and back.
 * After each call every byte and every field is compared with what it has to be.
 */
#include "host_world.h"

enum { MOUSE = 1 << EV_SYN | 1 << EV_REL, OTHER = 7 };

/* ---- the registers ---- */

static void shows(const char *name, uint32_t rev, uint32_t client_rev, uint32_t acceleration)
{
    reads(name, THAYARQO_DONE, rev, REV, 4);
    reads("its CLIENT_REV", THAYARQO_DONE, client_rev, CLIENT_REV, 4);
    reads("its ACCELERATION", THAYARQO_DONE, acceleration, ACCELERATION, 4);
}

static void write_acceleration(const char *name, uint16_t value)
{
    next_device.acceleration = value;
    answers(name, THAYARQO_DONE, write_register(ACCELERATION, value));
    reads("it is read again", THAYARQO_DONE, value, ACCELERATION, 4);
}

/* Among them two whose low bits alone would do. */
static void ignore_accelerations(void)
{
    static const uint32_t others[] = {0, 21, 255, 256 + 5, 65536 + 5, UINT32_MAX};
    for (size_t i = 0; i < sizeof others / sizeof *others; i++)
        answers("another ACCELERATION is ignored", THAYARQO_DONE, write_register(ACCELERATION, others[i]));
}

static void start_fresh(void)
{
    shows("REV of a fresh device", 1, 0, 10);
    write_acceleration("the lowest ACCELERATION", 1);
    write_acceleration("the highest ACCELERATION", 20);
    ignore_accelerations();
    add_device("an add while off", SLOT, MOUSE, 0);
}

/* ---- on and off ---- */

/* What a switch-on has to start anew, and ISR, which it keeps. */
static void leave_traces(void)
{
    store_word(&area, READ_PTR, RING);
    store_word(&area, WRITE_PTR, 100);
    next_device.write_index = 100;
    next_device.current_slot = SLOT;
    next_device.position.x = 7;
    next_device.position.y = 9;
    next_device.lost = next_device.isr = true;
    *device = next_device;
}

static void switch_on_unwritten(void)
{
    leave_traces();
    switch_on("a switch-on without CLIENT_REV puts no record");
    reads("CONTROL", THAYARQO_DONE, 3, CONTROL, 4);
    reads("WRITE_PTR", THAYARQO_DONE, 0, 0x1004, 4);
    shows("REV while on", 1, 0, 20);
}

static void stay_on(void)
{
    leave_traces();
    for (uint32_t value = 0; value <= 3; value++)
        answers("CLIENT_REV is ignored while on", THAYARQO_DONE, write_register(CLIENT_REV, value));
    write_acceleration("ACCELERATION while on", 13);
    ignore_accelerations();
    next_device.interrupts = false;
    answers("CONTROL while on starts nothing anew", THAYARQO_DONE, write_register(CONTROL, 0xFFFFFFFD));
    next_device.isr = false;
    answers("ISR is cleared", THAYARQO_DONE, write_register(ISR, 1));
    expect_word(&area, READ_PTR, UINT32_MAX);
    answers("READ_PTR takes any number", THAYARQO_DONE, write_register(0x1000, UINT32_MAX));
}

static void switch_off_and_on(void)
{
    leave_traces();
    switch_off("a switch-off keeps the ring");
    shows("REV while off again", 1, 0, 13);
    switch_on("a second switch-on");
    switch_off("a second switch-off");
}

/* ---- CLIENT_REV ---- */

/* Among them two whose low bits alone would do. */
static void reject_numbers(void)
{
    static const uint32_t numbers[] = {0, 3, 255, 256 + 1, 65536 + 2, UINT32_MAX};
    for (size_t i = 0; i < sizeof numbers / sizeof *numbers; i++) {
        write_client_rev("a number that is rejected", numbers[i]);
        shows("REV then", 2, 0, 0);
        answers("ACCELERATION is ignored then", THAYARQO_DONE, write_register(ACCELERATION, 5));
        next_device.interrupts = true;
        answers("CONTROL can't switch on", THAYARQO_DONE, write_register(CONTROL, 3));
        next_device.interrupts = false;
        answers("nor with bit 0 alone", THAYARQO_DONE, write_register(CONTROL, 1));
        write_client_rev("CLIENT_REV 1 after it", 1);
        shows("REV of it", 1, 1, 13);
    }
}

static void go_to_the_other(void)
{
    write_client_rev("CLIENT_REV 2", 2);
    shows("REV of it", 2, 2, 0);
    answers("ACCELERATION is ignored in revision 2", THAYARQO_DONE, write_register(ACCELERATION, 5));
    leave_traces();
    switch_on("a switch-on in revision 2 puts records");
    answers("ACCELERATION is ignored while on", THAYARQO_DONE, write_register(ACCELERATION, 5));
    leave_traces();
    switch_off("a switch-off");
    write_client_rev("back to CLIENT_REV 1", 1);
    shows("REV of it", 1, 1, 13);
    switch_on("a switch-on with CLIENT_REV 1 puts none");
    answers("CLIENT_REV while on", THAYARQO_DONE, write_register(CLIENT_REV, 2));
    shows("REV stays", 1, 1, 13);
}

/* ---- adds and removes ---- */

static void refuse_plugs(void)
{
    uint8_t entry[ENTRY];
    make_entry(entry, MOUSE, 0);
    answers("an entry of 71 bytes", THAYARQO_INVALID, add(OTHER, entry, ENTRY - 1));
    answers("an add to a taken slot", THAYARQO_BAD_SLOT, add(SLOT, entry, ENTRY));
    answers("an add out of range", THAYARQO_BAD_SLOT, add(SLOTS, entry, ENTRY));
    make_entry(entry, MOUSE & ~1, 0);
    answers("an entry without SYN", THAYARQO_MALFORMED, add(OTHER, entry, ENTRY));
    answers("a remove of an absent slot", THAYARQO_BAD_SLOT, remove_slot(OTHER));
    answers("a remove out of range", THAYARQO_BAD_SLOT, remove_slot(SLOTS));
}

/* No record is put, so neither room nor READ_PTR matters. */
static void plug(void)
{
    add_device("an add while on puts no record", OTHER, MOUSE, 0);
    remove_device("nor does a remove", OTHER);
    store_word(&area, READ_PTR, next_device.write_index + 1);
    add_device("an add with a full ring", OTHER, MOUSE, 0);
    remove_device("a remove with a full ring", OTHER);
    store_word(&area, READ_PTR, RING);
    add_device("an add under an impossible read pointer", OTHER, MOUSE, 0);
    device->current_slot = next_device.current_slot = SLOT;
    remove_device("a remove under it", OTHER);
    remove_device("a remove of the current slot", SLOT);
    add_device("an add to it", SLOT, MOUSE, 0);
}

int main(void)
{
    make_world();
    start_fresh();
    switch_on_unwritten();
    stay_on();
    switch_off_and_on();
    reject_numbers();
    go_to_the_other();
    refuse_plugs();
    plug();
    release_world();
    return broken;
}
