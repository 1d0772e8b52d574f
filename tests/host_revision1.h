/* For the tests of packets in revision 1: a device that is on there, and the records that it has to put. */
#ifndef HOST_REVISION1_H
#define HOST_REVISION1_H

#include "host_world.h"

/* An entry of every type, with the axes of its first mask, and the left, right, middle and side button. */
enum { ALL_TYPES = 1 << EV_SYN | 1 << EV_KEY | 1 << EV_REL | 1 << EV_ABS, FOUR_BUTTONS = 0xF0000, ABSBITS = 44 };

enum {
    ABSOLUTE = THAYARQO_FLAG_ABSOLUTE,
    RELATIVE = THAYARQO_FLAG_RELATIVE,
    FENCE = THAYARQO_FLAG_FENCE,
    LEFT_DOWN = THAYARQO_FLAG_LEFT_BUTTON_DOWN,
    LEFT_UP = THAYARQO_FLAG_LEFT_BUTTON_UP,
    RIGHT_DOWN = THAYARQO_FLAG_RIGHT_BUTTON_DOWN,
    RIGHT_UP = THAYARQO_FLAG_RIGHT_BUTTON_UP,
    MIDDLE_DOWN = THAYARQO_FLAG_MIDDLE_BUTTON_DOWN,
    MIDDLE_UP = THAYARQO_FLAG_MIDDLE_BUTTON_UP,
    VWHEEL = THAYARQO_FLAG_VWHEEL
};

/* Switches on, with CLIENT_REV never written. */
static inline void start(void)
{
    add_device("an add", SLOT, ALL_TYPES, FOUR_BUTTONS);
    store_word(&page, SLOT * ENTRY + ABSBITS, 0xFFFFFFFF);
    switch_on("a switch-on in revision 1");
}

/* The next record. An ABSOLUTE is where the pointer is from now on. */
static inline void expect_flagged(uint16_t flags, uint32_t data)
{
    if (flags == ABSOLUTE) {
        next_device.position.x = (uint16_t)data;
        next_device.position.y = (uint16_t)(data >> 16);
    }
    expect_record(flags, 1, data);
}

/* The records of a packet that gives one before its FENCE. */
static inline void expect_group(uint16_t flags, uint32_t data)
{
    expect_flagged(flags, data);
    expect_flagged(FENCE, 0);
}

#endif
