/*
 * Types and codes of records: Linux's, by Linux's names, where its header isn't included already, and the device's own.
 */
#ifndef THAYARQO_CODES_H
#define THAYARQO_CODES_H

#ifndef EV_SYN
#define EV_SYN 0x00
#define EV_KEY 0x01
#define EV_REL 0x02
#define EV_ABS 0x03
#define SYN_REPORT 0
#define SYN_MT_REPORT 2
#define SYN_DROPPED 3
#define REL_X 0x00
#define REL_Y 0x01
#define REL_HWHEEL 0x06
#define REL_WHEEL 0x08
#define ABS_X 0x00
#define ABS_Y 0x01
#define ABS_WHEEL 0x08
#define ABS_GAS 0x09
#define ABS_PRESSURE 0x18
#define ABS_MT_SLOT 0x2f
#define ABS_MT_POSITION_X 0x35
#define ABS_MT_POSITION_Y 0x36
#define ABS_MT_TRACKING_ID 0x39
#define BTN_0 0x100
#define BTN_LEFT 0x110
#define BTN_RIGHT 0x111
#define BTN_MIDDLE 0x112
#define BTN_SIDE 0x113
#define BTN_EXTRA 0x114
#define BTN_FORWARD 0x115
#define BTN_BACK 0x116
#define BTN_TASK 0x117
#define BTN_TOOL_PEN 0x140
#define BTN_TOOL_RUBBER 0x141
#define BTN_TOOL_FINGER 0x145
#define BTN_TOOL_MOUSE 0x146
#define BTN_TOUCH 0x14a
#define BTN_STYLUS 0x14b
#define BTN_STYLUS2 0x14c
#endif

/* Records of the device itself, which Linux doesn't know. */
#define EV_DEV 0x06
#define DEV_SET 1
#define DEV_CONF 2
#define DEV_RESET 3

#endif
