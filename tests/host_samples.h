/* For the tests of the C library: events of the keyboard ring, as numbers and as bytes. */
#ifndef HOST_SAMPLES_H
#define HOST_SAMPLES_H

#include "thayarqo.h"

#include "host_case.h"

enum { EVENT = THAYARQO_RING_EVENT_LENGTH, CONTACT = 9, LIMIT = 10 };

/* An event; then its bytes: the first three, and the words at 4, 8 and 12. */
struct sample {
    const char *name;
    struct thayarqo_ring_event event;
    uint8_t head[3];
    uint32_t words[3];
};

/* kind, subtype, contact, pressed, x, y, z, keycode, major, minor, orientation */
static const struct sample samples[] = {
    {"a motion", {THAYARQO_RING_MOTION, 0, 0, false, -2, INT32_MAX, INT32_MIN, 0, 0, 0, 0},
     {1, 0, 0}, {0xFFFFFFFE, 0x7FFFFFFF, 0x80000000}},
    {"a key", {THAYARQO_RING_KEY, 0, 0, true, 0, 0, 0, UINT32_MAX, 0, 0, 0},
     {3, 1, 0}, {0xFFFFFFFF, 0, 0}},
    {"a released key", {THAYARQO_RING_KEY, 0, 0, false, 0, 0, 0, 30, 0, 0, 0},
     {3, 0, 0}, {30, 0, 0}},
    {"a position", {THAYARQO_RING_POSITION, 0, 0, false, 0x01020304, -1, -120, 0, 0, 0, 0},
     {4, 0, 0}, {0x01020304, 0xFFFFFFFF, 0xFFFFFF88}},
    {"a touch", {THAYARQO_RING_TOUCH, THAYARQO_TOUCH_DOWN, CONTACT, false, -32769, INT32_MAX, 0, 0, 0, 0, 0},
     {5, 0, CONTACT}, {0, 0xFFFF7FFF, 0x7FFFFFFF}},
    {"its motion", {THAYARQO_RING_TOUCH, THAYARQO_TOUCH_MOTION, CONTACT, false, 0x11223344, -65536, 0, 0, 0, 0, 0},
     {5, 2, CONTACT}, {0, 0x11223344, 0xFFFF0000}},
    {"its shape", {THAYARQO_RING_TOUCH, THAYARQO_TOUCH_SHAPE, CONTACT, false, 0, 0, 0, 0, UINT32_MAX, 0x80000000, 0},
     {5, 4, CONTACT}, {0, 0xFFFFFFFF, 0x80000000}},
    {"its orientation", {THAYARQO_RING_TOUCH, THAYARQO_TOUCH_ORIENT, CONTACT, false, 0, 0, 0, 0, 0, 0, -180},
     {5, 5, CONTACT}, {0, 0xFF4C, 0}},
    {"its end", {THAYARQO_RING_TOUCH, THAYARQO_TOUCH_UP, CONTACT, false, 0, 0, 0, 0, 0, 0, 0},
     {5, 1, CONTACT}, {0, 0, 0}},
    {"the end of a frame", {THAYARQO_RING_TOUCH, THAYARQO_TOUCH_SYN, 0, false, 0, 0, 0, 0, 0, 0, 0},
     {5, 3, 0}, {0, 0, 0}},
};

enum { SAMPLES = sizeof samples / sizeof *samples, KEY = 1, TOUCH = 4 };

static const struct thayarqo_ring_event unknown = {THAYARQO_RING_UNKNOWN, 0, 0, false, 0, 0, 0, 0, 0, 0, 0};

static inline struct sample key(uint32_t keycode)
{
    struct sample sample = {"a key", {THAYARQO_RING_KEY, 0, 0, true, 0, 0, 0, keycode, 0, 0, 0}, {3, 1, 0}, {keycode, 0, 0}};
    return sample;
}

static inline void write_bytes(uint8_t *bytes, const struct sample *sample)
{
    memset(bytes, 0, EVENT);
    memcpy(bytes, sample->head, 3);
    for (int i = 0; i < 3; i++)
        set_word(bytes, 4 + 4 * i, sample->words[i]);
}

/* A refusal has the unknown event. */
static inline bool is_found(uint8_t answer, struct thayarqo_ring_event a, struct thayarqo_ring_found found)
{
    struct thayarqo_ring_event b = found.event;
    return is_answer(answer, found.answer) && a.kind == b.kind && a.subtype == b.subtype && a.contact == b.contact
        && a.pressed == b.pressed && a.x == b.x && a.y == b.y && a.z == b.z && a.keycode == b.keycode && a.major == b.major
        && a.minor == b.minor && a.orientation == b.orientation;
}

#endif
