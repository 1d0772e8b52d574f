/*
 * The Xen keyboard ring: events as numbers and as bytes, the back end's put and the front end's take.
 *
 * What thayarqo.h says of every call holds here too: how answers are ordered, what a refusal leaves, which pointers may be lent, and
 * in which order shared bytes are loaded and stored.
 */
#ifndef THAYARQO_RING_H
#define THAYARQO_RING_H

#include "thayarqo_answers.h"

#include <stdbool.h>
#include <stddef.h>
#include <stdint.h>

#ifdef __cplusplus
extern "C" {
#endif

#define THAYARQO_RING_PAGE_LENGTH 4096
#define THAYARQO_RING_EVENT_LENGTH 40

enum thayarqo_ring_kind {
    THAYARQO_RING_UNKNOWN = 0,
    THAYARQO_RING_MOTION = 1,   /* x, y, z */
    THAYARQO_RING_KEY = 3,      /* pressed, keycode */
    THAYARQO_RING_POSITION = 4, /* x, y, and the wheel at z */
    THAYARQO_RING_TOUCH = 5     /* subtype, contact, and what the subtype has */
};

enum thayarqo_touch {
    THAYARQO_TOUCH_DOWN = 0, /* x, y */
    THAYARQO_TOUCH_UP = 1,
    THAYARQO_TOUCH_MOTION = 2, /* x, y */
    THAYARQO_TOUCH_SYN = 3,
    THAYARQO_TOUCH_SHAPE = 4, /* major, minor */
    THAYARQO_TOUCH_ORIENT = 5 /* orientation */
};

/* Numbers that an event doesn't have aren't looked at in one that is given, and are 0 in one that is found. */
struct thayarqo_ring_event {
    uint8_t kind;    /* enum thayarqo_ring_kind */
    uint8_t subtype; /* enum thayarqo_touch */
    uint8_t contact;
    bool pressed;
    int32_t x;
    int32_t y;
    int32_t z;
    uint32_t keycode;
    uint32_t major;
    uint32_t minor;
    int16_t orientation;
};

/* Where answer isn't 0, the event is all 0. */
struct thayarqo_ring_found {
    uint8_t answer;
    struct thayarqo_ring_event event;
};

/*
 * Writes an event as bytes. Answers 1 where out_length isn't THAYARQO_RING_EVENT_LENGTH, and 9 for another kind or subtype. The
 * contact isn't tested here: decode, put and take do so. Changes all of out; a refusal leaves it.
 */
uint8_t thayarqo_ring_encode(uint8_t *out, size_t out_length, struct thayarqo_ring_event event);

/*
 * Reads an event's bytes. Answers 1, and 9 for a malformed event; another type or subtype is no refusal, its event is unknown. 1 is
 * for bytes_length other than THAYARQO_RING_EVENT_LENGTH, and for a contact_limit that isn't 1 to 32. Contacts are below that limit.
 * Changes nothing.
 */
struct thayarqo_ring_found thayarqo_ring_decode(const uint8_t *bytes, size_t bytes_length, uint32_t contact_limit);

/*
 * The back end's call: puts an event's bytes in the place of *in_prod. Answers 1, 9 (also for what is unknown), 10, 7. Where it
 * answers 0, it changes that place of the page, *in_prod, which moves on by one, and the page's in_prod with it. Each end keeps its
 * own index and never reads it back from the page. Index 0 has the place of index 4294967295, whose event must be taken before the
 * next is put.
 */
uint8_t thayarqo_ring_put(uint8_t *page, size_t page_length, uint32_t *in_prod, uint32_t contact_limit,
                          const uint8_t *event, size_t event_length);

/*
 * The front end's call: takes the event in the place of *in_cons. Answers 1, 10, 11, and 9 for a malformed event. Where it answers 0
 * or 9, the event is consumed: it changes *in_cons, which moves on by one, and the page's in_cons with it. What is unknown is no
 * refusal.
 */
struct thayarqo_ring_found thayarqo_ring_take(uint8_t *page, size_t page_length, uint32_t *in_cons, uint32_t contact_limit);

#ifdef __cplusplus
}
#endif
#endif
