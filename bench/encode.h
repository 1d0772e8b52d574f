/* A keyboard ring event written as bytes, in plain C: what both C contestants do once they have tested what they test. */
#ifndef ENCODE_H
#define ENCODE_H

#include "thayarqo.h"
#include "words.h"

static inline void encode_touch(uint8_t *out, const struct thayarqo_ring_event *touch)
{
    out[1] = touch->subtype;
    out[2] = touch->contact;
    switch (touch->subtype) {
    case THAYARQO_TOUCH_DOWN:
    case THAYARQO_TOUCH_MOTION:
        store_u32(out + 8, (uint32_t)touch->x);
        store_u32(out + 12, (uint32_t)touch->y);
        break;
    case THAYARQO_TOUCH_SHAPE:
        store_u32(out + 8, touch->major);
        store_u32(out + 12, touch->minor);
        break;
    case THAYARQO_TOUCH_ORIENT:
        store_u16(out + 8, (uint16_t)touch->orientation);
    }
}

static inline void encode_event(uint8_t *out, const struct thayarqo_ring_event *event)
{
    memset(out, 0, THAYARQO_RING_EVENT_LENGTH);
    out[0] = event->kind;
    switch (event->kind) {
    case THAYARQO_RING_MOTION:
    case THAYARQO_RING_POSITION:
        store_u32(out + 4, (uint32_t)event->x);
        store_u32(out + 8, (uint32_t)event->y);
        store_u32(out + 12, (uint32_t)event->z);
        break;
    case THAYARQO_RING_KEY:
        out[1] = event->pressed;
        store_u32(out + 4, event->keycode);
        break;
    case THAYARQO_RING_TOUCH:
        encode_touch(out, event);
    }
}

#endif
