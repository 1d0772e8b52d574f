/* The keyboard ring in plain C, with every test of the rules. */
#include "contestant.h"
#include "encode.h"
#include "words.h"

enum { PAGE_LENGTH = 4096, EVENT_LENGTH = 40, IN_CONS = 0, IN_PROD = 4, EVENTS = 1024, RING_LENGTH = 51 };

static uint8_t *event_at(uint8_t *page, uint32_t index)
{
    return page + EVENTS + index % RING_LENGTH * EVENT_LENGTH;
}

static bool is_contact_limit(uint32_t limit)
{
    return limit >= 1 && limit <= 32;
}

static inline bool is_zero(const uint8_t *bytes, size_t from, size_t to)
{
    uint8_t any = 0;
    for (size_t i = from; i < to; i++)
        any |= bytes[i];
    return any == 0;
}

static inline uint8_t decode_touch(const uint8_t *bytes, uint32_t contact_limit, struct thayarqo_ring_event *event)
{
    struct thayarqo_ring_event touch = {.kind = THAYARQO_RING_TOUCH, .subtype = bytes[1], .contact = bytes[2]};
    size_t end = 16;
    switch (touch.subtype) {
    case THAYARQO_TOUCH_DOWN:
    case THAYARQO_TOUCH_MOTION:
        touch.x = (int32_t)load_u32(bytes + 8);
        touch.y = (int32_t)load_u32(bytes + 12);
        break;
    case THAYARQO_TOUCH_UP:
    case THAYARQO_TOUCH_SYN:
        end = 8;
        break;
    case THAYARQO_TOUCH_SHAPE:
        touch.major = load_u32(bytes + 8);
        touch.minor = load_u32(bytes + 12);
        break;
    case THAYARQO_TOUCH_ORIENT:
        touch.orientation = (int16_t)load_u16(bytes + 8);
        end = 10;
        break;
    default:
        return THAYARQO_DONE;
    }
    if (!is_zero(bytes, 3, 8) || !is_zero(bytes, end, 16) || !is_zero(bytes, 16, EVENT_LENGTH) || touch.contact >= contact_limit)
        return THAYARQO_MALFORMED;
    *event = touch;
    return THAYARQO_DONE;
}

/* An event that is unknown stays all 0. */
static inline uint8_t decode(const uint8_t *bytes, uint32_t contact_limit, struct thayarqo_ring_event *event)
{
    switch (bytes[0]) {
    case THAYARQO_RING_MOTION:
    case THAYARQO_RING_POSITION:
        if (!is_zero(bytes, 1, 4) || !is_zero(bytes, 16, EVENT_LENGTH))
            return THAYARQO_MALFORMED;
        event->kind = bytes[0];
        event->x = (int32_t)load_u32(bytes + 4);
        event->y = (int32_t)load_u32(bytes + 8);
        event->z = (int32_t)load_u32(bytes + 12);
        return THAYARQO_DONE;
    case THAYARQO_RING_KEY:
        if (bytes[1] > 1 || !is_zero(bytes, 2, 4) || !is_zero(bytes, 8, EVENT_LENGTH))
            return THAYARQO_MALFORMED;
        event->kind = THAYARQO_RING_KEY;
        event->pressed = bytes[1] == 1;
        event->keycode = load_u32(bytes + 4);
        return THAYARQO_DONE;
    case THAYARQO_RING_TOUCH:
        return decode_touch(bytes, contact_limit, event);
    default:
        return THAYARQO_DONE;
    }
}

static bool may_be_put(const uint8_t *bytes, uint32_t contact_limit)
{
    struct thayarqo_ring_event event = {0};
    return decode(bytes, contact_limit, &event) == THAYARQO_DONE && event.kind != THAYARQO_RING_UNKNOWN;
}

static bool is_known(const struct thayarqo_ring_event *event)
{
    switch (event->kind) {
    case THAYARQO_RING_MOTION:
    case THAYARQO_RING_KEY:
    case THAYARQO_RING_POSITION:
        return true;
    default:
        return event->kind == THAYARQO_RING_TOUCH && event->subtype <= THAYARQO_TOUCH_ORIENT;
    }
}

uint8_t checked_ring_encode(uint8_t *out, size_t out_length, struct thayarqo_ring_event event)
{
    if (out_length != EVENT_LENGTH)
        return THAYARQO_INVALID;
    if (!is_known(&event))
        return THAYARQO_MALFORMED;
    encode_event(out, &event);
    return THAYARQO_DONE;
}

uint8_t checked_ring_put(uint8_t *page, size_t page_length, uint32_t *in_prod, uint32_t contact_limit,
                         const uint8_t *event, size_t event_length)
{
    if (page_length != PAGE_LENGTH || event_length != EVENT_LENGTH || !is_contact_limit(contact_limit))
        return THAYARQO_INVALID;
    if (!may_be_put(event, contact_limit))
        return THAYARQO_MALFORMED;
    uint32_t used = *in_prod - load_u32(page + IN_CONS);
    if (used > RING_LENGTH)
        return THAYARQO_BAD_INDEX;
    if (used == RING_LENGTH)
        return THAYARQO_NO_ROOM;
    memcpy(event_at(page, *in_prod), event, EVENT_LENGTH);
    ++*in_prod;
    store_u32(page + IN_PROD, *in_prod);
    return THAYARQO_DONE;
}

struct thayarqo_ring_found checked_ring_take(uint8_t *page, size_t page_length, uint32_t *in_cons, uint32_t contact_limit)
{
    struct thayarqo_ring_found found = {THAYARQO_INVALID, {0}};
    if (page_length != PAGE_LENGTH || !is_contact_limit(contact_limit))
        return found;
    uint32_t unread = load_u32(page + IN_PROD) - *in_cons;
    if (unread > RING_LENGTH) {
        found.answer = THAYARQO_BAD_INDEX;
        return found;
    }
    if (unread == 0) {
        found.answer = THAYARQO_NOTHING_TO_READ;
        return found;
    }
    found.answer = decode(event_at(page, *in_cons), contact_limit, &found.event);
    ++*in_cons;
    store_u32(page + IN_CONS, *in_cons);
    return found;
}
