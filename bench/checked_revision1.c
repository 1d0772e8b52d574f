/* Packets of revision 1 in plain C, with every test of the rules. Each event is looked at once. */
#include "checked_device.h"
#include "revision1.h"

/* What comes once in a packet. */
enum axis { MOTION_X, MOTION_Y, POSITION_X, POSITION_Y, WHEEL, AXES };
enum { MOTION = 1 << MOTION_X | 1 << MOTION_Y, POSITION = 1 << POSITION_X | 1 << POSITION_Y };

struct gesture {
    uint32_t given; /* a bit for each axis */
    uint32_t values[AXES];
    uint32_t clicks;
    uint16_t buttons[THAYARQO_PACKET_LENGTH / 8]; /* the flag of each click, in the packet's order */
};

/* A missing motion is 0, and a missing position is where the pointer is. */
static inline void begin(struct gesture *gesture, struct thayarqo_position position)
{
    gesture->given = gesture->clicks = 0;
    gesture->values[MOTION_X] = gesture->values[MOTION_Y] = gesture->values[WHEEL] = 0;
    gesture->values[POSITION_X] = position.x;
    gesture->values[POSITION_Y] = position.y;
}

static inline bool give(struct gesture *gesture, enum axis axis, uint32_t value)
{
    bool again = gesture->given >> axis & 1;
    gesture->given |= 1u << axis;
    gesture->values[axis] = value;
    return !again;
}

static inline bool gather_button(struct gesture *gesture, const uint8_t *entry, uint32_t code, uint32_t value)
{
    if (code < BTN_LEFT || code > BTN_MIDDLE || !mask_bit(entry + BTNBITS, code - 0x100))
        return false;
    gesture->buttons[gesture->clicks++] = button_flag(code, value);
    return true;
}

static inline bool gather_relative(struct gesture *gesture, uint32_t code, uint32_t value, uint16_t acceleration)
{
    if (code > REL_Y)
        return code == REL_WHEEL && give(gesture, WHEEL, value);
    int64_t scaled = (int64_t)(int32_t)value * acceleration / 10;
    return scaled >= INT16_MIN && scaled <= INT16_MAX && give(gesture, code == REL_X ? MOTION_X : MOTION_Y, (uint16_t)scaled);
}

static inline bool gather_absolute(struct gesture *gesture, const uint8_t *entry, uint32_t code, uint32_t value)
{
    return code <= ABS_Y && mask_bit(entry + ABSBITS, code) && value <= UINT16_MAX
        && give(gesture, code == ABS_X ? POSITION_X : POSITION_Y, value);
}

/* False where the entry doesn't offer an event, or it has no form. */
static inline bool gather(struct gesture *gesture, const uint8_t *entry, const uint8_t *event, uint16_t acceleration)
{
    uint32_t type = load_u16(event), code = load_u16(event + 2), value = load_u32(event + 4);
    if (type > EV_ABS || !mask_bit(entry + EVBITS, type))
        return false;
    switch (type) {
    case EV_KEY:
        return gather_button(gesture, entry, code, value);
    case EV_REL:
        return gather_relative(gesture, code, value, acceleration);
    case EV_ABS:
        return gather_absolute(gesture, entry, code, value);
    default:
        return false;
    }
}

static inline bool gather_all(struct gesture *gesture, const uint8_t *entry, const uint8_t *events, uint32_t count,
                              uint16_t acceleration)
{
    for (uint32_t i = 0; i < count; i++)
        if (!gather(gesture, entry, events + 8 * i, acceleration))
            return false;
    return true;
}

static inline uint32_t record_count(const struct gesture *gesture)
{
    uint32_t motion = (gesture->given & MOTION) != 0, position = (gesture->given & POSITION) != 0;
    return motion + position + gesture->clicks + (gesture->given >> WHEEL & 1) + 1;
}

static inline void put_flagged(struct thayarqo_device *device, struct thayarqo_geometry geometry, uint8_t *area,
                               uint16_t flags, uint32_t data)
{
    put_record(device, geometry, area, flags, 1, data);
}

static inline void put_gesture(struct thayarqo_device *device, struct thayarqo_geometry geometry, uint8_t *area,
                               const struct gesture *gesture)
{
    const uint32_t *values = gesture->values;
    if ((gesture->given & MOTION) != 0)
        put_flagged(device, geometry, area, THAYARQO_FLAG_RELATIVE, values[MOTION_X] | values[MOTION_Y] << 16);
    if ((gesture->given & POSITION) != 0)
        put_flagged(device, geometry, area, THAYARQO_FLAG_ABSOLUTE, values[POSITION_X] | values[POSITION_Y] << 16);
    for (uint32_t i = 0; i < gesture->clicks; i++)
        put_flagged(device, geometry, area, gesture->buttons[i], 0);
    if ((gesture->given >> WHEEL & 1) != 0)
        put_flagged(device, geometry, area, THAYARQO_FLAG_VWHEEL, values[WHEEL]);
    put_flagged(device, geometry, area, THAYARQO_FLAG_FENCE, 0);
}

uint8_t checked_put_revision1(struct thayarqo_device *device, struct thayarqo_geometry geometry, uint8_t *area,
                              const uint8_t *entry, const uint8_t *events, uint32_t count)
{
    struct gesture gesture;
    begin(&gesture, device->position);
    if (!gather_all(&gesture, entry, events, count, device->acceleration))
        return THAYARQO_NOT_OFFERED;
    uint8_t refusal = room_refusal(area, ring_length(geometry), device->write_index, record_count(&gesture));
    if (refusal != THAYARQO_DONE) {
        device->lost = true;
        return refusal;
    }
    put_gesture(device, geometry, area, &gesture);
    device->position = (struct thayarqo_position){(uint16_t)gesture.values[POSITION_X], (uint16_t)gesture.values[POSITION_Y]};
    device->isr |= device->interrupts;
    return THAYARQO_DONE;
}
