/* What the checked packets of both revisions share: an entry's masks, the ring's room, a record that is put. */
#ifndef CHECKED_DEVICE_H
#define CHECKED_DEVICE_H

#include "checked.h"

#include "thayarqo_codes.h"

/* Where an entry's masks begin. */
enum { EVBITS = 40, ABSBITS = 44, BTNBITS = 56 };

static inline bool mask_bit(const uint8_t *mask, uint32_t index)
{
    return (load_u32(mask + index / 32 * 4) >> index % 32 & 1) != 0;
}

static inline uint8_t room_refusal(const uint8_t *area, uint32_t length, uint32_t write, uint32_t count)
{
    uint32_t read = load_u32(area);
    if (read >= length)
        return THAYARQO_BAD_INDEX;
    return unread_count(length, read, write) + count <= length - 1 ? THAYARQO_DONE : THAYARQO_NO_ROOM;
}

static inline void put_record(struct thayarqo_device *device, struct thayarqo_geometry geometry, uint8_t *area,
                              uint16_t type, uint16_t code, uint32_t value)
{
    store_event(record_at(geometry, area, device->write_index), type, code, value);
    device->write_index = next_index(ring_length(geometry), device->write_index);
    store_u32(area + 4, device->write_index);
}

/* A packet of revision 1, once its slot and its number of events are right. */
uint8_t checked_put_revision1(struct thayarqo_device *device, struct thayarqo_geometry geometry, uint8_t *area,
                              const uint8_t *entry, const uint8_t *events, uint32_t count);

#endif
