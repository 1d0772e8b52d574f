/* The device's packets and register reads in plain C, with every test of the rules. */
#include "checked_device.h"
#include "revision1.h"

static bool is_taken(const struct thayarqo_device *device, uint32_t slot)
{
    return slot < 64 && (device->taken >> slot & 1) != 0;
}

/* The highest taken slot is in range. */
static bool slots_in_range(const struct thayarqo_device *device, struct thayarqo_geometry geometry)
{
    return device->taken == 0 || is_slot(geometry, 63 - (uint32_t)__builtin_clzll(device->taken));
}

static bool is_client_rev(const struct thayarqo_device *device)
{
    if (device->client_rev == 0)
        return !device->on || !device->client_rev_written;
    return device->client_rev <= 2 && device->client_rev_written;
}

static bool is_device(const struct thayarqo_device *device, struct thayarqo_geometry geometry)
{
    if (device->write_index >= ring_length(geometry))
        return false;
    if (!is_client_rev(device) || device->acceleration < 1 || device->acceleration > 20)
        return false;
    if (!slots_in_range(device, geometry))
        return false;
    return device->current_slot == THAYARQO_NO_SLOT || is_taken(device, device->current_slot);
}

static bool is_call(const struct thayarqo_device *device, struct thayarqo_geometry geometry, size_t area_length, size_t page_length)
{
    return is_sized(geometry, area_length) && page_length == 4096 && is_device(device, geometry);
}

static bool is_offered(const uint8_t *entry, uint32_t type, uint32_t code)
{
    if (type > EV_ABS || !mask_bit(entry + EVBITS, type))
        return false;
    switch (type) {
    case EV_SYN:
        return code == SYN_MT_REPORT;
    case EV_KEY:
        return code >= 0x100 && code <= 0x15F && mask_bit(entry + BTNBITS, code - 0x100);
    case EV_REL:
        return code < 32;
    default:
        return code < 64 && mask_bit(entry + ABSBITS, code);
    }
}

static bool offers_all(const uint8_t *entry, const uint8_t *events, uint32_t count)
{
    for (uint32_t i = 0; i < count; i++)
        if (!is_offered(entry, load_u16(events + 8 * i), load_u16(events + 8 * i + 2)))
            return false;
    return true;
}

static void put_records(struct thayarqo_device *device, struct thayarqo_geometry geometry, uint8_t *area,
                        uint32_t slot, const uint8_t *events, uint32_t count)
{
    if (device->lost) {
        put_record(device, geometry, area, EV_SYN, SYN_DROPPED, 0);
        put_record(device, geometry, area, EV_SYN, SYN_REPORT, 0);
    }
    if (device->current_slot != slot)
        put_record(device, geometry, area, EV_DEV, DEV_SET, slot);
    for (uint32_t i = 0; i < count; i++) {
        const uint8_t *event = events + 8 * i;
        put_record(device, geometry, area, load_u16(event), load_u16(event + 2), load_u32(event + 4));
    }
    put_record(device, geometry, area, EV_SYN, SYN_REPORT, 0);
}

static uint8_t put_revision2(struct thayarqo_device *device, struct thayarqo_geometry geometry, uint8_t *area,
                             const uint8_t *entry, uint32_t slot, const uint8_t *events, uint32_t count)
{
    if (!offers_all(entry, events, count))
        return THAYARQO_NOT_OFFERED;
    uint32_t needed = (device->lost ? 2 : 0) + (device->current_slot != slot) + count + 1;
    uint8_t refusal = room_refusal(area, ring_length(geometry), device->write_index, needed);
    if (refusal != THAYARQO_DONE) {
        device->lost = true;
        return refusal;
    }
    put_records(device, geometry, area, slot, events, count);
    device->lost = false;
    device->current_slot = slot;
    device->isr |= device->interrupts;
    return THAYARQO_DONE;
}

uint8_t checked_put_packet(struct thayarqo_device *device, struct thayarqo_geometry geometry, uint8_t *area, size_t area_length,
                           const uint8_t *page, size_t page_length, uint32_t slot, const void *packet, size_t packet_length)
{
    if (!is_call(device, geometry, area_length, page_length) || packet_length % 8 != 0)
        return THAYARQO_INVALID;
    if (!device->on)
        return THAYARQO_DEVICE_OFF;
    if (!is_taken(device, slot))
        return THAYARQO_BAD_SLOT;
    if (packet_length < 8 || packet_length > THAYARQO_PACKET_LENGTH)
        return THAYARQO_MALFORMED;
    uint32_t count = (uint32_t)packet_length / 8;
    const uint8_t *entry = page + geometry.entry_size * slot;
    if (device->client_rev == 2)
        return put_revision2(device, geometry, area, entry, slot, packet, count);
    return checked_put_revision1(device, geometry, area, entry, packet, count);
}

/* The registers below the event area. Answers 4 where there is none. */
static struct thayarqo_value read_register(const struct thayarqo_device *device, struct thayarqo_geometry geometry, uint64_t offset)
{
    struct thayarqo_value found = {THAYARQO_DONE, 0};
    switch (offset) {
    case 0x000: found.value = 0x584D4F55; break;
    case 0x004: found.value = is_revision1(device) ? 1 : 2; break;
    case 0x100: found.value = device->on | (uint32_t)device->interrupts << 1; break;
    case 0x104: found.value = geometry.record_size; break;
    case 0x108: found.value = geometry.pages; break;
    case 0x10C: found.value = is_revision1(device) ? device->acceleration : 0; break;
    case 0x110: found.value = device->isr; break;
    case 0x114: found.value = geometry.entry_size; break;
    case 0x118: found.value = device->client_rev; break;
    default: found.answer = THAYARQO_NO_REGISTER;
    }
    return found;
}

struct thayarqo_value checked_read(const struct thayarqo_device *device, struct thayarqo_geometry geometry,
                                   const uint8_t *area, size_t area_length, const uint8_t *page, size_t page_length,
                                   uint64_t offset, uint32_t width)
{
    if (!is_call(device, geometry, area_length, page_length))
        return (struct thayarqo_value){THAYARQO_INVALID, 0};
    if (width != 4 || offset % 4 != 0 || offset >= area_length + 2 * 4096)
        return (struct thayarqo_value){THAYARQO_BAD_ACCESS, 0};
    if (offset < 4096)
        return read_register(device, geometry, offset);
    offset -= 4096;
    const uint8_t *word = offset < area_length ? area + offset : page + (offset - area_length);
    return (struct thayarqo_value){THAYARQO_DONE, load_u32(word)};
}
