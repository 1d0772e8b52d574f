/* The guest's driver and the reader of revision 1 in plain C, with every test of the rules. */
#include "checked.h"

#include "thayarqo_codes.h"

enum { PACKET_EVENTS = THAYARQO_PACKET_LENGTH / 8 };

static bool is_driver(const struct thayarqo_driver *driver, struct thayarqo_geometry geometry)
{
    uint32_t slot = driver->slot;
    return driver->held <= PACKET_EVENTS
        && (slot == THAYARQO_NO_SLOT || slot == THAYARQO_UNKNOWN_SLOT || is_slot(geometry, slot));
}

static uint8_t reading_refusal(uint32_t length, uint32_t read, uint32_t write)
{
    if (read >= length || write >= length)
        return THAYARQO_BAD_INDEX;
    return read == write ? THAYARQO_NOTHING_TO_READ : THAYARQO_DONE;
}

static struct thayarqo_told tell(uint8_t answer, uint8_t what, uint32_t slot)
{
    return (struct thayarqo_told){answer, what, slot, 0};
}

/* A packet already begun is spoiled. */
static void move_to(struct thayarqo_driver *driver, uint32_t slot)
{
    driver->spoiled |= driver->held != 0;
    driver->slot = slot;
}

static void end(struct thayarqo_driver *driver, bool ignoring)
{
    driver->held = 0;
    driver->overlong = false;
    driver->spoiled = false;
    driver->ignoring = ignoring;
}

static struct thayarqo_told report(struct thayarqo_driver *driver)
{
    struct thayarqo_told told = {THAYARQO_DONE, THAYARQO_TOLD_NOTHING, 0, 0};
    if (driver->ignoring) {
        told.what = THAYARQO_TOLD_GAP;
    } else if (driver->spoiled || driver->overlong) {
        told.answer = THAYARQO_MALFORMED;
    } else if (driver->held == 0) {
        told.what = THAYARQO_TOLD_EMPTY_REPORT;
    } else {
        told.what = THAYARQO_TOLD_PACKET;
        told.slot = driver->slot;
        told.count = driver->held;
    }
    end(driver, false);
    return told;
}

static struct thayarqo_told reset(struct thayarqo_driver *driver, struct thayarqo_geometry geometry, uint32_t value)
{
    if (value == THAYARQO_ALL_SLOTS) {
        move_to(driver, THAYARQO_NO_SLOT);
        return tell(THAYARQO_DONE, THAYARQO_TOLD_RESET_ALL, 0);
    }
    if (!is_slot(geometry, value))
        return tell(THAYARQO_MALFORMED, THAYARQO_TOLD_NOTHING, 0);
    if (driver->slot == value)
        move_to(driver, THAYARQO_NO_SLOT);
    return tell(THAYARQO_DONE, THAYARQO_TOLD_RESET, value);
}

static struct thayarqo_told set(struct thayarqo_driver *driver, struct thayarqo_geometry geometry, uint32_t value)
{
    if (value != THAYARQO_UNKNOWN_SLOT && !is_slot(geometry, value)) {
        move_to(driver, THAYARQO_NO_SLOT);
        return tell(THAYARQO_MALFORMED, THAYARQO_TOLD_NOTHING, 0);
    }
    move_to(driver, value);
    return tell(THAYARQO_DONE, THAYARQO_TOLD_SET, value);
}

static struct thayarqo_told device_record(struct thayarqo_driver *driver, struct thayarqo_geometry geometry,
                                          uint16_t code, uint32_t value)
{
    if (code == DEV_SET)
        return set(driver, geometry, value);
    if (code == DEV_RESET)
        return reset(driver, geometry, value);
    if (code == DEV_CONF && is_slot(geometry, value))
        return tell(THAYARQO_DONE, THAYARQO_TOLD_CONF, value);
    return tell(THAYARQO_MALFORMED, THAYARQO_TOLD_NOTHING, 0);
}

static void join(struct thayarqo_driver *driver, uint8_t *packet, const uint8_t *record)
{
    if (driver->ignoring)
        return;
    if (driver->held == PACKET_EVENTS) {
        driver->overlong = true;
        return;
    }
    memcpy(packet + 8 * driver->held, record, 8);
    driver->held++;
}

static struct thayarqo_told receive(struct thayarqo_driver *driver, struct thayarqo_geometry geometry,
                                    const uint8_t *record, uint8_t *packet)
{
    uint16_t type = load_u16(record), code = load_u16(record + 2);
    if (type == EV_DEV)
        return device_record(driver, geometry, code, load_u32(record + 4));
    if (type == EV_SYN && code == SYN_REPORT)
        return report(driver);
    if (type == EV_SYN && code == SYN_DROPPED)
        end(driver, true);
    else
        join(driver, packet, record);
    return tell(THAYARQO_DONE, THAYARQO_TOLD_NOTHING, 0);
}

struct thayarqo_told checked_step(struct thayarqo_driver *driver, struct thayarqo_geometry geometry,
                                  uint8_t *area, size_t area_length, void *packet, size_t packet_length)
{
    if (!is_sized(geometry, area_length) || packet_length != THAYARQO_PACKET_LENGTH || !is_driver(driver, geometry))
        return tell(THAYARQO_INVALID, THAYARQO_TOLD_NOTHING, 0);
    uint32_t length = ring_length(geometry);
    uint32_t read = load_u32(area);
    uint8_t refusal = reading_refusal(length, read, load_u32(area + 4));
    if (refusal != THAYARQO_DONE)
        return tell(refusal, THAYARQO_TOLD_NOTHING, 0);
    store_u32(area, next_index(length, read));
    return receive(driver, geometry, record_at(geometry, area, read), packet);
}

struct thayarqo_taken checked_revision1_step(struct thayarqo_geometry geometry, uint8_t *area, size_t area_length)
{
    if (!is_sized(geometry, area_length))
        return (struct thayarqo_taken){THAYARQO_INVALID, 0, 0, 0};
    uint32_t length = ring_length(geometry);
    uint32_t read = load_u32(area);
    uint8_t refusal = reading_refusal(length, read, load_u32(area + 4));
    if (refusal != THAYARQO_DONE)
        return (struct thayarqo_taken){refusal, 0, 0, 0};
    const uint8_t *record = record_at(geometry, area, read);
    struct thayarqo_taken taken = {THAYARQO_DONE, load_u16(record), load_u16(record + 2), load_u32(record + 4)};
    store_u32(area, next_index(length, read));
    return taken;
}

struct thayarqo_copied checked_copy_out(struct thayarqo_geometry geometry, uint8_t *area, size_t area_length,
                                        uint32_t limit, uint8_t *out, size_t out_length)
{
    if (!is_sized(geometry, area_length))
        return (struct thayarqo_copied){THAYARQO_INVALID, 0};
    uint32_t length = ring_length(geometry);
    uint32_t read = load_u32(area), write = load_u32(area + 4);
    uint8_t refusal = reading_refusal(length, read, write);
    if (refusal != THAYARQO_DONE)
        return (struct thayarqo_copied){refusal, 0};
    size_t count = unread_count(length, read, write);
    if (count > limit)
        count = limit;
    if (count > out_length / 8)
        count = out_length / 8;
    for (size_t i = 0; i < count; i++) {
        memcpy(out + 8 * i, record_at(geometry, area, read), 8);
        read = next_index(length, read);
    }
    store_u32(area, read);
    return (struct thayarqo_copied){THAYARQO_DONE, (uint32_t)count};
}
