/* For the tests of a device and its guest at the same time: the pages that both see, and the state of each. */
#ifndef INTERLEAVING_ENDS_H
#define INTERLEAVING_ENDS_H

#include "thayarqo.h"

#include <string.h>

/* The ring is so long that both bytes of an index change. */
enum { RING = 511, SLOT = 4, ENTRY = THAYARQO_KNOWN_ENTRY_LENGTH, PAGE = THAYARQO_ENTRY_PAGE_LENGTH };

static const struct thayarqo_geometry geometry = {1, sizeof(struct thayarqo_event), ENTRY};

struct area {
    uint32_t read_ptr;
    uint32_t write_ptr;
    struct thayarqo_event records[RING];
};

struct ends {
    struct area area;
    uint8_t page[PAGE];
    struct thayarqo_device device;
    struct thayarqo_driver driver;
    uint8_t held[THAYARQO_PACKET_LENGTH];
};

/* An entry that offers motions. All bytes that no mask has are the mark. */
static inline void make_entry(uint8_t entry[ENTRY], uint8_t mark)
{
    memset(entry, mark, 40);
    memset(entry + 40, 0, ENTRY - 40);
    entry[40] = 1 << EV_SYN | 1 << EV_REL;
}

static inline uint8_t add(struct ends *ends, uint32_t slot, uint8_t mark)
{
    uint8_t entry[ENTRY];
    make_entry(entry, mark);
    return thayarqo_add(&ends->device, geometry, (uint8_t *)&ends->area, sizeof ends->area, ends->page, PAGE, slot, entry, ENTRY);
}

static inline uint8_t remove_slot(struct ends *ends, uint32_t slot)
{
    return thayarqo_remove(&ends->device, geometry, (uint8_t *)&ends->area, sizeof ends->area, ends->page, PAGE, slot);
}

static inline void write_register(struct ends *ends, uint64_t offset, uint32_t value)
{
    thayarqo_write(&ends->device, geometry, (uint8_t *)&ends->area, sizeof ends->area, ends->page, PAGE, offset, 4, value);
}

static inline struct thayarqo_told step_once(struct ends *ends)
{
    return thayarqo_step(&ends->driver, geometry, (uint8_t *)&ends->area, sizeof ends->area, ends->held, sizeof ends->held);
}

/* The device is on, and the driver has read all of its first records, of which revision 1 has none. */
static inline void switch_on(struct ends *ends, uint32_t revision)
{
    ends->device = thayarqo_fresh_device();
    ends->driver = thayarqo_fresh_driver();
    add(ends, SLOT, 1);
    add(ends, SLOT + 1, 1);
    write_register(ends, 0x118, revision);
    write_register(ends, 0x100, 1);
    while (step_once(ends).answer == THAYARQO_DONE)
        continue;
}

#endif
