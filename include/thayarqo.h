/*
 * Thayarqo: the XENMOU2 device and its guest's driver; with them come the reader of a revision 1 guest (thayarqo_revision1.h), the Xen
 * keyboard ring (thayarqo_ring.h) and its node settings (thayarqo_settings.h).
 *
 * Every call but those that make a fresh state answers one of the numbers of enum thayarqo_answer, for any bytes, any state and any
 * number that it is given. The comment of a call has its refusals in the order in which they are tested: the first that applies is the
 * answer. It also says all that the call changes. Nothing outside the lent memory is read or written. A refusal changes nothing, with
 * three exceptions: a put_packet refused with 10 or 7, a step and a ring_take that answer 9.
 *
 * A lent buffer is a pointer and a length in bytes. No pointer is NULL, also where the length is 0. Buffers and states of one call
 * don't overlap. A bool is 0 or 1: any other byte in its place is no bool, and such a state must not be lent.
 *
 * When the other end runs at the same time. What is promised here holds while nobody else writes the lent pages, and a running guest
 * may write its pages at any moment. A call loads the other end's index once. The order of its loads and stores of shared bytes:
 *
 *     thayarqo_put_packet                loads READ_PTR; stores the 8 bytes of each record before WRITE_PTR moves past it
 *     thayarqo_add, thayarqo_remove      load READ_PTR; store the entry, then the 8 bytes of its record, then WRITE_PTR; where they
 *                                        put no record, they store the entry alone
 *     thayarqo_step, thayarqo_copy_out   load READ_PTR and WRITE_PTR, then the records; store READ_PTR last
 *     thayarqo_revision1_step            as thayarqo_step
 *     thayarqo_ring_put                  loads in_cons; stores the 40 bytes of the event, then in_prod
 *     thayarqo_ring_take                 loads in_prod, then the event; stores in_cons last
 *
 * A switch-on stores READ_PTR, WRITE_PTR and, in revision 2, the first records, so no guest may read meanwhile. All of these are plain
 * loads and stores: barriers are the caller's. Make the call on a copy of the pages: before it, load the other end's index (acquire)
 * and copy in the records that it may read; after it, copy out the bytes that it wrote and store the own index (release). The module
 * `live` of rust/thayarqo does so, at a switch-on too.
 */
#ifndef THAYARQO_H
#define THAYARQO_H

#include "thayarqo_answers.h"
#include "thayarqo_codes.h"
#include "thayarqo_geometry.h"
#include "thayarqo_revision1.h"
#include "thayarqo_ring.h"
#include "thayarqo_settings.h"

#include <stdbool.h>
#include <stddef.h>
#include <stdint.h>

#ifdef __cplusplus
extern "C" {
#endif

#define THAYARQO_NO_SLOT UINT32_C(0xFFFFFFFE)
#define THAYARQO_UNKNOWN_SLOT UINT32_C(0xFFFFFFFF)
#define THAYARQO_ALL_SLOTS UINT32_C(0xFFFF) /* in a DEV_RESET */

#define THAYARQO_PACKET_LENGTH 256 /* 32 events */
#define THAYARQO_KNOWN_ENTRY_LENGTH 68

/* ---- The device, for the host ---- */

/*
 * The device serves guests of two revisions, by what the guest wrote to CLIENT_REV. Revision 1 is where it was never written, or reads
 * 1; revision 2 is where it reads 2. Any other number that is written, 0 too, is rejected: CLIENT_REV then reads 0, and the device
 * can't be switched on. While it is on, its revision stays.
 */

/* Where the pointer is, in revision 1: what the last ABSOLUTE record says. */
struct thayarqo_position {
    uint16_t x;
    uint16_t y;
};

/*
 * The state. It keeps these rules, and every call answers 1 to one that doesn't: the write index is below the ring's length;
 * client_rev is 0, 1 or 2, 0 if never written, and not 0 if written and on; acceleration is 1 to 20, also where its register reads 0;
 * taken slots are in range; the current slot is none or taken. Any position is right.
 */
struct thayarqo_device {
    /* The registers. */
    bool on;
    bool interrupts;
    bool isr;
    bool client_rev_written; /* while off */
    uint16_t client_rev;
    uint16_t acceleration; /* of relative motion in revision 1, in tenths */
    /* The device's end of the ring, which a switch-on starts anew. */
    uint32_t write_index;
    uint32_t current_slot; /* of revision 2's last packet, or THAYARQO_NO_SLOT: after a switch-on, and a remove of that slot */
    struct thayarqo_position position; /* (0, 0) after a switch-on */
    bool lost; /* a packet was refused with 10 or 7 since the switch-on, and in revision 2 since the last one accepted */
    /* The slots that devices were added to, a bit each, slot 0 the lowest. */
    uint64_t taken;
};

/* A packet's events are lent as bytes, 8 for each as in a record: on a little-endian machine, an array of this struct. */
struct thayarqo_event {
    uint16_t type;
    uint16_t code;
    uint32_t value;
};

struct thayarqo_value {
    uint8_t answer;
    uint32_t value; /* 0 where the read was refused */
};

/*
 * A device that is off, with no slot taken, CLIENT_REV never written, acceleration 10, current_slot THAYARQO_NO_SLOT, and all else 0.
 * A struct of zeros isn't one: its acceleration is 0, and so is its current slot, which isn't taken. Every call answers 1 to it.
 */
struct thayarqo_device thayarqo_fresh_device(void);

/*
 * The BAR: a page of registers, the event area from 0x1000 on, which begins with READ_PTR and WRITE_PTR, and the entry page. READ_PTR
 * takes any number; all else behind the registers is read-only, and reads as the bytes there. The registers, by their offsets:
 *
 *     0x000  MAGIC         read-only: 0x584D4F55
 *     0x004  REV           read-only: 1 in revision 1, else 2
 *     0x100  CONTROL       bit 0 is on, which stays 0 while CLIENT_REV is rejected; bit 1 is interrupts; other bits read 0
 *     0x104  EVENT_SIZE    read-only: the record size
 *     0x108  NPAGES        read-only: the pages
 *     0x10C  ACCELERATION  in revision 1, on or off, it takes 1 to 20 and ignores other numbers; else it reads 0 and ignores all
 *     0x110  ISR           bit 0 is isr; any write clears it
 *     0x114  CONF_SIZE     read-only: the entry size
 *     0x118  CLIENT_REV    while off, it takes 1 and 2, and any other number makes it 0; while on, it ignores all
 *
 * A write that is ignored answers 0 and changes nothing. What ACCELERATION took is kept, on and off and in revision 2, and is read again
 * in revision 1.
 */

/* Reads a register or a word of the pages. Answers 1, 2, 4. Changes nothing. */
struct thayarqo_value thayarqo_read(const struct thayarqo_device *device, struct thayarqo_geometry geometry,
                                    const uint8_t *area, size_t area_length,
                                    const uint8_t *page, size_t page_length,
                                    uint64_t offset, uint32_t width);

/*
 * Writes a register or READ_PTR. Answers 1, 2, 4, 3. Changes the state and the area only: READ_PTR where it is written, and at a
 * switch-on both pointers, which begin at 0 again, and in revision 2 the bytes of the first records: DEV_RESET of all, a DEV_CONF for
 * each taken slot. These fit in every ring, so 7 never comes. In revision 1 there are none.
 *
 * A switch-on is a write of CONTROL that makes bit 0 of it 1 where it was 0. Of the state it changes on, interrupts, and the device's
 * end of the ring: the write index becomes the number of the first records, the current slot none, the position (0, 0), and the lost
 * mark is cleared. A switch-off changes on and interrupts alone.
 */
uint8_t thayarqo_write(struct thayarqo_device *device, struct thayarqo_geometry geometry,
                       uint8_t *area, size_t area_length, const uint8_t *page, size_t page_length,
                       uint64_t offset, uint32_t width, uint32_t value);

/*
 * Puts a slot's packet whole, or not at all. Answers 1, 5, 6, 9, 8, 10, 7: 1 also where packet_length is no multiple of 8, 9 where it
 * has no event, or over 32, and in revision 1 8 also where an event has no form there (thayarqo_revision1.h). Changes the state, and
 * of the area WRITE_PTR and the first 8 bytes of each record that it puts. Refused with 10 or 7 it sets the state's lost mark, and
 * changes nothing else.
 *
 * In revision 2 it puts SYN_DROPPED and SYN_REPORT if the lost mark is set, DEV_SET if the slot isn't current, the events, SYN_REPORT.
 * Of the state it changes the write index, isr, which is set if interrupts are on, the current slot, which becomes this one, and the
 * lost mark, which is cleared. In revision 1 it puts the records that thayarqo_revision1.h tells, and changes the write index, isr and
 * the position. That guest isn't told the slot, nor that packets were lost: the current slot and the lost mark stay.
 */
uint8_t thayarqo_put_packet(struct thayarqo_device *device, struct thayarqo_geometry geometry,
                            uint8_t *area, size_t area_length, const uint8_t *page, size_t page_length,
                            uint32_t slot, const void *packet, size_t packet_length);

/*
 * Stores a slot's entry, and tells the guest while on in revision 2. Answers 1, 6, 9, and while on in revision 2 also 10, 7: 1 also
 * where entry_length isn't entry_size, and 9 where bit 0 of evbits is clear. Changes the slot's entry_size bytes of the page and its
 * bit of taken; while on in revision 2 also the write index, and of the area WRITE_PTR and the first 8 bytes of the DEV_CONF record.
 */
uint8_t thayarqo_add(struct thayarqo_device *device, struct thayarqo_geometry geometry,
                     uint8_t *area, size_t area_length, uint8_t *page, size_t page_length,
                     uint32_t slot, const uint8_t *entry, size_t entry_length);

/*
 * Zeroes a slot's entry, and tells the guest while on in revision 2. Answers 1, 6, and while on in revision 2 also 10, 7. Changes what
 * an add does, its record being a DEV_RESET; and where the slot is the current one, the current slot becomes none.
 */
uint8_t thayarqo_remove(struct thayarqo_device *device, struct thayarqo_geometry geometry,
                        uint8_t *area, size_t area_length, uint8_t *page, size_t page_length, uint32_t slot);

/* ---- The guest's driver, in revision 2 ---- */

/* The state. A step answers 1 to one with over 32 events held, or with a slot that isn't none, unknown or in range. */
struct thayarqo_driver {
    uint32_t slot; /* or THAYARQO_NO_SLOT, THAYARQO_UNKNOWN_SLOT */
    uint32_t held; /* events of the packet that is being collected: the first ones of its buffer */
    bool overlong;
    bool spoiled;
    bool ignoring;
};

enum thayarqo_what {
    THAYARQO_TOLD_NOTHING = 0,
    THAYARQO_TOLD_GAP = 1,
    THAYARQO_TOLD_EMPTY_REPORT = 2,
    THAYARQO_TOLD_PACKET = 3, /* its slot, and count: its events are the buffer's first count */
    THAYARQO_TOLD_SET = 4,    /* the slot, or THAYARQO_UNKNOWN_SLOT */
    THAYARQO_TOLD_CONF = 5,   /* the slot */
    THAYARQO_TOLD_RESET = 6,  /* the slot */
    THAYARQO_TOLD_RESET_ALL = 7
};

/* Numbers that what is told doesn't have are 0. Where answer isn't 0, all else is 0. */
struct thayarqo_told {
    uint8_t answer;
    uint8_t what; /* enum thayarqo_what */
    uint32_t slot;
    uint32_t count;
};

struct thayarqo_copied {
    uint8_t answer;
    uint32_t count; /* of records; 0 where refused */
};

/* A driver with no slot, which holds no event and ignores none. */
struct thayarqo_driver thayarqo_fresh_driver(void);

/*
 * Reads one record. Answers 1, 10, 11, and 9 for a malformed record, or for the report of a packet that was spoiled or had over 32
 * events. Where it answers 0 or 9, the record is consumed: it changes the state and READ_PTR, which moves on by one.
 *
 * The events of the packet that is being collected stand in a buffer of THAYARQO_PACKET_LENGTH bytes (another length is 1), which
 * the caller keeps from step to step and lends to each. It may begin with any bytes. An event that joins the packet is written behind
 * those before it; no other byte of the buffer changes.
 */
struct thayarqo_told thayarqo_step(struct thayarqo_driver *driver, struct thayarqo_geometry geometry,
                                   uint8_t *area, size_t area_length, void *packet, size_t packet_length);

/*
 * Copies the first 8 bytes of each of the oldest records, of either revision: as many as limit, the unread ones and the whole eights of
 * out allow. Answers 1, 10, 11. Changes the first 8 x count bytes of out, and READ_PTR, which moves on by count; the bytes of out after
 * these stay. A limit of 0 on a ring with records answers 0 and count 0, as does an out of under 8 bytes.
 */
struct thayarqo_copied thayarqo_copy_out(struct thayarqo_geometry geometry, uint8_t *area, size_t area_length,
                                         uint32_t limit, uint8_t *out, size_t out_length);

/*
 * Copies the first THAYARQO_KNOWN_ENTRY_LENGTH bytes of a slot's entry. Answers 1, also where out_length is another, and 6 where the
 * slot is out of range, or bit 0 of its evbits is clear. Changes all of out; a refusal leaves it.
 */
uint8_t thayarqo_lookup(struct thayarqo_geometry geometry, const uint8_t *page, size_t page_length,
                        uint32_t slot, uint8_t *out, size_t out_length);

#ifdef __cplusplus
}
#endif

#include "thayarqo_layout.h"

#endif
