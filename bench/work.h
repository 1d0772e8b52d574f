/* The pieces of work that are measured. */
#ifndef WORK_H
#define WORK_H

#include "measure.h"

/* What the guest wrote to CLIENT_REV, the packet that is put, and the register that is read. Set before a measurement. */
extern uint32_t client_rev, packet_slot, packet_events;
extern uint64_t register_offset;

/* Which kind of ring event is put and taken, or RING_KINDS for each in turn. */
extern uint32_t ring_kind;

void prepare_work(void);

/* What a mouse says, in a packet of 32 events: how far it moved, a button, an axis. The first four have a form in revision 1 too. */
void fill_mouse(uint8_t *packet);

/* A packet put. The ring is then emptied by its pointers. */
work packet_put;

/* A packet put, and read by steps until nothing is left. */
work packet_and_steps, revision1_packet_and_steps;

/* A full ring emptied by one copy-out. */
work full_copy_out, full_memcpy_each, full_memcpy_all;

work ring_put_and_take;

/* A motion of the keyboard ring encoded, put, and counted as taken. */
work ring_encode_and_put;

work register_read;

#endif
