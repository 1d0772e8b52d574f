/* One call with its arguments, and what it answers. */
#ifndef CALL_H
#define CALL_H

#include "world.h"

enum call_kind { PUT_PACKET, STEP, COPY_OUT, REVISION1_STEP, READ, RING_ENCODE, RING_PUT, RING_TAKE, CALL_KINDS };

struct call {
    enum call_kind kind;
    size_t area_length, page_length, packet_length, held_length, out_length, event_length;
    uint32_t slot, limit, width, contact_limit;
    uint64_t offset;
    uint8_t events[33 * 8];
    struct thayarqo_ring_event numbers;
    uint8_t event[THAYARQO_RING_EVENT_LENGTH];
};

/* All numbers that a call answers, in order. */
struct reply {
    int64_t numbers[12];
};

/* A call that a well-behaved caller would make, by the revision of the world's guest. */
struct call draw_call(uint64_t *seed, const struct world *world);

/* Spoils one thing of the call or of the world. */
void spoil(uint64_t *seed, struct call *call, struct world *world);

struct reply make_call(const struct contestant *contestant, struct world *world, const struct call *call);

/* A valid event of the keyboard ring, of the kind that a number stands for, and its bytes. */
enum { RING_KINDS = 9 };
struct thayarqo_ring_event ring_event(uint32_t kind, uint32_t number);
void fill_ring_event(uint8_t *bytes, uint32_t kind, uint32_t number);

#endif
