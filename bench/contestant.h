/* The calls that are measured, by each of those who offer them. All have the library's own signatures. */
#ifndef CONTESTANT_H
#define CONTESTANT_H

#include "thayarqo.h"

struct contestant {
    const char *name;
    __typeof__(thayarqo_read) *read;
    __typeof__(thayarqo_put_packet) *put_packet;
    __typeof__(thayarqo_step) *step;
    __typeof__(thayarqo_copy_out) *copy_out;
    __typeof__(thayarqo_revision1_step) *revision1_step;
    __typeof__(thayarqo_ring_encode) *ring_encode;
    __typeof__(thayarqo_ring_put) *ring_put;
    __typeof__(thayarqo_ring_take) *ring_take;
};

enum { CONTESTANTS = 3 };

/* The proved library, plain C with the same tests, and plain C without tests. */
extern const struct contestant contestants[CONTESTANTS];

__typeof__(thayarqo_read) checked_read, bare_read;
__typeof__(thayarqo_put_packet) checked_put_packet, bare_put_packet;
__typeof__(thayarqo_step) checked_step, bare_step;
__typeof__(thayarqo_copy_out) checked_copy_out, bare_copy_out;
__typeof__(thayarqo_revision1_step) checked_revision1_step, bare_revision1_step;
__typeof__(thayarqo_ring_encode) checked_ring_encode, bare_ring_encode;
__typeof__(thayarqo_ring_put) checked_ring_put, bare_ring_put;
__typeof__(thayarqo_ring_take) checked_ring_take, bare_ring_take;

/* What a copy-out is held to: the first records' eight bytes by a memcpy each, and by a single one where records have eight. */
void memcpy_each(uint8_t *out, const uint8_t *area, uint32_t record_size, uint32_t count);
void memcpy_all(uint8_t *out, const uint8_t *area, uint32_t count);

#endif
