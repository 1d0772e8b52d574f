#include "contestant.h"

#define CALLS_OF(prefix) \
    prefix##_read, prefix##_put_packet, prefix##_step, prefix##_copy_out, prefix##_revision1_step, prefix##_ring_encode, \
        prefix##_ring_put, prefix##_ring_take

const struct contestant contestants[CONTESTANTS] = {
    {"proved", CALLS_OF(thayarqo)},
    {"checked", CALLS_OF(checked)},
    {"bare", CALLS_OF(bare)},
};
