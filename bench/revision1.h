/* What both C contestants know of revision 1: which device serves it, and the flag of a button's record. */
#ifndef REVISION1_H
#define REVISION1_H

#include "thayarqo.h"

static inline bool is_revision1(const struct thayarqo_device *device)
{
    return !device->client_rev_written || device->client_rev == 1;
}

/* Each button's two flags, down and up, stand above those of the button before it. */
static inline uint16_t button_flag(uint32_t code, uint32_t value)
{
    uint32_t down = THAYARQO_FLAG_LEFT_BUTTON_DOWN << 2 * (code - BTN_LEFT);
    return (uint16_t)(value != 0 ? down : down << 1);
}

#endif
