/* What a copy-out is held to. */
#include "contestant.h"

#include <string.h>

void memcpy_each(uint8_t *out, const uint8_t *area, uint32_t record_size, uint32_t count)
{
    for (uint32_t i = 0; i < count; i++)
        memcpy(out + 8 * (size_t)i, area + (size_t)record_size * (i + 1), 8);
}

void memcpy_all(uint8_t *out, const uint8_t *area, uint32_t count)
{
    memcpy(out, area + 8, 8 * (size_t)count);
}
