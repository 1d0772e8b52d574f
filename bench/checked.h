/* What the checked calls share: the geometry, and the ring of records. */
#ifndef CHECKED_H
#define CHECKED_H

#include "contestant.h"
#include "words.h"

static inline bool is_allowed(struct thayarqo_geometry geometry)
{
    uint32_t record_size = geometry.record_size;
    return geometry.pages >= 1 && geometry.pages <= 8
        && record_size >= 8 && record_size <= 64 && (record_size & (record_size - 1)) == 0
        && geometry.entry_size >= 68 && geometry.entry_size <= 256 && geometry.entry_size % 4 == 0;
}

static inline bool is_sized(struct thayarqo_geometry geometry, size_t area_length)
{
    return is_allowed(geometry) && area_length == (size_t)geometry.pages * 4096;
}

/* Record sizes are powers of two, so a shift divides by them. */
static inline uint32_t ring_length(struct thayarqo_geometry geometry)
{
    return (geometry.pages * 4096 >> __builtin_ctz(geometry.record_size)) - 1;
}

static inline bool is_slot(struct thayarqo_geometry geometry, uint32_t slot)
{
    return geometry.entry_size * ((uint64_t)slot + 1) <= 4096;
}

static inline uint8_t *record_at(struct thayarqo_geometry geometry, uint8_t *area, uint32_t index)
{
    return area + (size_t)geometry.record_size * (index + 1);
}

static inline uint32_t next_index(uint32_t length, uint32_t index)
{
    return index + 1 == length ? 0 : index + 1;
}

static inline uint32_t unread_count(uint32_t length, uint32_t read, uint32_t write)
{
    return read <= write ? write - read : length - read + write;
}

#endif
