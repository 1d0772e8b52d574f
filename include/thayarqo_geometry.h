/*
 * The sizes that every call of the device and of its guest is told.
 */
#ifndef THAYARQO_GEOMETRY_H
#define THAYARQO_GEOMETRY_H

#include <stdint.h>

#define THAYARQO_ENTRY_PAGE_LENGTH 4096

/*
 * 1 to 8 pages; records of 8, 16, 32 or 64 bytes; entries of 68 to 256 bytes, a multiple of 4. The event area is pages x 4096 bytes
 * long, the entry page THAYARQO_ENTRY_PAGE_LENGTH. Every call answers 1 to another geometry, or an area or page of another length.
 */
struct thayarqo_geometry {
    uint32_t pages;
    uint32_t record_size;
    uint32_t entry_size;
};

#endif
