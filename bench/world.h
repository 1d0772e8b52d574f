/* A device with its pages, its guest's driver and a keyboard ring: all that the calls work on. */
#ifndef WORLD_H
#define WORLD_H

#include "contestant.h"

enum { PAGE = 4096, MOST_PAGES = 8, PACKET = THAYARQO_PACKET_LENGTH, OUT = MOST_PAGES * PAGE };

struct world {
    _Alignas(PAGE) uint8_t area[MOST_PAGES * PAGE];
    uint8_t page[PAGE];
    uint8_t ring[PAGE];
    uint8_t packet[PACKET]; /* what the driver collects */
    uint8_t out[OUT];       /* what a copy-out hands over */
    struct thayarqo_geometry geometry;
    struct thayarqo_device device;
    struct thayarqo_driver driver;
    uint32_t in_prod, in_cons;
};

/*
 * A device that is on, with so many mice of every button and axis from slot 0 on, whose first records have been read. The guest has
 * written CLIENT_REV, but for 0.
 */
void start(struct world *world, struct thayarqo_geometry geometry, uint32_t slots, uint32_t client_rev);

/* Moves READ_PTR to WRITE_PTR, as a driver that has read everything. */
void empty(struct world *world);

size_t area_length(const struct world *world);
uint32_t ring_length(const struct world *world);

/* Whether all bytes and all numbers are the same. */
bool same(const struct world *left, const struct world *right);

#endif
