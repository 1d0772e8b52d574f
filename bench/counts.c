#include "counts.h"

#include "thayarqo_codes.h"
#include "words.h"
#include "work.h"

#include <stdio.h>
#include <stdlib.h>

static const struct {
    const char *name;
    uint16_t type, code;
} kinds[] = {
    {"SYN", EV_SYN, SYN_MT_REPORT},
    {"KEY", EV_KEY, BTN_LEFT},
    {"REL", EV_REL, REL_X},
    {"ABS", EV_ABS, ABS_X},
};

static struct world world;
static uint8_t packet[PACKET];

static _Noreturn void fail(const char *what, const char *name)
{
    fprintf(stderr, "bench: %s %s\n", what, name);
    exit(1);
}

static const struct contestant *contestant_of(const char *name)
{
    for (int i = 0; i < CONTESTANTS; i++)
        if (strcmp(contestants[i].name, name) == 0)
            return &contestants[i];
    fail("no contestant", name);
}

/* The last event is of a type that no entry offers. */
static void fill_refused(const char *kind, uint32_t events)
{
    for (size_t k = 0; k < sizeof kinds / sizeof *kinds; k++)
        if (strcmp(kinds[k].name, kind) == 0) {
            for (uint32_t i = 0; i < events; i++)
                store_event(packet + 8 * i, kinds[k].type, kinds[k].code, 1);
            store_event(packet + 8 * events, EV_DEV, DEV_SET, 0);
            return;
        }
    fail("no type", kind);
}

void make_puts(const char *contestant, const char *kind, uint32_t events, uint32_t times)
{
    const struct contestant *maker = contestant_of(contestant);
    bool is_mouse = strcmp(kind, "mouse") == 0;
    uint32_t most = PACKET / 8 - !is_mouse;
    if (events > most)
        fail("too many events of", kind);
    if (is_mouse)
        fill_mouse(packet);
    else
        fill_refused(kind, events);
    start(&world, (struct thayarqo_geometry){1, 8, 68}, 60, 2);
    for (uint32_t i = 0; i < times; i++) {
        uint8_t answer = maker->put_packet(&world.device, world.geometry, world.area, area_length(&world), world.page, PAGE, 0, packet,
                                           8 * (events + !is_mouse));
        if (answer != (is_mouse ? THAYARQO_DONE : THAYARQO_NOT_OFFERED))
            fail("another answer to", kind);
        empty(&world);
    }
}
