/*
 * Both ends of the keyboard ring at the same time. A put stores an event before in_prod, and a take has loaded it before it stores
 * in_cons: else other events come out than were put. And a back end that writes over an event while it is taken can't make a take
 * tell a contact at or above the limit: the one that it tells is the one that it tested.
 */
#define _DEFAULT_SOURCE
#include "interleaving.h"

#include "host_samples.h"

#include <stdatomic.h>

/* Every byte of an index changes on the way. */
enum { RING = 51, START = 0xFFFFE0, EVENTS = 60 };

struct page {
    uint32_t in_cons;
    uint32_t in_prod;
    uint8_t others[1016];
    uint8_t events[RING][EVENT];
    uint8_t rest[1032];
};

struct world {
    struct page page;
    uint8_t bytes[SAMPLES][EVENT];
    uint32_t in_prod;
    uint32_t in_cons;
    uint32_t sent;
    uint32_t received;
    uint32_t met_full;
    uint32_t met_empty;
    uint32_t malformed;
    bool wrong;
};

/* ---- the ends ---- */

static void put(void *memory)
{
    struct world *world = (struct world *)memory;
    const uint8_t *event = world->bytes[world->sent % SAMPLES];
    uint8_t answer = thayarqo_ring_put((uint8_t *)&world->page, sizeof world->page, &world->in_prod, LIMIT, event, EVENT);
    world->sent += answer == THAYARQO_DONE;
    world->met_full += answer == THAYARQO_NO_ROOM;
    world->wrong |= answer != THAYARQO_DONE && answer != THAYARQO_NO_ROOM;
}

/* The places that hold no unread event are the back end's: it may write there as it likes. */
static void spoil_and_put(void *memory)
{
    struct world *world = (struct world *)memory;
    uint32_t free_places = (RING - (world->in_prod - world->page.in_cons)) % (RING + 1);
    for (uint32_t i = 0; i < free_places; i++)
        memset(world->page.events[(world->in_prod + i) % RING], 0xEE, EVENT);
    put(world);
}

static void receive(struct world *world, struct thayarqo_ring_found found)
{
    world->wrong |= !is_found(THAYARQO_DONE, samples[world->received % SAMPLES].event, found);
    world->received++;
}

static void take(void *memory)
{
    struct world *world = (struct world *)memory;
    struct thayarqo_ring_found found = thayarqo_ring_take((uint8_t *)&world->page, sizeof world->page, &world->in_cons, LIMIT);
    if (found.answer == THAYARQO_NOTHING_TO_READ)
        world->met_empty++;
    else
        receive(world, found);
}

static void put_all(void *memory)
{
    struct world *world = (struct world *)memory;
    for (uint32_t last = world->sent + EVENTS; world->sent < last && !world->wrong;)
        put(world);
}

static void take_all(void *memory)
{
    struct world *world = (struct world *)memory;
    for (uint32_t last = world->received + EVENTS; world->received < last && !world->wrong;)
        take(world);
}

/* ---- a back end that writes over the event which is taken ---- */

/* A touch with its contact below the limit, with one above it, and a key, by turns that keep no step with the other end's. */
static void scribble(void *memory)
{
    static uint32_t turns;
    struct world *world = (struct world *)memory;
    uint8_t *place = world->page.events[world->in_cons % RING];
    turns = turns * 1664525 + 1013904223;
    memcpy(place, world->bytes[turns >> 30 == 0 ? KEY : TOUCH], EVENT);
    if (turns >> 31)
        place[2] = 0xFF;
}

static void receive_any(struct world *world, struct thayarqo_ring_found found)
{
    world->wrong |= found.answer != THAYARQO_DONE && found.answer != THAYARQO_MALFORMED;
    world->wrong |= found.event.contact >= LIMIT;
    world->malformed += found.answer == THAYARQO_MALFORMED;
    world->received++;
}

static void take_any(void *memory)
{
    struct world *world = (struct world *)memory;
    while (world->received < RING && !world->wrong)
        receive_any(world, thayarqo_ring_take((uint8_t *)&world->page, sizeof world->page, &world->in_cons, LIMIT));
}

/* ---- wrong ends, which must be noticed ---- */

/* Tests the event, and then loads its contact once more. */
static void take_twice(void *memory)
{
    struct world *world = (struct world *)memory;
    while (world->received < RING && !world->wrong) {
        const uint8_t *place = world->page.events[world->in_cons % RING];
        struct thayarqo_ring_found found = thayarqo_ring_decode(place, EVENT, LIMIT);
        atomic_signal_fence(memory_order_seq_cst);
        if (found.answer == THAYARQO_DONE)
            found.event.contact = place[2];
        receive_any(world, found);
        world->in_cons++;
    }
}

static void put_all_early(void *memory)
{
    struct world *world = (struct world *)memory;
    while (world->sent < EVENTS) {
        uint8_t *place = world->page.events[world->in_prod % RING];
        world->page.in_prod = ++world->in_prod;
        atomic_signal_fence(memory_order_seq_cst);
        memcpy(place, world->bytes[world->sent++ % SAMPLES], EVENT);
    }
}

static void take_all_late(void *memory)
{
    struct world *world = (struct world *)memory;
    while (world->received < EVENTS) {
        const uint8_t *place = world->page.events[world->in_cons % RING];
        world->page.in_cons = ++world->in_cons;
        atomic_signal_fence(memory_order_seq_cst);
        receive(world, thayarqo_ring_decode(place, EVENT, LIMIT));
    }
}

/* ---- the cases ---- */

static struct world *make_world(uint32_t filled)
{
    struct world *world = (struct world *)share(sizeof *world);
    for (int i = 0; i < SAMPLES; i++)
        write_bytes(world->bytes[i], &samples[i]);
    world->page.in_prod = world->page.in_cons = world->in_prod = world->in_cons = START;
    while (world->sent < filled && !world->wrong)
        put(world);
    return world;
}

/* Whether all that was put comes out, in order, and one end had to wait for the other. */
static bool is_right(struct world *world, bool ended)
{
    bool waited = world->met_full + world->met_empty > 0;
    while (world->received < world->sent && !world->wrong)
        take(world);
    return ended && waited && !world->wrong && world->in_cons == world->in_prod;
}

/* The work is done with a turn of the other end after every so many instructions. The ring has so many events at first. */
static const struct {
    const char *name;
    void (*work)(void *);
    void (*turn)(void *);
    unsigned every;
    uint32_t filled;
    bool right;
} meetings[] = {
    {"puts, with a take after every instruction", put_all, take, ALWAYS, 0, true},
    {"puts to a full ring, with a take now and then", put_all, take, SELDOM, RING, true},
    {"takes from a full ring, with a put after every instruction", take_all, spoil_and_put, ALWAYS, RING, true},
    {"takes, with a put now and then", take_all, spoil_and_put, SELDOM, 0, true},
    {"a put that stores in_prod first is noticed", put_all_early, take, ALWAYS, 0, false},
    {"a take that stores in_cons first is noticed", take_all_late, spoil_and_put, ALWAYS, RING, false},
};

/* Some events are told, and some are malformed. */
static void meet_scribble(const char *name, void (*work)(void *), bool right)
{
    struct world *world = make_world(RING);
    bool ended = interleave(work, scribble, ALWAYS, world);
    check(name, (ended && !world->wrong && world->malformed > 0 && world->malformed < world->received) == right);
    munmap(world, sizeof *world);
}

int main(void)
{
    if (!can_interleave()) {
        puts("skip both ends of the keyboard ring: a process can't be stopped after an instruction here");
        return 0;
    }
    for (size_t i = 0; i < sizeof meetings / sizeof *meetings; i++) {
        struct world *world = make_world(meetings[i].filled);
        bool ended = interleave(meetings[i].work, meetings[i].turn, meetings[i].every, world);
        check(meetings[i].name, is_right(world, ended) == meetings[i].right);
        munmap(world, sizeof *world);
    }
    meet_scribble("takes, while each event is written over after every instruction", take_any, true);
    meet_scribble("a take that loads the contact once more is noticed", take_twice, false);
    return broken;
}
