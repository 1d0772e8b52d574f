#include "call.h"

#include "thayarqo_codes.h"
#include "random.h"
#include "words.h"

enum { CONTACTS = 10 };

struct thayarqo_ring_event ring_event(uint32_t kind, uint32_t number)
{
    static const uint8_t kinds[RING_KINDS] = {1, 3, 4, 5, 5, 5, 5, 5, 5};
    struct thayarqo_ring_event event = {.kind = kinds[kind], .subtype = kind < 3 ? 0 : (uint8_t)(kind - 3)};
    event.contact = (uint8_t)(number % CONTACTS);
    event.pressed = number & 1;
    event.x = (int32_t)number;
    event.y = event.z = -event.x / 2;
    event.keycode = event.major = event.minor = number;
    event.orientation = (int16_t)number;
    return event;
}

void fill_ring_event(uint8_t *bytes, uint32_t kind, uint32_t number)
{
    thayarqo_ring_encode(bytes, THAYARQO_RING_EVENT_LENGTH, ring_event(kind, number));
}

static void draw_events(uint64_t *seed, uint8_t *events, size_t length)
{
    static const uint32_t codes[] = {1, 0x60, 32, 64};
    static const uint16_t first[] = {SYN_MT_REPORT, BTN_0, 0, 0};
    for (size_t at = 0; at < length; at += 8) {
        uint16_t type = (uint16_t)below(seed, 4);
        store_event(events + at, type, (uint16_t)(first[type] + below(seed, codes[type])), any(seed));
    }
}

/* An axis or the wheel comes once, and stays in range at any acceleration. All else are buttons. */
static void draw_events_of_revision1(uint64_t *seed, uint8_t *events, size_t length)
{
    static const uint16_t types[] = {EV_REL, EV_REL, EV_REL, EV_ABS, EV_ABS}, codes[] = {REL_X, REL_Y, REL_WHEEL, ABS_X, ABS_Y};
    uint32_t given = 0;
    for (size_t at = 0; at < length; at += 8) {
        uint32_t which = below(seed, 8);
        if (which >= 5 || (given >> which & 1) != 0) {
            store_event(events + at, EV_KEY, (uint16_t)(BTN_LEFT + below(seed, 3)), below(seed, 2) * any(seed));
            continue;
        }
        given |= 1u << which;
        store_event(events + at, types[which], codes[which], types[which] == EV_REL ? below(seed, 32768) - 16384 : below(seed, 65536));
    }
}

static uint64_t draw_offset(uint64_t *seed, const struct world *world)
{
    static const uint16_t registers[] = {0, 4, 0x100, 0x104, 0x108, 0x10C, 0x110, 0x114, 0x118};
    if (below(seed, 2) == 0)
        return registers[below(seed, 9)];
    return PAGE + 4 * below(seed, (world->geometry.pages + 1) * 1024);
}

struct call draw_call(uint64_t *seed, const struct world *world)
{
    struct call call = {.kind = (enum call_kind)below(seed, CALL_KINDS), .area_length = area_length(world), .page_length = PAGE};
    uint32_t slots = 4096 / world->geometry.entry_size;
    call.packet_length = 8 * (1 + below(seed, 32));
    call.held_length = PACKET;
    call.out_length = OUT;
    call.event_length = THAYARQO_RING_EVENT_LENGTH;
    call.slot = below(seed, slots);
    call.limit = below(seed, 200);
    call.width = 4;
    call.contact_limit = CONTACTS;
    call.offset = draw_offset(seed, world);
    if (world->device.client_rev == 2)
        draw_events(seed, call.events, sizeof call.events);
    else
        draw_events_of_revision1(seed, call.events, sizeof call.events);
    call.numbers = ring_event(below(seed, RING_KINDS), any(seed));
    fill_ring_event(call.event, below(seed, RING_KINDS), any(seed));
    return call;
}

static void put_numbers(struct reply *reply, struct thayarqo_ring_found found)
{
    struct thayarqo_ring_event event = found.event;
    *reply = (struct reply){{found.answer, event.kind, event.subtype, event.contact, event.pressed, event.x, event.y, event.z,
                             event.keycode, event.major, event.minor, event.orientation}};
}

static struct reply read_or_call_ring(const struct contestant *contestant, struct world *world, const struct call *call)
{
    struct reply reply = {{0}};
    if (call->kind == READ) {
        struct thayarqo_value value = contestant->read(&world->device, world->geometry, world->area, call->area_length, world->page,
                                                       call->page_length, call->offset, call->width);
        return (struct reply){{value.answer, value.value}};
    }
    if (call->kind == RING_ENCODE)
        reply.numbers[0] = contestant->ring_encode(world->out, call->event_length, call->numbers);
    else if (call->kind == RING_TAKE)
        put_numbers(&reply, contestant->ring_take(world->ring, call->page_length, &world->in_cons, call->contact_limit));
    else
        reply.numbers[0] = contestant->ring_put(world->ring, call->page_length, &world->in_prod, call->contact_limit, call->event,
                                                call->event_length);
    return reply;
}

struct reply make_call(const struct contestant *contestant, struct world *world, const struct call *call)
{
    if (call->kind == PUT_PACKET)
        return (struct reply){{contestant->put_packet(&world->device, world->geometry, world->area, call->area_length, world->page,
                                                      call->page_length, call->slot, call->events, call->packet_length)}};
    if (call->kind == STEP) {
        struct thayarqo_told told = contestant->step(&world->driver, world->geometry, world->area, call->area_length,
                                                     world->packet, call->held_length);
        return (struct reply){{told.answer, told.what, told.slot, told.count}};
    }
    if (call->kind == REVISION1_STEP) {
        struct thayarqo_taken taken = contestant->revision1_step(world->geometry, world->area, call->area_length);
        return (struct reply){{taken.answer, taken.flags, taken.revision, taken.data}};
    }
    if (call->kind == COPY_OUT) {
        struct thayarqo_copied copied = contestant->copy_out(world->geometry, world->area, call->area_length, call->limit,
                                                             world->out, call->out_length);
        return (struct reply){{copied.answer, copied.count}};
    }
    return read_or_call_ring(contestant, world, call);
}
