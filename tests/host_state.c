/*
 * The rules of a device's state through the C library, on both sides of each edge. Every call of the device answers 1 to a state that
 * breaks one; to a state that keeps them all it answers what else is wrong. Either way no byte and no field changes.
 */
#include "host_world.h"

enum { MOUSE = 1 << EV_SYN | 1 << EV_REL, ABSENT = SLOT + 1 };

/* All but the read are refused whatever the state: a read-only place, a device that is off, slots out of range. */
static void judges(const char *name, bool right)
{
    enum thayarqo_answer packet = next_device.on ? THAYARQO_BAD_SLOT : THAYARQO_DEVICE_OFF;
    uint8_t entry[ENTRY];
    make_entry(entry, MOUSE, 0);
    *device = next_device;
    reads(name, right ? THAYARQO_DONE : THAYARQO_INVALID, right ? 0x584D4F55 : 0, MAGIC, 4);
    answers("a write", right ? THAYARQO_READ_ONLY : THAYARQO_INVALID, write_register(MAGIC, 1));
    answers("a packet", right ? packet : THAYARQO_INVALID, put_motions(SLOTS, 1, 0));
    answers("an add", right ? THAYARQO_BAD_SLOT : THAYARQO_INVALID, add(SLOTS, entry, ENTRY));
    answers("a remove", right ? THAYARQO_BAD_SLOT : THAYARQO_INVALID, remove_slot(SLOTS));
}

static void allows(const char *name)
{
    judges(name, true);
}

static void refuses(const char *name)
{
    judges(name, false);
}

/* A device with SLOT taken, CLIENT_REV never written. */
static void begin(bool on)
{
    next_device = thayarqo_fresh_device();
    next_device.taken = UINT64_C(1) << SLOT;
    next_device.on = on;
}

static void begin_written(bool on, uint16_t client_rev)
{
    begin(on);
    next_device.client_rev_written = true;
    next_device.client_rev = client_rev;
}

static void write_indices(void)
{
    begin(true);
    next_device.write_index = RING - 1;
    allows("the last write index");
    next_device.write_index = RING;
    refuses("a write index past the ring");
    next_device.write_index = UINT32_MAX;
    refuses("the largest write index");
}

static void client_revs(void)
{
    static const struct {
        const char *name;
        bool written;
        uint16_t client_rev;
        bool off, on;
    } cases[] = {
        {"CLIENT_REV never written", false, 0, true, true}, {"1, never written", false, 1, false, false},
        {"2, never written", false, 2, false, false},       {"3, never written", false, 3, false, false},
        {"a rejected CLIENT_REV", true, 0, true, false},    {"CLIENT_REV 1", true, 1, true, true},
        {"CLIENT_REV 2", true, 2, true, true},              {"CLIENT_REV 3", true, 3, false, false},
        {"CLIENT_REV 258", true, 258, false, false},
    };
    for (size_t i = 0; i < sizeof cases / sizeof *cases; i++) {
        begin(false);
        next_device.client_rev_written = cases[i].written;
        next_device.client_rev = cases[i].client_rev;
        judges(cases[i].name, cases[i].off);
        next_device.on = true;
        judges("while on", cases[i].on);
    }
}

static void accelerations(void)
{
    static const struct {
        const char *name;
        uint16_t acceleration;
        bool right;
    } cases[] = {
        {"an acceleration of 0", 0, false}, {"of 1", 1, true}, {"of 20", 20, true}, {"of 21", 21, false}, {"of 266", 266, false},
    };
    for (size_t i = 0; i < sizeof cases / sizeof *cases; i++) {
        begin(true);
        next_device.acceleration = cases[i].acceleration;
        judges(cases[i].name, cases[i].right);
        begin_written(true, 2);
        next_device.acceleration = cases[i].acceleration;
        judges("in revision 2", cases[i].right);
        begin_written(false, 0);
        next_device.acceleration = cases[i].acceleration;
        judges("where CLIENT_REV is rejected", cases[i].right);
    }
}

static void slots(void)
{
    begin(true);
    next_device.taken |= UINT64_C(1) << (SLOTS - 1);
    allows("the last slot taken");
    next_device.taken = UINT64_C(1) << SLOTS;
    refuses("a slot out of range taken");
    next_device.taken = UINT64_C(1) << 63;
    refuses("slot 63 taken");
    begin_written(true, 2);
    next_device.current_slot = SLOT;
    allows("a current slot");
    next_device.current_slot = ABSENT;
    refuses("one that is absent");
    next_device.current_slot = SLOT + 64;
    refuses("one past the mask");
    next_device.current_slot = THAYARQO_UNKNOWN_SLOT;
    refuses("one that is unknown");
    begin(true);
    next_device.current_slot = SLOT;
    allows("a current slot in revision 1");
    next_device.current_slot = ABSENT;
    refuses("one that is absent there");
}

/* No rule is about these. */
static void free_fields(void)
{
    begin_written(true, 2);
    next_device.position.x = next_device.position.y = UINT16_MAX;
    allows("any position in revision 2");
    begin(false);
    next_device.position.x = next_device.position.y = UINT16_MAX;
    next_device.lost = next_device.isr = next_device.interrupts = true;
    allows("marks and a position while off");
}

/* Zeros break two rules. */
static void zeros(void)
{
    memset(&next_device, 0, sizeof next_device);
    refuses("a device of zeros");
    next_device.current_slot = THAYARQO_NO_SLOT;
    refuses("zeros without a current slot");
    next_device.acceleration = 10;
    allows("with an acceleration");
    next_device.current_slot = 0;
    refuses("zeros with an acceleration");
    next_device.taken = 1;
    allows("with slot 0 taken");
}

int main(void)
{
    make_world();
    write_indices();
    client_revs();
    accelerations();
    slots();
    free_fields();
    zeros();
    release_world();
    return broken;
}
