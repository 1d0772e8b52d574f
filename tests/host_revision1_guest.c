/*
 * The guest's reader in revision 1 through the C library: each refusal, records of any bytes, and a ring that the device fills and the
 * reader drains, on around its end. After each call every byte and every field is compared with what it has to be.
 */
#include "host_revision1.h"

/* Packets of two records that fit in the ring. */
enum { FIT = (RING - 1) / 2 };

/* ---- the call ---- */

static struct thayarqo_taken step(void)
{
    return thayarqo_revision1_step(geometry, area.bytes, AREA);
}

static bool is_taken(uint16_t flags, uint16_t revision, uint32_t data, struct thayarqo_taken taken)
{
    bool right = taken.flags == flags && taken.revision == revision && taken.data == data;
    if (!right)
        printf("    took flags %#x, revision %u, data %#x\n", taken.flags, taken.revision, (unsigned)taken.data);
    return right;
}

static void refuses(const char *name, uint8_t answer, struct thayarqo_taken taken)
{
    bool right = is_answer(answer, taken.answer) && is_taken(0, 0, 0, taken);
    check(name, is_all_expected() && right);
}

static bool comes(uint16_t flags, uint16_t revision, uint32_t data)
{
    expect_word(&area, READ_PTR, (word(&area, READ_PTR) + 1) % RING);
    struct thayarqo_taken taken = step();
    bool right = is_answer(THAYARQO_DONE, taken.answer) && is_taken(flags, revision, data, taken);
    return is_all_expected() && right;
}

static void takes(const char *name, uint16_t flags, uint16_t revision, uint32_t data)
{
    check(name, comes(flags, revision, data));
}

/* ---- refusals ---- */

static void refuses_geometry(const char *name, uint32_t pages, uint32_t record_size, uint32_t entry_size)
{
    const struct thayarqo_geometry other = {pages, record_size, entry_size};
    refuses(name, THAYARQO_INVALID, thayarqo_revision1_step(other, area.bytes, AREA));
}

static void refuse_geometries(void)
{
    refuses("an area without a byte", THAYARQO_INVALID, thayarqo_revision1_step(geometry, area.bytes, AREA - 1));
    refuses("no area", THAYARQO_INVALID, thayarqo_revision1_step(geometry, area.bytes, 0));
    refuses_geometry("an area of more pages", 1, RECORD, ENTRY);
    refuses_geometry("an area of less pages", 3, RECORD, ENTRY);
    refuses_geometry("no pages", 0, RECORD, ENTRY);
    refuses_geometry("9 pages", 9, RECORD, ENTRY);
    refuses_geometry("records of 4 bytes", 2, 4, ENTRY);
    refuses_geometry("records of 24 bytes", 2, 24, ENTRY);
    refuses_geometry("records of 128 bytes", 2, 128, ENTRY);
    refuses_geometry("entries of 64 bytes", 2, RECORD, 64);
    refuses_geometry("entries of 70 bytes", 2, RECORD, 70);
    refuses_geometry("entries of 260 bytes", 2, RECORD, 260);
}

static void refuse_pointers(void)
{
    static const struct {
        const char *name;
        uint32_t read, write;
        uint8_t answer;
    } cases[] = {
        {"an impossible read pointer", RING, 0, THAYARQO_BAD_INDEX},
        {"the largest read pointer", UINT32_MAX, 0, THAYARQO_BAD_INDEX},
        {"an impossible write pointer", 0, RING, THAYARQO_BAD_INDEX},
        {"the largest write pointer", 0, UINT32_MAX, THAYARQO_BAD_INDEX},
        {"both impossible, and the same", RING, RING, THAYARQO_BAD_INDEX},
        {"an empty ring", 0, 0, THAYARQO_NOTHING_TO_READ},
        {"an empty ring at its end", RING - 1, RING - 1, THAYARQO_NOTHING_TO_READ},
    };
    for (size_t i = 0; i < sizeof cases / sizeof *cases; i++) {
        store_word(&area, READ_PTR, cases[i].read);
        store_word(&area, WRITE_PTR, cases[i].write);
        refuses(cases[i].name, cases[i].answer, step());
    }
}

/* ---- records that the test writes itself ---- */

static void lay(uint32_t index, uint32_t head, uint32_t data)
{
    store_word(&area, RECORD * ((size_t)index + 1), head);
    store_word(&area, RECORD * ((size_t)index + 1) + 4, data);
}

/* Whatever a record holds is handed back. */
static void take_any_bytes(void)
{
    lay(RING - 2, 0xABCD1234, 0x01020304);
    lay(RING - 1, 0x00010004, 0);
    lay(0, 0xFFFFFFFF, 0xFFFFFFFF);
    store_word(&area, READ_PTR, RING - 2);
    store_word(&area, WRITE_PTR, 2);
    takes("any bytes", 0x1234, 0xABCD, 0x01020304);
    takes("the last place of the ring", FENCE, 1, 0);
    takes("its first place", 0xFFFF, 0xFFFF, 0xFFFFFFFF);
    takes("a place that was never put to", 0x7777, 0x7777, 0x77777777);
    refuses("then nothing to read", THAYARQO_NOTHING_TO_READ, step());
}

/* ---- the device and its reader over the same area ---- */

static void take_a_packet(void)
{
    struct thayarqo_event events[4] = {
        {EV_KEY, BTN_RIGHT, 1}, {EV_REL, REL_WHEEL, 0xFFFFFFFF}, {EV_ABS, ABS_Y, 6}, {EV_REL, REL_X, 0xFFFFFFFD}};
    next_device.isr = true;
    expect_flagged(RELATIVE, 0x0000FFFD);
    expect_flagged(ABSOLUTE, 0x00060000);
    expect_flagged(RIGHT_DOWN, 0);
    expect_flagged(VWHEEL, 0xFFFFFFFF);
    expect_flagged(FENCE, 0);
    answers("a packet", THAYARQO_DONE, put_packet(SLOT, events, sizeof events));
    takes("its motion", RELATIVE, 1, 0x0000FFFD);
    takes("its position", ABSOLUTE, 1, 0x00060000);
    takes("its button", RIGHT_DOWN, 1, 0);
    takes("its wheel", VWHEEL, 1, 0xFFFFFFFF);
    takes("its FENCE", FENCE, 1, 0);
    refuses("then nothing to read", THAYARQO_NOTHING_TO_READ, step());
}

static bool puts_wheel(uint32_t value)
{
    expect_group(VWHEEL, value);
    bool right = is_answer(THAYARQO_DONE, put_event(SLOT, EV_REL, REL_WHEEL, value));
    return is_all_expected() && right;
}

static bool wheel_comes(uint32_t value)
{
    return comes(VWHEEL, 1, value) && comes(FENCE, 1, 0);
}

/* What doesn't fit never shows. */
static void fill_and_drain(void)
{
    uint32_t put = 0, taken = 0;
    while (put < FIT && puts_wheel(put))
        put++;
    check("packets up to a full ring", put == FIT);
    next_device.lost = true;
    answers("one more", THAYARQO_NO_ROOM, put_event(SLOT, EV_REL, REL_WHEEL, FIT));
    while (taken < FIT && wheel_comes(taken))
        taken++;
    check("all of them come, in order", taken == FIT);
    refuses("and no more", THAYARQO_NOTHING_TO_READ, step());
    check("a packet after them", puts_wheel(9));
    check("it comes, and no gap shows", wheel_comes(9));
    check("the ring has gone round", word(&area, READ_PTR) == 5 + 2 * (FIT + 1) - RING);
}

int main(void)
{
    make_world();
    refuse_geometries();
    refuse_pointers();
    take_any_bytes();
    start();
    take_a_packet();
    fill_and_drain();
    release_world();
    return broken;
}
