/*
 * What has a form in revision 1, through the C library: motion as it is scaled, on both sides of each edge, and every event that a packet
 * is refused for. After each call every byte and every field is compared with what it has to be.
 */
#include "host_revision1.h"

/* Its entry offers one button, one axis and no motion. */
enum { NARROW = 6, NARROW_TYPES = 1 << EV_SYN | 1 << EV_KEY | 1 << EV_ABS, LEFT_ONLY = 0x10000, X_ONLY = 1 };

/* ---- scaled motion ---- */

static const struct {
    const char *name;
    uint16_t acceleration;
    int32_t value;
    uint8_t answer;
    uint16_t scaled;
} motions[] = {
    {"32767 at 10", 10, 32767, THAYARQO_DONE, 0x7FFF},
    {"32768 at 10", 10, 32768, THAYARQO_NOT_OFFERED, 0},
    {"-32768 at 10", 10, -32768, THAYARQO_DONE, 0x8000},
    {"-32769 at 10", 10, -32769, THAYARQO_NOT_OFFERED, 0},
    {"9 at 1 is cut to 0", 1, 9, THAYARQO_DONE, 0},
    {"-9 at 1 is cut to 0", 1, -9, THAYARQO_DONE, 0},
    {"19 at 1 is cut to 1", 1, 19, THAYARQO_DONE, 1},
    {"-19 at 1 is cut to -1", 1, -19, THAYARQO_DONE, 0xFFFF},
    {"-3 at 15 is cut to -4", 15, -3, THAYARQO_DONE, 0xFFFC},
    {"327679 at 1", 1, 327679, THAYARQO_DONE, 0x7FFF},
    {"327680 at 1", 1, 327680, THAYARQO_NOT_OFFERED, 0},
    {"-327689 at 1", 1, -327689, THAYARQO_DONE, 0x8000},
    {"-327690 at 1", 1, -327690, THAYARQO_NOT_OFFERED, 0},
    {"16383 at 20", 20, 16383, THAYARQO_DONE, 0x7FFE},
    {"16384 at 20", 20, 16384, THAYARQO_NOT_OFFERED, 0},
    {"-16384 at 20", 20, -16384, THAYARQO_DONE, 0x8000},
    {"-16385 at 20", 20, -16385, THAYARQO_NOT_OFFERED, 0},
    {"a product past 32 bits", 20, 214748365, THAYARQO_NOT_OFFERED, 0},
    {"a negative one", 20, -214748365, THAYARQO_NOT_OFFERED, 0},
    {"the largest number", 1, INT32_MAX, THAYARQO_NOT_OFFERED, 0},
    {"the smallest number", 1, INT32_MIN, THAYARQO_NOT_OFFERED, 0},
};

static void set_acceleration(uint16_t acceleration)
{
    next_device.acceleration = acceleration;
    answers("ACCELERATION", THAYARQO_DONE, write_register(ACCELERATION, acceleration));
}

static void moves(const char *name, uint8_t answer, uint16_t code, int32_t value, uint32_t data)
{
    if (answer == THAYARQO_DONE)
        expect_group(RELATIVE, data);
    answers(name, answer, put_event(SLOT, EV_REL, code, (uint32_t)value));
}

static void scale_motions(void)
{
    for (size_t i = 0; i < sizeof motions / sizeof *motions; i++) {
        set_acceleration(motions[i].acceleration);
        moves(motions[i].name, motions[i].answer, REL_X, motions[i].value, motions[i].scaled);
        moves("as Y", motions[i].answer, REL_Y, motions[i].value, (uint32_t)motions[i].scaled << 16);
    }
}

/* The acceleration is that in force at the call, and motion alone is scaled. */
static void scale_nothing_else(void)
{
    struct thayarqo_event both[2] = {{EV_REL, REL_X, 0xFFFFFFF9}, {EV_REL, REL_Y, 7}};
    set_acceleration(13);
    expect_group(RELATIVE, 0x0009FFF7);
    answers("each axis is scaled for itself", THAYARQO_DONE, put_packet(SLOT, both, sizeof both));
    set_acceleration(20);
    expect_group(ABSOLUTE, 60000);
    answers("a position isn't scaled", THAYARQO_DONE, put_event(SLOT, EV_ABS, ABS_X, 60000));
    expect_group(VWHEEL, 0x40000000);
    answers("nor is the wheel", THAYARQO_DONE, put_event(SLOT, EV_REL, REL_WHEEL, 0x40000000));
    both[1].value = 16384;
    answers("a right X and a wrong Y", THAYARQO_NOT_OFFERED, put_packet(SLOT, both, sizeof both));
    set_acceleration(10);
}

/* ---- events without a form ---- */

/* The slot's entry offers them all but for the last two. */
static const struct {
    const char *name;
    struct thayarqo_event event;
} others[] = {
    {"SYN_MT_REPORT", {EV_SYN, SYN_MT_REPORT, 0}},
    {"the horizontal wheel", {EV_REL, REL_HWHEEL, 1}},
    {"another motion", {EV_REL, 2, 1}},
    {"another wheel's code", {EV_REL, REL_WHEEL + 1, 1}},
    {"another axis", {EV_ABS, 2, 1}},
    {"the pressure", {EV_ABS, ABS_PRESSURE, 1}},
    {"another button", {EV_KEY, BTN_SIDE, 1}},
    {"an X above 65535", {EV_ABS, ABS_X, 65536}},
    {"a Y above 65535", {EV_ABS, ABS_Y, 65536}},
    {"the largest X", {EV_ABS, ABS_X, 0xFFFFFFFF}},
    {"a report", {EV_SYN, SYN_REPORT, 0}},
    {"a record of the device", {EV_DEV, DEV_CONF, SLOT}},
};

static void refuses(const char *name, struct thayarqo_event first, struct thayarqo_event second)
{
    struct thayarqo_event events[2] = {first, second};
    answers(name, THAYARQO_NOT_OFFERED, put_packet(SLOT, events, sizeof events));
}

static void refuse_others(void)
{
    const struct thayarqo_event click = {EV_KEY, BTN_LEFT, 1};
    for (size_t i = 0; i < sizeof others / sizeof *others; i++) {
        const struct thayarqo_event *event = &others[i].event;
        answers(others[i].name, THAYARQO_NOT_OFFERED, put_event(SLOT, event->type, event->code, event->value));
        refuses("before a button", *event, click);
        refuses("behind a button", click, *event);
    }
}

/* Also where both say the same. */
static void refuse_repetitions(void)
{
    static const struct {
        const char *name;
        uint16_t type, code;
    } axes[] = {
        {"REL_X twice", EV_REL, REL_X}, {"REL_Y twice", EV_REL, REL_Y},         {"ABS_X twice", EV_ABS, ABS_X},
        {"ABS_Y twice", EV_ABS, ABS_Y}, {"the wheel twice", EV_REL, REL_WHEEL},
    };
    for (size_t i = 0; i < sizeof axes / sizeof *axes; i++) {
        struct thayarqo_event first = {axes[i].type, axes[i].code, 0}, second = {axes[i].type, axes[i].code, 1};
        refuses(axes[i].name, first, second);
        refuses("with the same number", first, first);
    }
}

/* What has a form isn't offered by every entry. */
static void refuse_what_is_not_offered(void)
{
    add_device("an add while on", NARROW, NARROW_TYPES, LEFT_ONLY);
    store_word(&page, NARROW * ENTRY + ABSBITS, X_ONLY);
    answers("a motion that isn't offered", THAYARQO_NOT_OFFERED, put_event(NARROW, EV_REL, REL_X, 1));
    answers("a wheel that isn't", THAYARQO_NOT_OFFERED, put_event(NARROW, EV_REL, REL_WHEEL, 1));
    answers("an axis that isn't", THAYARQO_NOT_OFFERED, put_event(NARROW, EV_ABS, ABS_Y, 1));
    answers("a button that isn't", THAYARQO_NOT_OFFERED, put_event(NARROW, EV_KEY, BTN_MIDDLE, 1));
    expect_group(ABSOLUTE, 60001);
    answers("an axis that is", THAYARQO_DONE, put_event(NARROW, EV_ABS, ABS_X, 60001));
    expect_group(LEFT_DOWN, 0);
    answers("a button that is", THAYARQO_DONE, put_event(NARROW, EV_KEY, BTN_LEFT, 1));
}

int main(void)
{
    make_world();
    start();
    device->isr = next_device.isr = true;
    scale_motions();
    scale_nothing_else();
    refuse_others();
    refuse_repetitions();
    refuse_what_is_not_offered();
    release_world();
    return broken;
}
