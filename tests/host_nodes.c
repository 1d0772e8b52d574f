/*
 * Node settings through the C library: each name, bad texts, and the modes at the close. After each node every setting is compared
 * with what it has to be, and the texts, which have no byte 0 at their end.
 */
#include "thayarqo.h"

#include "host_case.h"

static struct lent memory;
static struct thayarqo_settings *settings, next_settings;

static bool same_parameter(struct thayarqo_parameter a, struct thayarqo_parameter b)
{
    return a.given == b.given && a.value == b.value;
}

static bool same_flags(const struct thayarqo_settings *a, const struct thayarqo_settings *b)
{
    return a->feature_disable_keyboard == b->feature_disable_keyboard && a->feature_disable_pointer == b->feature_disable_pointer
        && a->feature_abs_pointer == b->feature_abs_pointer && a->feature_multi_touch == b->feature_multi_touch
        && a->feature_raw_pointer == b->feature_raw_pointer && a->request_abs_pointer == b->request_abs_pointer
        && a->request_multi_touch == b->request_multi_touch && a->request_raw_pointer == b->request_raw_pointer;
}

static bool same_settings(const struct thayarqo_settings *a, const struct thayarqo_settings *b)
{
    return same_flags(a, b) && same_parameter(a->width, b->width) && same_parameter(a->height, b->height)
        && same_parameter(a->contacts, b->contacts) && same_parameter(a->touch_width, b->touch_width)
        && same_parameter(a->touch_height, b->touch_height);
}

static bool are_settings_expected(void)
{
    if (same_settings(settings, &next_settings))
        return is_guarded(&memory);
    printf("    the settings are others\n");
    return false;
}

static void node(uint8_t answer, const char *name, const char *value)
{
    char label[80];
    struct lent name_text = lend_copy("name", name, strlen(name)), value_text = lend_copy("value", value, strlen(value));
    bool right = is_answer(answer, thayarqo_node(settings, name_text.bytes, name_text.length, value_text.bytes, value_text.length));
    right &= came_back_whole(&name_text);
    right &= came_back_whole(&value_text);
    snprintf(label, sizeof label, "node '%s' of '%s'", name, value);
    check(label, are_settings_expected() && right);
}

static void gives_flag(const char *name, bool *flag)
{
    *flag = true;
    node(THAYARQO_DONE, name, "1");
}

static void gives_number(const char *name, const char *text, struct thayarqo_parameter *number, uint32_t value)
{
    number->given = true;
    number->value = value;
    node(THAYARQO_DONE, name, text);
}

/* ---- nodes ---- */

static void start(void)
{
    static const struct thayarqo_parameter absent = {false, 0};
    next_settings = thayarqo_fresh_settings();
    const struct thayarqo_settings fresh = {false, false, false, false, false, false, false, false,
                                            absent, absent, absent, absent, absent};
    check("fresh settings", same_settings(&next_settings, &fresh));
    *settings = next_settings;
}

static void refuse_texts(void)
{
    static const char *const flags[] = {"", "2", "/", "00", "01", "10", "true"};
    static const char *const numbers[] = {"", "01", "00", "+1", "-1", " 1", "1 ", "1x", "4294967296", "12345678901"};
    for (size_t i = 0; i < sizeof flags / sizeof *flags; i++)
        node(THAYARQO_BAD_SETTING, "feature-abs-pointer", flags[i]);
    for (size_t i = 0; i < sizeof numbers / sizeof *numbers; i++)
        node(THAYARQO_BAD_SETTING, "width", numbers[i]);
    node(THAYARQO_DONE, "page-ref", "x");
    node(THAYARQO_DONE, "", "");
    node(THAYARQO_DONE, "widt", "1");
    node(THAYARQO_DONE, "width2", "1");
}

static void replace(void)
{
    gives_number("width", "4294967295", &next_settings.width, UINT32_MAX);
    gives_number("width", "0", &next_settings.width, 0);
    node(THAYARQO_BAD_SETTING, "width", "01");
    gives_flag("request-raw-pointer", &next_settings.request_raw_pointer);
    next_settings.request_raw_pointer = false;
    node(THAYARQO_DONE, "request-raw-pointer", "0");
}

/* ---- closing ---- */

static bool same_modes(struct thayarqo_closed a, struct thayarqo_closed b)
{
    return a.absolute == b.absolute && a.multi_touch == b.multi_touch && a.raw == b.raw && a.disable_keyboard == b.disable_keyboard
        && a.disable_pointer == b.disable_pointer;
}

static void closes(const char *name, struct thayarqo_closed expected)
{
    struct thayarqo_closed closed = thayarqo_close(*settings);
    bool right = is_answer(expected.answer, closed.answer) && same_modes(expected, closed) && closed.width == expected.width
        && closed.height == expected.height && closed.contacts == expected.contacts && closed.touch_width == expected.touch_width
        && closed.touch_height == expected.touch_height;
    check(name, are_settings_expected() && right);
}

/* answer, absolute, multi-touch, raw, disable-keyboard, disable-pointer, width, height, contacts, touch width, touch height */
static const struct thayarqo_closed nothing = {THAYARQO_DONE, false, false, false, false, false, 0, 0, 0, 0, 0};
static const struct thayarqo_closed refused = {THAYARQO_BAD_SETTING, false, false, false, false, false, 0, 0, 0, 0, 0};

static void close_absolute(void)
{
    const struct thayarqo_closed idle = {THAYARQO_DONE, false, false, false, true, false, 0, 0, 0, 0, 0};
    const struct thayarqo_closed scaled = {THAYARQO_DONE, true, false, false, true, true, 800, 600, 0, 0, 0};
    const struct thayarqo_closed raw = {THAYARQO_DONE, true, false, true, true, true, 800, 600, 0, 0, 0};
    closes("no nodes but a width", nothing);
    gives_flag("feature-disable-keyboard", &next_settings.feature_disable_keyboard);
    gives_flag("feature-abs-pointer", &next_settings.feature_abs_pointer);
    closes("a feature without its request", idle);
    gives_flag("request-abs-pointer", &next_settings.request_abs_pointer);
    closes("absolute without height", refused);
    gives_number("width", "800", &next_settings.width, 800);
    gives_number("height", "600", &next_settings.height, 600);
    gives_flag("feature-disable-pointer", &next_settings.feature_disable_pointer);
    closes("absolute", scaled);
    gives_flag("feature-raw-pointer", &next_settings.feature_raw_pointer);
    gives_flag("request-raw-pointer", &next_settings.request_raw_pointer);
    closes("raw", raw);
}

static void close_multi_touch(void)
{
    const struct thayarqo_closed touch = {THAYARQO_DONE, true, true, true, true, true, 800, 600, 32, 1024, 768};
    gives_flag("feature-multi-touch", &next_settings.feature_multi_touch);
    gives_flag("request-multi-touch", &next_settings.request_multi_touch);
    closes("multi-touch without its nodes", refused);
    gives_number("multi-touch-width", "1024", &next_settings.touch_width, 1024);
    gives_number("multi-touch-height", "768", &next_settings.touch_height, 768);
    closes("multi-touch without contacts", refused);
    gives_number("multi-touch-num-contacts", "0", &next_settings.contacts, 0);
    closes("no contacts", refused);
    gives_number("multi-touch-num-contacts", "33", &next_settings.contacts, 33);
    closes("33 contacts", refused);
    gives_number("multi-touch-num-contacts", "32", &next_settings.contacts, 32);
    closes("32 contacts", touch);
}

int main(void)
{
    memory = lend("settings", sizeof *settings, 0);
    settings = (struct thayarqo_settings *)memory.bytes;
    start();
    refuse_texts();
    replace();
    close_absolute();
    close_multi_touch();
    release(&memory);
    return broken;
}
