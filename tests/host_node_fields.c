/*
 * Each field of the settings and of what their close gives, by its own name, as host_fields.c has the other structs: a node changes one
 * field alone, and numbers differ.
 */
#include "thayarqo.h"

#include "host_case.h"

static struct thayarqo_settings settings;

static void node(const char *name, const char *value)
{
    thayarqo_node(&settings, (const uint8_t *)name, strlen(name), (const uint8_t *)value, strlen(value));
}

static unsigned given_flags(void)
{
    return settings.feature_disable_keyboard | settings.feature_disable_pointer << 1 | settings.feature_abs_pointer << 2
        | settings.feature_multi_touch << 3 | settings.feature_raw_pointer << 4 | settings.request_abs_pointer << 5
        | settings.request_multi_touch << 6 | settings.request_raw_pointer << 7;
}

static unsigned given_numbers(void)
{
    return settings.width.given | settings.height.given << 1 | settings.contacts.given << 2 | settings.touch_width.given << 3
        | settings.touch_height.given << 4;
}

static void fields_of_settings(void)
{
    static const char *const flags[] = {
        "feature-disable-keyboard", "feature-disable-pointer", "feature-abs-pointer", "feature-multi-touch",
        "feature-raw-pointer",      "request-abs-pointer",     "request-multi-touch", "request-raw-pointer",
    };
    for (unsigned i = 0; i < sizeof flags / sizeof *flags; i++) {
        settings = thayarqo_fresh_settings();
        node(flags[i], "1");
        check(flags[i], given_flags() == 1u << i && given_numbers() == 0);
    }
}

static void fields_of_parameters(void)
{
    static const char *const names[] = {"width", "height", "multi-touch-num-contacts", "multi-touch-width", "multi-touch-height"};
    for (unsigned i = 0; i < sizeof names / sizeof *names; i++) {
        settings = thayarqo_fresh_settings();
        node(names[i], "20");
        check(names[i], given_flags() == 0 && given_numbers() == 1u << i);
    }
}

static void give_all_numbers(void)
{
    node("width", "21");
    node("height", "22");
    node("multi-touch-num-contacts", "23");
    node("multi-touch-width", "24");
    node("multi-touch-height", "25");
}

static void numbers(void)
{
    settings = thayarqo_fresh_settings();
    give_all_numbers();
    check("settings.width", settings.width.value == 21);
    check("settings.height", settings.height.value == 22);
    check("settings.contacts", settings.contacts.value == 23);
    check("settings.touch_width", settings.touch_width.value == 24);
    check("settings.touch_height", settings.touch_height.value == 25);
    struct thayarqo_closed closed = thayarqo_close(settings);
    check("closed.width", closed.width == 21);
    check("closed.height", closed.height == 22);
    check("closed.contacts", closed.contacts == 23);
    check("closed.touch_width", closed.touch_width == 24);
    check("closed.touch_height", closed.touch_height == 25);
}

static unsigned modes(struct thayarqo_closed closed)
{
    return closed.absolute | closed.multi_touch << 1 | closed.raw << 2 | closed.disable_keyboard << 3 | closed.disable_pointer << 4;
}

/* The settings are set by their own names here, and not by nodes. */
static void fields_of_closed(void)
{
    settings = thayarqo_fresh_settings();
    settings.feature_abs_pointer = settings.request_abs_pointer = true;
    struct thayarqo_closed refused = thayarqo_close(settings);
    check("closed.answer", refused.answer == THAYARQO_BAD_SETTING && modes(refused) == 0);
    give_all_numbers();
    check("closed.absolute", modes(thayarqo_close(settings)) == 1);
    settings.feature_raw_pointer = settings.request_raw_pointer = true;
    check("closed.raw", modes(thayarqo_close(settings)) == 5);
    settings.request_abs_pointer = false;
    settings.feature_multi_touch = settings.request_multi_touch = true;
    check("closed.multi_touch", modes(thayarqo_close(settings)) == 2);
    settings.request_multi_touch = false;
    settings.feature_disable_keyboard = true;
    check("closed.disable_keyboard", modes(thayarqo_close(settings)) == 8);
    settings.feature_disable_keyboard = false;
    settings.feature_disable_pointer = true;
    check("closed.disable_pointer", modes(thayarqo_close(settings)) == 16);
}

int main(void)
{
    fields_of_settings();
    fields_of_parameters();
    numbers();
    fields_of_closed();
    return broken;
}
