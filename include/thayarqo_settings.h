/*
 * Node settings of the Xen keyboard ring: nodes come one at a time, then the settings are closed.
 *
 * What thayarqo.h says of every call holds here too.
 */
#ifndef THAYARQO_SETTINGS_H
#define THAYARQO_SETTINGS_H

#include "thayarqo_answers.h"

#include <stdbool.h>
#include <stddef.h>
#include <stdint.h>

#ifdef __cplusplus
extern "C" {
#endif

/* A numeric node. */
struct thayarqo_parameter {
    bool given;
    uint32_t value;
};

struct thayarqo_settings {
    bool feature_disable_keyboard;
    bool feature_disable_pointer;
    bool feature_abs_pointer;
    bool feature_multi_touch;
    bool feature_raw_pointer;
    bool request_abs_pointer;
    bool request_multi_touch;
    bool request_raw_pointer;
    struct thayarqo_parameter width;
    struct thayarqo_parameter height;
    struct thayarqo_parameter contacts;     /* multi-touch-num-contacts */
    struct thayarqo_parameter touch_width;  /* multi-touch-width */
    struct thayarqo_parameter touch_height; /* multi-touch-height */
};

/* Where answer isn't 0, all else is 0 and false. A number that wasn't given is 0. */
struct thayarqo_closed {
    uint8_t answer;
    bool absolute;
    bool multi_touch;
    bool raw;
    bool disable_keyboard;
    bool disable_pointer;
    uint32_t width;
    uint32_t height;
    uint32_t contacts;
    uint32_t touch_width;
    uint32_t touch_height;
};

/* Settings with no node given: flags false, numbers 0 and not given. */
struct thayarqo_settings thayarqo_fresh_settings(void);

/*
 * One node. Answers 12 for a bad value of a name that is meant here, and changes nothing then. A flag is "0" or "1"; a number is 1 to
 * 10 digits, with no sign and no leading zero but "0" itself, at most 4294967295. Otherwise it answers 0 and changes the one setting of
 * that name, also where it was given before; a name that isn't meant changes nothing. Texts have no byte 0 at their end.
 */
uint8_t thayarqo_node(struct thayarqo_settings *settings, const uint8_t *name, size_t name_length,
                      const uint8_t *value, size_t value_length);

/*
 * The modes, once all nodes have come. Answers 12 where a mode lacks a node: absolute without raw needs width and height, multi-touch
 * its three nodes with 1 to 32 contacts. Changes nothing.
 */
struct thayarqo_closed thayarqo_close(struct thayarqo_settings settings);

#ifdef __cplusplus
}
#endif
#endif
