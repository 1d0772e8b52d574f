/*
 * The structs are as the library has them: the place of each field, and each size. A compiler that lays one out otherwise can't be
 * used with the library.
 */
#ifndef THAYARQO_LAYOUT_H
#define THAYARQO_LAYOUT_H

#include "thayarqo.h"

#ifdef __cplusplus
#define THAYARQO_ASSERT(what) static_assert(what, #what)
#else
#define THAYARQO_ASSERT(what) _Static_assert(what, #what)
#endif
#define THAYARQO_AT(name, field, place) THAYARQO_ASSERT(offsetof(struct thayarqo_##name, field) == place)
#define THAYARQO_SIZE(name, size) THAYARQO_ASSERT(sizeof(struct thayarqo_##name) == size)

THAYARQO_AT(geometry, pages, 0);
THAYARQO_AT(geometry, record_size, 4);
THAYARQO_AT(geometry, entry_size, 8);
THAYARQO_SIZE(geometry, 12);

THAYARQO_AT(position, x, 0);
THAYARQO_AT(position, y, 2);
THAYARQO_SIZE(position, 4);

THAYARQO_AT(device, on, 0);
THAYARQO_AT(device, interrupts, 1);
THAYARQO_AT(device, isr, 2);
THAYARQO_AT(device, client_rev_written, 3);
THAYARQO_AT(device, client_rev, 4);
THAYARQO_AT(device, acceleration, 6);
THAYARQO_AT(device, write_index, 8);
THAYARQO_AT(device, current_slot, 12);
THAYARQO_AT(device, position, 16);
THAYARQO_AT(device, lost, 20);
THAYARQO_AT(device, taken, 24);
THAYARQO_SIZE(device, 32);

THAYARQO_AT(event, type, 0);
THAYARQO_AT(event, code, 2);
THAYARQO_AT(event, value, 4);
THAYARQO_SIZE(event, 8);

THAYARQO_AT(value, answer, 0);
THAYARQO_AT(value, value, 4);
THAYARQO_SIZE(value, 8);

THAYARQO_AT(driver, slot, 0);
THAYARQO_AT(driver, held, 4);
THAYARQO_AT(driver, overlong, 8);
THAYARQO_AT(driver, spoiled, 9);
THAYARQO_AT(driver, ignoring, 10);
THAYARQO_SIZE(driver, 12);

THAYARQO_AT(told, answer, 0);
THAYARQO_AT(told, what, 1);
THAYARQO_AT(told, slot, 4);
THAYARQO_AT(told, count, 8);
THAYARQO_SIZE(told, 12);

THAYARQO_AT(copied, answer, 0);
THAYARQO_AT(copied, count, 4);
THAYARQO_SIZE(copied, 8);

THAYARQO_AT(taken, answer, 0);
THAYARQO_AT(taken, flags, 2);
THAYARQO_AT(taken, revision, 4);
THAYARQO_AT(taken, data, 8);
THAYARQO_SIZE(taken, 12);

THAYARQO_AT(ring_event, kind, 0);
THAYARQO_AT(ring_event, subtype, 1);
THAYARQO_AT(ring_event, contact, 2);
THAYARQO_AT(ring_event, pressed, 3);
THAYARQO_AT(ring_event, x, 4);
THAYARQO_AT(ring_event, y, 8);
THAYARQO_AT(ring_event, z, 12);
THAYARQO_AT(ring_event, keycode, 16);
THAYARQO_AT(ring_event, major, 20);
THAYARQO_AT(ring_event, minor, 24);
THAYARQO_AT(ring_event, orientation, 28);
THAYARQO_SIZE(ring_event, 32);

THAYARQO_AT(ring_found, answer, 0);
THAYARQO_AT(ring_found, event, 4);
THAYARQO_SIZE(ring_found, 36);

THAYARQO_AT(parameter, given, 0);
THAYARQO_AT(parameter, value, 4);
THAYARQO_SIZE(parameter, 8);

THAYARQO_AT(settings, feature_disable_keyboard, 0);
THAYARQO_AT(settings, feature_disable_pointer, 1);
THAYARQO_AT(settings, feature_abs_pointer, 2);
THAYARQO_AT(settings, feature_multi_touch, 3);
THAYARQO_AT(settings, feature_raw_pointer, 4);
THAYARQO_AT(settings, request_abs_pointer, 5);
THAYARQO_AT(settings, request_multi_touch, 6);
THAYARQO_AT(settings, request_raw_pointer, 7);
THAYARQO_AT(settings, width, 8);
THAYARQO_AT(settings, height, 16);
THAYARQO_AT(settings, contacts, 24);
THAYARQO_AT(settings, touch_width, 32);
THAYARQO_AT(settings, touch_height, 40);
THAYARQO_SIZE(settings, 48);

THAYARQO_AT(closed, answer, 0);
THAYARQO_AT(closed, absolute, 1);
THAYARQO_AT(closed, multi_touch, 2);
THAYARQO_AT(closed, raw, 3);
THAYARQO_AT(closed, disable_keyboard, 4);
THAYARQO_AT(closed, disable_pointer, 5);
THAYARQO_AT(closed, width, 8);
THAYARQO_AT(closed, height, 12);
THAYARQO_AT(closed, contacts, 16);
THAYARQO_AT(closed, touch_width, 20);
THAYARQO_AT(closed, touch_height, 24);
THAYARQO_SIZE(closed, 28);

#undef THAYARQO_SIZE
#undef THAYARQO_AT
#undef THAYARQO_ASSERT
#endif
