/*
 * Revision 1 of the device: the records that a packet gives there, and the guest's reader of them.
 *
 * What thayarqo.h says of every call holds here too: how answers are ordered, what a refusal leaves, which pointers may be lent, and
 * in which order shared bytes are loaded and stored.
 *
 * The 8 bytes of a record are flags (16 bits), revision (16 bits), which is 1, and data (32 bits). A packet gives these records, in this
 * order, each with one flag:
 *
 *     RELATIVE   if it has REL_X or REL_Y: X in the low half of data, Y in the high half, both signed; a missing one is 0
 *     ABSOLUTE   if it has ABS_X or ABS_Y: X in the low half of data, Y in the high half; a missing one is that of the device's position
 *     a button   for each BTN_LEFT, BTN_RIGHT and BTN_MIDDLE, in the packet's order: down if the value isn't 0, else up; data is 0
 *     VWHEEL     if it has REL_WHEEL: data is the value
 *     FENCE      always: data is 0
 *
 * The values of REL_X and REL_Y are signed. Each is multiplied by the acceleration, divided by 10 and cut towards zero; the wheel's is
 * put as it is.
 *
 * What follows has no form in revision 1: any other event; REL_X, REL_Y, ABS_X, ABS_Y or REL_WHEEL for the second time; motion that is
 * outside -32768 to 32767 when it is scaled; an absolute value above 65535. A button may come again.
 */
#ifndef THAYARQO_REVISION1_H
#define THAYARQO_REVISION1_H

#include "thayarqo_answers.h"
#include "thayarqo_geometry.h"

#include <stddef.h>
#include <stdint.h>

#ifdef __cplusplus
extern "C" {
#endif

enum thayarqo_flag {
    THAYARQO_FLAG_ABSOLUTE = 0x001,
    THAYARQO_FLAG_RELATIVE = 0x002,
    THAYARQO_FLAG_FENCE = 0x004,
    THAYARQO_FLAG_LEFT_BUTTON_DOWN = 0x008,
    THAYARQO_FLAG_LEFT_BUTTON_UP = 0x010,
    THAYARQO_FLAG_RIGHT_BUTTON_DOWN = 0x020,
    THAYARQO_FLAG_RIGHT_BUTTON_UP = 0x040,
    THAYARQO_FLAG_MIDDLE_BUTTON_DOWN = 0x080,
    THAYARQO_FLAG_MIDDLE_BUTTON_UP = 0x100,
    THAYARQO_FLAG_HWHEEL = 0x200, /* the device never puts it */
    THAYARQO_FLAG_VWHEEL = 0x400
};

/* ---- The guest's reader in revision 1 ---- */

/* Where answer isn't 0, all else is 0. */
struct thayarqo_taken {
    uint8_t answer;
    uint16_t flags; /* enum thayarqo_flag */
    uint16_t revision;
    uint32_t data;
};

/*
 * Takes the oldest record, and hands back its first 8 bytes, whatever they are. Answers 1, 10, 11: 1 for the geometry and the area
 * alone, since there is no state. Changes READ_PTR, which moves on by one.
 *
 * The records up to a FENCE, which is any record that has its flag, are a packet, whole. Those that were taken since the last FENCE
 * are none yet: the rest of their packet is to come.
 */
struct thayarqo_taken thayarqo_revision1_step(struct thayarqo_geometry geometry, uint8_t *area, size_t area_length);

#ifdef __cplusplus
}
#endif
#endif
