/*
 * The numbers that every call answers.
 */
#ifndef THAYARQO_ANSWERS_H
#define THAYARQO_ANSWERS_H

enum thayarqo_answer {
    THAYARQO_DONE = 0,
    THAYARQO_INVALID = 1,          /* geometry not allowed, buffer of another length, or state that breaks a rule */
    THAYARQO_BAD_ACCESS = 2,       /* not 4 bytes wide, not at a multiple of 4, or past the BAR */
    THAYARQO_READ_ONLY = 3,        /* a write to a read-only place */
    THAYARQO_NO_REGISTER = 4,      /* no register at this offset of the first page */
    THAYARQO_DEVICE_OFF = 5,       /* a packet while the device is off */
    THAYARQO_BAD_SLOT = 6,         /* out of range; taken, at an add; absent, at a remove, a packet, a lookup */
    THAYARQO_NO_ROOM = 7,          /* too little room */
    THAYARQO_NOT_OFFERED = 8,      /* an event that the slot doesn't offer, or that has no form in revision 1 */
    THAYARQO_MALFORMED = 9,        /* a badly formed packet, entry, event or record */
    THAYARQO_BAD_INDEX = 10,       /* the other end's index is impossible */
    THAYARQO_NOTHING_TO_READ = 11, /* the ring is empty */
    THAYARQO_BAD_SETTING = 12      /* a bad node text, or settings that lack what a mode needs */
};

#endif
