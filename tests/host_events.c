/* Events of the keyboard ring through the C library: encoded and decoded, and every byte of the lent memory compared. */
#include "host_samples.h"

/* Encodes into memory of any length. */
static void encodes(const char *name, uint8_t answer, size_t length, const struct sample *sample)
{
    struct lent out = lend("out", length, 0xCC);
    if (answer == THAYARQO_DONE)
        write_bytes(out.expected, sample);
    bool right = is_answer(answer, thayarqo_ring_encode(out.bytes, length, sample->event));
    check(name, came_back_whole(&out) && right);
}

static void decodes(const char *name, uint8_t answer, struct thayarqo_ring_event event,
                    const uint8_t *bytes, size_t length, uint32_t limit)
{
    struct lent input = lend_copy("bytes", bytes, length);
    bool right = is_found(answer, event, thayarqo_ring_decode(input.bytes, length, limit));
    check(name, came_back_whole(&input) && right);
}

static void encode_and_decode_each_kind(void)
{
    uint8_t bytes[EVENT];
    for (int i = 0; i < SAMPLES; i++) {
        write_bytes(bytes, &samples[i]);
        encodes(samples[i].name, THAYARQO_DONE, EVENT, &samples[i]);
        decodes(samples[i].name, THAYARQO_DONE, samples[i].event, bytes, EVENT, LIMIT);
    }
}

static void refuse_to_encode(void)
{
    struct sample other = key(1), far = samples[TOUCH];
    encodes("39 bytes to encode into", THAYARQO_INVALID, EVENT - 1, &other);
    encodes("41 bytes to encode into", THAYARQO_INVALID, EVENT + 1, &other);
    encodes("no bytes to encode into", THAYARQO_INVALID, 0, &other);
    other.event.kind = 2;
    encodes("another kind", THAYARQO_MALFORMED, EVENT, &other);
    other.event.kind = THAYARQO_RING_TOUCH;
    other.event.subtype = 6;
    encodes("another subtype", THAYARQO_MALFORMED, EVENT, &other);
    far.event.contact = far.head[2] = 255;
    encodes("a contact past any limit is encoded", THAYARQO_DONE, EVENT, &far);
}

/* What an event doesn't have isn't looked at. */
static void encode_with_other_numbers(void)
{
    struct sample sample = key(5);
    sample.event.subtype = 9;
    sample.event.contact = 200;
    sample.event.x = sample.event.y = sample.event.z = -1;
    sample.event.major = sample.event.minor = UINT32_MAX;
    sample.event.orientation = -1;
    encodes("a key with numbers of other events", THAYARQO_DONE, EVENT, &sample);
}

static void refuse_to_decode(void)
{
    uint8_t bytes[EVENT + 1] = {0};
    struct sample sample = key(1);
    write_bytes(bytes, &sample);
    decodes("39 bytes to decode", THAYARQO_INVALID, unknown, bytes, EVENT - 1, LIMIT);
    decodes("41 bytes to decode", THAYARQO_INVALID, unknown, bytes, EVENT + 1, LIMIT);
    decodes("no bytes to decode", THAYARQO_INVALID, unknown, bytes, 0, LIMIT);
    decodes("a limit of 0", THAYARQO_INVALID, unknown, bytes, EVENT, 0);
    decodes("a limit of 33", THAYARQO_INVALID, unknown, bytes, EVENT, 33);
    decodes("a limit of 32", THAYARQO_DONE, sample.event, bytes, EVENT, 32);
    write_bytes(bytes, &samples[TOUCH]);
    decodes("a contact at the limit", THAYARQO_MALFORMED, unknown, bytes, EVENT, CONTACT);
    bytes[1] = 6;
    decodes("another subtype is unknown", THAYARQO_DONE, unknown, bytes, EVENT, LIMIT);
    memset(bytes, 0xFF, EVENT);
    decodes("another type is unknown", THAYARQO_DONE, unknown, bytes, EVENT, LIMIT);
}

static void refuse_reserved_bytes(void)
{
    uint8_t bytes[EVENT];
    write_bytes(bytes, &samples[KEY]);
    bytes[1] = 2;
    decodes("pressed is 2", THAYARQO_MALFORMED, unknown, bytes, EVENT, LIMIT);
    bytes[1] = 1;
    for (int i = 2; i < EVENT; i++) {
        char name[24];
        uint8_t reserved = i < 4 || i >= 8;
        snprintf(name, sizeof name, "%s byte %d", reserved ? "reserved" : "keycode's", i);
        bytes[i] ^= 1;
        if (reserved)
            decodes(name, THAYARQO_MALFORMED, unknown, bytes, EVENT, LIMIT);
        else
            decodes(name, THAYARQO_DONE, key(UINT32_MAX ^ 1u << 8 * (i - 4)).event, bytes, EVENT, LIMIT);
        bytes[i] ^= 1;
    }
}

int main(void)
{
    encode_and_decode_each_kind();
    refuse_to_encode();
    encode_with_other_numbers();
    refuse_to_decode();
    refuse_reserved_bytes();
    return broken;
}
