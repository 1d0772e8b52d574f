/* Little-endian words in bytes. */
#ifndef WORDS_H
#define WORDS_H

#include <endian.h>
#include <stdint.h>
#include <string.h>

static inline uint16_t load_u16(const uint8_t *bytes)
{
    uint16_t word;
    memcpy(&word, bytes, sizeof word);
    return le16toh(word);
}

static inline uint32_t load_u32(const uint8_t *bytes)
{
    uint32_t word;
    memcpy(&word, bytes, sizeof word);
    return le32toh(word);
}

static inline void store_u16(uint8_t *bytes, uint16_t word)
{
    word = htole16(word);
    memcpy(bytes, &word, sizeof word);
}

static inline void store_u32(uint8_t *bytes, uint32_t word)
{
    word = htole32(word);
    memcpy(bytes, &word, sizeof word);
}

static inline void store_event(uint8_t *bytes, uint16_t type, uint16_t code, uint32_t value)
{
    store_u16(bytes, type);
    store_u16(bytes + 2, code);
    store_u32(bytes + 4, value);
}

#endif
