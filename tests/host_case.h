/* For the tests of the C library: the lines of their cases, and lent memory that is compared whole. */
#ifndef HOST_CASE_H
#define HOST_CASE_H

#include <stdbool.h>
#include <stddef.h>
#include <stdint.h>
#include <stdio.h>
#include <stdlib.h>
#include <string.h>

/*
 * The guard bytes on each side of lent memory. Built with 0, the memory ends where its block of the heap does, so that valgrind sees
 * a read past it, too.
 */
#ifndef GUARD
#define GUARD 64
#endif
enum { GUARD_BYTE = 0xA5 };

static int broken;

static inline void check(const char *name, bool right)
{
    printf("%s %s%s\n", right ? "ok" : "not ok", name, right ? "" : ": not as expected");
    broken |= !right;
}

static inline bool is_answer(unsigned expected, unsigned answer)
{
    if (answer != expected)
        printf("    answered %u instead of %u\n", answer, expected);
    return answer == expected;
}

/* ---- lent memory ---- */

/* The bytes that a call is lent, and what has to be in them after it. */
struct lent {
    const char *name;
    uint8_t *bytes;
    uint8_t *expected;
    size_t length;
};

static inline struct lent lend(const char *name, size_t length, uint8_t inside)
{
    struct lent lent = {name, (uint8_t *)malloc(GUARD + length + GUARD), (uint8_t *)malloc(length), length};
    if (lent.bytes == NULL || lent.expected == NULL)
        abort();
    memset(lent.bytes, GUARD_BYTE, GUARD + length + GUARD);
    lent.bytes += GUARD;
    memset(lent.bytes, inside, length);
    memset(lent.expected, inside, length);
    return lent;
}

static inline struct lent lend_copy(const char *name, const void *bytes, size_t length)
{
    struct lent lent = lend(name, length, 0);
    memcpy(lent.bytes, bytes, length);
    memcpy(lent.expected, bytes, length);
    return lent;
}

static inline void release(struct lent *lent)
{
    free(lent->bytes - GUARD);
    free(lent->expected);
}

static inline bool is_guarded(const struct lent *lent)
{
    const uint8_t *before = lent->bytes - GUARD, *after = lent->bytes + lent->length;
    bool whole = true;
    for (int i = 0; i < GUARD; i++)
        whole &= before[i] == GUARD_BYTE && after[i] == GUARD_BYTE;
    if (!whole)
        printf("    %s: a byte beside it has changed\n", lent->name);
    return whole;
}

static inline bool is_as_expected(const struct lent *lent)
{
    for (size_t i = 0; i < lent->length; i++)
        if (lent->bytes[i] != lent->expected[i]) {
            printf("    %s: byte %zu is %u instead of %u\n", lent->name, i, lent->bytes[i], lent->expected[i]);
            return false;
        }
    return is_guarded(lent);
}

/* Ends the loan of bytes that a call may only read. */
static inline bool came_back_whole(struct lent *lent)
{
    bool whole = is_as_expected(lent);
    release(lent);
    return whole;
}

/* ---- little-endian words ---- */

static inline uint32_t word(const struct lent *lent, size_t at)
{
    const uint8_t *b = lent->bytes + at;
    return b[0] | (uint32_t)b[1] << 8 | (uint32_t)b[2] << 16 | (uint32_t)b[3] << 24;
}

static inline void set_word(uint8_t *bytes, size_t at, uint32_t value)
{
    for (int i = 0; i < 4; i++)
        bytes[at + i] = (uint8_t)(value >> 8 * i);
}

/* What a call has to write. */
static inline void expect_word(struct lent *lent, size_t at, uint32_t value)
{
    set_word(lent->expected, at, value);
}

/* What the test itself writes. */
static inline void store_word(struct lent *lent, size_t at, uint32_t value)
{
    set_word(lent->bytes, at, value);
    set_word(lent->expected, at, value);
}

#endif
