#include "compare.h"

#include "call.h"
#include "random.h"
#include "words.h"

#include <stdio.h>
#include <stdlib.h>

enum { WORLDS = 250, CALLS = 400, ANSWERS = 13 };

static struct world valid, one, other;
static unsigned seen[3][CALL_KINDS][ANSWERS]; /* by revision */

static struct thayarqo_geometry draw_geometry(uint64_t *seed)
{
    return (struct thayarqo_geometry){1 + below(seed, 8), 8u << below(seed, 4), 68 + 4 * below(seed, 48)};
}

static uint32_t revision_of(const struct world *world)
{
    return world->device.client_rev == 2 ? 2 : 1;
}

/* Runs a call by the library and by another, each in a world of its own. */
static void compare_call(const struct contestant *contestant, const struct call *call)
{
    other = one;
    struct reply expected = make_call(&contestants[0], &one, call);
    struct reply reply = make_call(contestant, &other, call);
    seen[revision_of(&one)][call->kind][expected.numbers[0]]++;
    if (memcmp(&expected, &reply, sizeof reply) == 0 && same(&one, &other))
        return;
    fprintf(stderr, "bench: %s differs from the library at call %d: %lld and %lld\n", contestant->name, (int)call->kind,
            (long long)reply.numbers[0], (long long)expected.numbers[0]);
    exit(1);
}

static void compare_hostile(const struct contestant *contestant, uint64_t *seed)
{
    struct call call = draw_call(seed, &valid);
    bool spoilt = below(seed, 2) == 0;
    one = valid;
    if (spoilt)
        spoil(seed, &call, &one);
    compare_call(contestant, &call);
    if (!spoilt)
        valid = one;
}

/* Traffic that always has room, read as the revision's guest reads it, which is all that a version without tests can do. */
static void compare_valid(const struct contestant *contestant, uint64_t *seed)
{
    struct call call = draw_call(seed, &one);
    uint32_t length = ring_length(&one);
    uint32_t unread = (one.device.write_index + length - load_u32(one.area)) % length;
    enum call_kind reading = revision_of(&one) == 2 ? STEP : REVISION1_STEP;
    if (call.kind == PUT_PACKET && unread + 34 > length - 1)
        call.kind = reading;
    if (call.kind == STEP || call.kind == REVISION1_STEP || call.kind == COPY_OUT)
        call.kind = reading;
    if (call.kind == RING_PUT && one.in_prod - one.in_cons == 51)
        call.kind = RING_TAKE;
    compare_call(contestant, &call);
}

/* A copy-out that ends between two packets, so that the driver can go on. */
static void compare_full_copy(const struct contestant *contestant)
{
    struct call call = {.kind = COPY_OUT, .area_length = area_length(&one), .limit = UINT32_MAX, .out_length = OUT};
    compare_call(contestant, &call);
    one.driver.held = 0;
}

/* An answer that never came would mean that its test was never compared. */
static void expect_all_answers(uint32_t revision)
{
    static const bool given[CALL_KINDS][ANSWERS] = {
        [PUT_PACKET] = {[0] = true, [1] = true, [5] = true, [6] = true, [7] = true, [8] = true, [9] = true, [10] = true},
        [STEP] = {[0] = true, [1] = true, [9] = true, [10] = true, [11] = true},
        [COPY_OUT] = {[0] = true, [1] = true, [10] = true, [11] = true},
        [REVISION1_STEP] = {[0] = true, [1] = true, [10] = true, [11] = true},
        [READ] = {[0] = true, [1] = true, [2] = true, [4] = true},
        [RING_ENCODE] = {[0] = true, [1] = true, [9] = true},
        [RING_PUT] = {[0] = true, [1] = true, [7] = true, [9] = true, [10] = true},
        [RING_TAKE] = {[0] = true, [1] = true, [9] = true, [10] = true, [11] = true},
    };
    for (int kind = 0; kind < CALL_KINDS; kind++)
        for (int answer = 0; answer < ANSWERS; answer++)
            if (given[kind][answer] && seen[revision][kind][answer] == 0) {
                fprintf(stderr, "bench: no call %d was answered %d in revision %u\n", kind, answer, revision);
                exit(1);
            }
}

static void compare_world(uint64_t *seed, uint32_t client_rev)
{
    struct thayarqo_geometry geometry = draw_geometry(seed);
    uint32_t slots = 4096 / geometry.entry_size;
    start(&valid, geometry, slots, client_rev);
    valid.device.acceleration = (uint16_t)(1 + below(seed, 20));
    for (int i = 0; i < CALLS; i++)
        compare_hostile(&contestants[1], seed);
    start(&one, geometry, slots, client_rev);
    one.device.acceleration = valid.device.acceleration;
    for (int i = 0; i < CALLS; i++)
        compare_valid(&contestants[2], seed);
    compare_full_copy(&contestants[2]);
}

void compare_contestants(void)
{
    uint64_t seed = 0x7468617961727171;
    for (uint32_t world = 0; world < WORLDS; world++) {
        compare_world(&seed, world % 2); /* revision 1: CLIENT_REV was never written, or is 1 */
        compare_world(&seed, 2);
    }
    expect_all_answers(1);
    expect_all_answers(2);
    printf("Same answers and bytes as the library, in each revision: checked in %d valid and hostile calls, bare in %d valid ones.\n",
           WORLDS * CALLS, WORLDS * (CALLS + 1));
}
