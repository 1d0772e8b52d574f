/*
 * The keyboard ring through the C library: each kind of event put and taken, a full ring, impossible indices, the turn of the indices,
 * malformed events. After each call every byte of the page and both indices are compared with what they have to be.
 */
#include "host_samples.h"

enum { PAGE = THAYARQO_RING_PAGE_LENGTH, EVENTS = 1024, RING = 51 };
enum { IN_CONS = 0, IN_PROD = 4 };

static struct lent page, prod_memory, cons_memory;
static uint32_t *in_prod, *in_cons, next_prod, next_cons;
static bool inputs_whole = true;

static bool is_all_expected(void)
{
    bool right = *in_prod == next_prod && *in_cons == next_cons;
    if (!right)
        printf("    in_prod is %u, in_cons is %u\n", (unsigned)*in_prod, (unsigned)*in_cons);
    return is_as_expected(&page) && is_guarded(&prod_memory) && is_guarded(&cons_memory) && right && inputs_whole;
}

static void answers(const char *name, uint8_t expected, uint8_t answer)
{
    bool right = is_answer(expected, answer);
    check(name, is_all_expected() && right);
}

static void finds(const char *name, uint8_t answer, struct thayarqo_ring_event event, struct thayarqo_ring_found found)
{
    bool right = is_found(answer, event, found);
    check(name, is_all_expected() && right);
}

/* ---- the calls, with the page and the indices of this test ---- */

static void start(uint32_t index)
{
    memset(page.bytes, 0, PAGE);
    memset(page.expected, 0, PAGE);
    *in_prod = *in_cons = next_prod = next_cons = index;
    store_word(&page, IN_PROD, index);
    store_word(&page, IN_CONS, index);
}

static uint8_t put_with(size_t page_length, uint32_t limit, const uint8_t *bytes, size_t length)
{
    struct lent event = lend_copy("event", bytes, length);
    uint8_t answer = thayarqo_ring_put(page.bytes, page_length, in_prod, limit, event.bytes, length);
    inputs_whole &= came_back_whole(&event);
    return answer;
}

static uint8_t put(const uint8_t *bytes)
{
    return put_with(PAGE, LIMIT, bytes, EVENT);
}

static void puts_event(const struct sample *sample)
{
    uint8_t bytes[EVENT];
    write_bytes(bytes, sample);
    memcpy(page.expected + EVENTS + EVENT * (next_prod % RING), bytes, EVENT);
    expect_word(&page, IN_PROD, ++next_prod);
    answers(sample->name, THAYARQO_DONE, put(bytes));
}

static void refuses_key(const char *name, uint8_t answer)
{
    uint8_t bytes[EVENT];
    struct sample sample = key(99);
    write_bytes(bytes, &sample);
    answers(name, answer, put(bytes));
}

static struct thayarqo_ring_found take(void)
{
    return thayarqo_ring_take(page.bytes, PAGE, in_cons, LIMIT);
}

/* A take that consumes an event. */
static struct thayarqo_ring_found consume(void)
{
    expect_word(&page, IN_CONS, ++next_cons);
    return take();
}

/* Puts bytes where the next take finds them. */
static void scribble(const uint8_t *bytes)
{
    memcpy(page.bytes + EVENTS + EVENT * (next_cons % RING), bytes, EVENT);
    memcpy(page.expected + EVENTS + EVENT * (next_cons % RING), bytes, EVENT);
}

/* ---- the cases ---- */

static void put_and_take_each_kind(void)
{
    start(0);
    for (int i = 0; i < SAMPLES; i++)
        puts_event(&samples[i]);
    for (int i = 0; i < SAMPLES; i++)
        finds(samples[i].name, THAYARQO_DONE, samples[i].event, consume());
    finds("then nothing to read", THAYARQO_NOTHING_TO_READ, unknown, take());
}

static void fill_the_ring(void)
{
    start(7);
    for (uint32_t i = 0; i < RING; i++) {
        struct sample sample = key(i);
        puts_event(&sample);
    }
    refuses_key("an event to a full ring", THAYARQO_NO_ROOM);
    for (uint32_t i = 0; i < RING; i++)
        finds("a key, in order", THAYARQO_DONE, key(i).event, consume());
    finds("then no more", THAYARQO_NOTHING_TO_READ, unknown, take());
}

static void meet_impossible_indices(void)
{
    start(100);
    store_word(&page, IN_CONS, 101);
    store_word(&page, IN_PROD, 152);
    refuses_key("in_cons ahead of in_prod", THAYARQO_BAD_INDEX);
    finds("a take 52 events behind", THAYARQO_BAD_INDEX, unknown, take());
    store_word(&page, IN_PROD, 99);
    finds("in_prod behind in_cons", THAYARQO_BAD_INDEX, unknown, take());
    store_word(&page, IN_PROD, 151);
    finds("a take 51 events behind", THAYARQO_DONE, unknown, consume());
}

static void pass_the_turn(void)
{
    start(UINT32_MAX - 1);
    for (uint32_t i = 1; i < 4; i++) {
        struct sample sample = key(i);
        puts_event(&sample);
        finds("a key around 2^32", THAYARQO_DONE, sample.event, consume());
    }
    check("the indices turn to 0", word(&page, IN_PROD) == 1 && word(&page, IN_CONS) == 1);
    check("index 4294967294 has place 50, the next two place 0",
          page.bytes[EVENTS + 50 * EVENT + 4] == 1 && page.bytes[EVENTS + 4] == 3 && page.bytes[EVENTS + EVENT] == 0);
}

static void meet_malformed_events(void)
{
    uint8_t bytes[EVENT];
    start(0);
    write_bytes(bytes, &samples[TOUCH]);
    bytes[2] = LIMIT;
    answers("a put of a contact at the limit", THAYARQO_MALFORMED, put(bytes));
    store_word(&page, IN_CONS, 1);
    answers("also under an impossible in_cons", THAYARQO_MALFORMED, put(bytes));
    store_word(&page, IN_CONS, 0);
    puts_event(&samples[KEY]);
    puts_event(&samples[TOUCH]);
    puts_event(&samples[KEY]);
    scribble(bytes);
    finds("it is consumed", THAYARQO_MALFORMED, unknown, consume());
    finds("the one after it is found", THAYARQO_DONE, samples[TOUCH].event, consume());
    memset(bytes, 0xFF, EVENT);
    answers("what is unknown isn't put", THAYARQO_MALFORMED, put(bytes));
    scribble(bytes);
    finds("but taken", THAYARQO_DONE, unknown, consume());
}

static void refuse_lengths_and_limits(void)
{
    uint8_t bytes[EVENT + 1] = {0};
    start(0);
    puts_event(&samples[KEY]);
    write_bytes(bytes, &samples[KEY]);
    answers("a put to a short page", THAYARQO_INVALID, put_with(PAGE - 1, LIMIT, bytes, EVENT));
    answers("a put of 41 bytes", THAYARQO_INVALID, put_with(PAGE, LIMIT, bytes, EVENT + 1));
    answers("a put of 39 bytes", THAYARQO_INVALID, put_with(PAGE, LIMIT, bytes, EVENT - 1));
    answers("a put at limit 33", THAYARQO_INVALID, put_with(PAGE, 33, bytes, EVENT));
    answers("a put at limit 0", THAYARQO_INVALID, put_with(PAGE, 0, bytes, EVENT));
    finds("a take from a short page", THAYARQO_INVALID, unknown, thayarqo_ring_take(page.bytes, PAGE - 1, in_cons, LIMIT));
    finds("a take at limit 0", THAYARQO_INVALID, unknown, thayarqo_ring_take(page.bytes, PAGE, in_cons, 0));
    finds("a take at limit 33", THAYARQO_INVALID, unknown, thayarqo_ring_take(page.bytes, PAGE, in_cons, 33));
}

int main(void)
{
    page = lend("page", PAGE, 0);
    prod_memory = lend("in_prod", sizeof *in_prod, 0);
    cons_memory = lend("in_cons", sizeof *in_cons, 0);
    in_prod = (uint32_t *)prod_memory.bytes;
    in_cons = (uint32_t *)cons_memory.bytes;
    put_and_take_each_kind();
    fill_the_ring();
    meet_impossible_indices();
    pass_the_turn();
    meet_malformed_events();
    refuse_lengths_and_limits();
    release(&page);
    release(&prod_memory);
    release(&cons_memory);
    return broken;
}
