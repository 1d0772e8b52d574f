// Builds the page of crates/kbdif_sample_page with the structs and macros of Xen's header, and prints it as that program
// does. Then prints the ring's constants, and the offset and size of each field that is used.
#include <stddef.h>
#include <stdint.h>
#include <stdio.h>
#include <stdlib.h>

#include <xen/io/kbdif.h>

#define PAGE_LENGTH 4096

#define PRINT_CONSTANT(name) printf("%s %d\n", #name, (int)(name))

#define PRINT_FIELD(type, member) \
    printf("%s %zu %zu\n", #member, offsetof(type, member), sizeof(((type *)0)->member))

#define PRINT_EVENT_FIELD(member) PRINT_FIELD(union xenkbd_in_event, member)

// Counts the next event as put, and gives its place.
static union xenkbd_in_event *next_event(struct xenkbd_page *page)
{
    uint32_t index = page->in_prod++;

    return &XENKBD_IN_RING_REF(page, index);
}

static void put_pointer_and_key(struct xenkbd_page *page)
{
    struct xenkbd_motion *motion = &next_event(page)->motion;
    struct xenkbd_key *key = &next_event(page)->key;
    struct xenkbd_position *position = &next_event(page)->pos;

    motion->type = XENKBD_TYPE_MOTION;
    motion->rel_x = -2;
    motion->rel_y = -305419896;
    motion->rel_z = INT32_MIN;

    key->type = XENKBD_TYPE_KEY;
    key->pressed = 1;
    key->keycode = 3735928559;

    position->type = XENKBD_TYPE_POS;
    position->abs_x = 16909060;
    position->abs_y = -1;
    position->rel_z = -120;
}

static struct xenkbd_mtouch *put_touch(struct xenkbd_page *page, uint8_t event_type, uint8_t contact_id)
{
    struct xenkbd_mtouch *touch = &next_event(page)->mtouch;

    touch->type = XENKBD_TYPE_MTOUCH;
    touch->event_type = event_type;
    touch->contact_id = contact_id;
    return touch;
}

static void put_touches(struct xenkbd_page *page)
{
    struct xenkbd_mtouch *touch = put_touch(page, XENKBD_MT_EV_DOWN, 31);

    touch->u.pos.abs_x = -32769;
    touch->u.pos.abs_y = INT32_MAX;

    put_touch(page, XENKBD_MT_EV_UP, 30);

    touch = put_touch(page, XENKBD_MT_EV_MOTION, 16);
    touch->u.pos.abs_x = 287454020;
    touch->u.pos.abs_y = -65536;

    put_touch(page, XENKBD_MT_EV_SYN, 1);
}

static void put_shape_and_orientation(struct xenkbd_page *page)
{
    struct xenkbd_mtouch *touch = put_touch(page, XENKBD_MT_EV_SHAPE, 2);

    touch->u.shape.major = UINT32_MAX;
    touch->u.shape.minor = 2147483648;

    put_touch(page, XENKBD_MT_EV_ORIENT, 3)->u.orientation = -180;
}

static void print_bytes(const unsigned char *page, size_t begin, size_t length)
{
    printf("%zu:", begin);
    for (size_t i = begin; i < begin + length; i++)
        printf(" %d", page[i]);
    printf("\n");
}

// An event is found by its type, which isn't 0.
static void print_page(const unsigned char *page)
{
    size_t at = 2 * sizeof(uint32_t);

    print_bytes(page, 0, at);
    while (at + XENKBD_IN_EVENT_SIZE <= PAGE_LENGTH) {
        if (page[at] == 0) {
            at++;
        } else {
            print_bytes(page, at, XENKBD_IN_EVENT_SIZE);
            at += XENKBD_IN_EVENT_SIZE;
        }
    }
}

static void print_numbers(void)
{
    PRINT_CONSTANT(XENKBD_IN_RING_OFFS);
    PRINT_CONSTANT(XENKBD_IN_EVENT_SIZE);
    PRINT_CONSTANT(XENKBD_IN_RING_LEN);
    PRINT_FIELD(struct xenkbd_page, in_cons);
    PRINT_FIELD(struct xenkbd_page, in_prod);
    PRINT_EVENT_FIELD(motion.type);
    PRINT_EVENT_FIELD(motion.rel_x);
    PRINT_EVENT_FIELD(motion.rel_y);
    PRINT_EVENT_FIELD(motion.rel_z);
    PRINT_EVENT_FIELD(key.type);
    PRINT_EVENT_FIELD(key.pressed);
    PRINT_EVENT_FIELD(key.keycode);
    PRINT_EVENT_FIELD(pos.type);
    PRINT_EVENT_FIELD(pos.abs_x);
    PRINT_EVENT_FIELD(pos.abs_y);
    PRINT_EVENT_FIELD(pos.rel_z);
    PRINT_EVENT_FIELD(mtouch.type);
    PRINT_EVENT_FIELD(mtouch.event_type);
    PRINT_EVENT_FIELD(mtouch.contact_id);
    PRINT_EVENT_FIELD(mtouch.u.pos.abs_x);
    PRINT_EVENT_FIELD(mtouch.u.pos.abs_y);
    PRINT_EVENT_FIELD(mtouch.u.shape.major);
    PRINT_EVENT_FIELD(mtouch.u.shape.minor);
    PRINT_EVENT_FIELD(mtouch.u.orientation);
}

int main(void)
{
    struct xenkbd_page *page = calloc(1, PAGE_LENGTH);

    if (page == NULL)
        return EXIT_FAILURE;
    page->in_cons = 48;
    page->in_prod = 48;
    put_pointer_and_key(page);
    put_touches(page);
    put_shape_and_orientation(page);
    print_page((const unsigned char *)page);
    print_numbers();
    free(page);
    return EXIT_SUCCESS;
}
