/* The peer to the harness: libpeer.a through its headers. */
#include "frame.h"
#include "node.h"
#include "numbers.h"

typedef struct node node_t;

static inline int node_set_up(node_t *n, const uint8_t *store, size_t room, const uint8_t *table, size_t length)
{
    (void)store;
    return node_setup(n, room, table, length);
}

static inline int node_opens(node_t *n, unsigned index)
{
    return node_open(n, index);
}

static inline int node_sends(node_t *n, uint8_t *store, size_t room, unsigned index,
                             const uint8_t *payload, size_t length)
{
    return node_send(n, store, room, index, payload, length);
}

static inline int node_plans(node_t *n, uint8_t *store, size_t room, unsigned index,
                             const uint8_t *block, size_t length)
{
    struct planned planned;

    return node_plan(n, store, room, index, block, length, &planned) || planned.stopped;
}

static inline int node_takes(node_t *n, uint8_t *store, size_t room, uint8_t *block, size_t block_room,
                             const uint8_t *frame, size_t length)
{
    struct arrival arrival;

    return node_arrival(n, store, room, block, block_room, frame, length, &arrival);
}

static inline size_t node_hands_out(node_t *n, const uint8_t *store, size_t room, uint8_t *frame, size_t frame_room)
{
    size_t length = 0;

    return node_hand_out(n, store, room, frame, frame_room, &length) == 0 ? length : 0;
}

static inline int node_reports(node_t *n)
{
    return node_frame_end(n);
}

static inline unsigned node_ticks(node_t *n)
{
    return node_tick(n);
}

static inline uint32_t node_confirmed(const node_t *n, unsigned index)
{
    struct counts counts = {0, 0};

    return node_counts(n, index, &counts) == 0 ? counts.confirmed : 0;
}

static inline int reads(const uint8_t *bytes, size_t length)
{
    struct frame frame;

    return frame_read(bytes, length, &frame);
}

static inline int writes(uint8_t *buffer, size_t room, const uint8_t *payload, size_t length)
{
    static struct frame frame = {65, 238, 64, TYPE_DATA, 0, 7, 1, NULL, 0};
    size_t written;

    frame.length = length;
    frame.payload = payload;
    return frame_write(&frame, buffer, room, &written);
}

static inline int at_fault(int refused)
{
    return frame_fault_byte(refused);
}
