/* The product to the harness: the proved archive through its header. */
#include "shelugvar.h"

typedef struct shelugvar_node node_t;

static inline int node_set_up(node_t *n, const uint8_t *store, size_t room, const uint8_t *table, size_t length)
{
    return shelugvar_node_setup(n, store, room, table, length);
}

static inline int node_opens(node_t *n, unsigned index)
{
    return shelugvar_node_open(n, index);
}

static inline int node_sends(node_t *n, uint8_t *store, size_t room, unsigned index,
                             const uint8_t *payload, size_t length)
{
    return shelugvar_node_send(n, store, room, index, payload, length);
}

static inline int node_plans(node_t *n, uint8_t *store, size_t room, unsigned index,
                             const uint8_t *block, size_t length)
{
    struct shelugvar_planned planned;

    return shelugvar_node_plan(n, store, room, index, block, length, &planned) || planned.stop;
}

static inline int node_takes(node_t *n, uint8_t *store, size_t room, uint8_t *block, size_t block_room,
                             const uint8_t *frame, size_t length)
{
    struct shelugvar_arrived arrival;

    return shelugvar_node_arrival(n, store, room, block, block_room, frame, length, &arrival);
}

static inline size_t node_hands_out(node_t *n, const uint8_t *store, size_t room, uint8_t *frame, size_t frame_room)
{
    size_t length = 0;

    return shelugvar_node_hand_out(n, store, room, frame, frame_room, &length) == 0 ? length : 0;
}

static inline int node_reports(node_t *n)
{
    return shelugvar_node_report(n);
}

static inline unsigned node_ticks(node_t *n)
{
    return shelugvar_node_tick(n);
}

static inline uint32_t node_confirmed(const node_t *n, unsigned index)
{
    struct shelugvar_sender_counts counts = {0, 0};

    return shelugvar_node_counts(n, index, &counts) == 0 ? counts.confirmed : 0;
}

static inline int reads(const uint8_t *frame, size_t length)
{
    struct shelugvar_fields fields;

    return shelugvar_frame_read(frame, length, &fields);
}

static inline int writes(uint8_t *buffer, size_t room, const uint8_t *payload, size_t length)
{
    static const struct shelugvar_fields fields = {65, 238, 64, SHELUGVAR_DATA, 0, 7, 1};

    return shelugvar_frame_write(buffer, room, &fields, payload, length);
}

static inline int at_fault(int refused)
{
    return shelugvar_byte_at_fault((enum shelugvar_refusal)refused);
}
