#include "block.h"
#include "frame.h"
#include "lookup.h"
#include "node.h"
#include "receiver.h"
#include "sender.h"

static bool has_payload(const struct frame *frame)
{
    return frame->type == TYPE_DATA || frame->type == TYPE_URGENT;
}

/* Refusal 13, of the end point that was looked up. */
static bool is_deaf(const struct end_point *end, const struct frame *frame)
{
    return end == NULL || end->state == STATE_CLOSED ||
           (has_payload(frame) && end->state == STATE_ENABLED);
}

/* What is left of an arrival's order: 13, 5, 14, 6. */
static int end_refused(const struct node *node, const struct end_point *end,
                       const struct frame *frame, size_t store_length,
                       size_t block_length)
{
    bool is_acknowledged =
        frame->type == TYPE_DATA || frame->type == TYPE_RESET;

    if (is_deaf(end, frame)) {
        return REFUSED_ENTRY;
    }
    if (frame->length > end->entry.payload) {
        return REFUSED_PAYLOAD;
    }
    if (is_acknowledged && acks_are_full(&node->waiting)) {
        return REFUSED_ACKS;
    }
    if (store_length < node->store ||
        (has_payload(frame) && block_length < block_room(&end->entry))) {
        return REFUSED_ROOM;
    }
    return NOT_REFUSED;
}

static struct arrival take(struct node *node, struct end_point *end,
                           const struct frame *frame, uint8_t *store,
                           uint8_t *block)
{
    switch (frame->type) {
    case TYPE_DATA:
        return receiver_data(&node->waiting, end, frame, store, block);
    case TYPE_ACKNOWLEDGE:
        return sender_acknowledged(&node->waiting, end, frame->sequence);
    case TYPE_RESET:
        return receiver_reset(&node->waiting, end);
    default:
        return receiver_urgent(frame, block);
    }
}

/*
 * An arrival's order is 10, 11, 15, 16, 17, 18, 13, 5, 14, 6 (01, "Refusal
 * numbers"; 02, K1).
 */
int node_arrival(struct node *node, uint8_t *store, size_t store_length,
                 uint8_t *block, size_t block_length, const uint8_t *bytes,
                 size_t length, struct arrival *arrival)
{
    struct frame frame;

    if (!frame_is_whole(bytes, length)) {
        return REFUSED_FRAME;
    }
    if (bytes[FRAME_DESTINATION] != node->own ||
        bytes[FRAME_PROTOCOL] != node->protocol) {
        return REFUSED_ADDRESS;
    }
    int refusal = frame_take_apart(bytes, &frame);

    if (refusal != NOT_REFUSED) {
        return refusal;
    }
    struct end_point *end = lookup(node, &frame);

    refusal = end_refused(node, end, &frame, store_length, block_length);
    if (refusal == NOT_REFUSED) {
        *arrival = take(node, end, &frame, store, block);
        arrival->index = end->index; /* set here, so no kind lacks it */
    }
    return refusal;
}
