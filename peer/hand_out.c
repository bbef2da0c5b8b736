#include "frame.h"
#include "node.h"
#include "receiver.h"
#include "sender.h"

static uint8_t type_of(unsigned list)
{
    switch (list) {
    case LIST_ACK:
        return TYPE_ACKNOWLEDGE;
    case LIST_RESET:
        return TYPE_RESET;
    case LIST_URGENT:
        return TYPE_URGENT;
    default:
        return TYPE_DATA;
    }
}

/* Lends the frame its payload from the store, if its type has one. */
static void lend_payload(struct frame *frame, const struct end_point *end,
                         const uint8_t *store)
{
    unsigned slot;

    if (frame->type == TYPE_DATA) {
        slot = window_slot(&end->window, frame->sequence);
    } else if (frame->type == TYPE_URGENT) {
        slot = urgent_slot(end);
    } else {
        return;
    }
    frame->payload = store + slot_place(end, slot);
    frame->length = end->length[slot];
}

static struct frame frame_of(const struct node *node, const struct item *item,
                             const uint8_t *store)
{
    const struct end_point *end = &node->end[item->index];
    struct frame frame = {
        .destination = end->entry.remote,
        .protocol = node->protocol,
        .source = node->own,
        .type = type_of(item->list),
        .channel = end->entry.channel,
        .sequence = item->sequence,
    };

    lend_payload(&frame, end, store);
    return frame;
}

int node_hand_out(struct node *node, const uint8_t *store,
                  size_t store_length, uint8_t *buffer, size_t buffer_length,
                  size_t *written)
{
    if (node->waiting.under_way != ITEM_NONE) {
        return REFUSED_UNDER_WAY;
    }
    if (store_length < node->store) {
        return REFUSED_ROOM;
    }
    unsigned number = waiting_first(&node->waiting);

    if (number == ITEM_NONE) {
        *written = 0; /* with any frame buffer */
        return NOT_REFUSED;
    }
    const struct item *item = &node->waiting.item[number];
    struct end_point *end = &node->end[item->index];
    struct frame frame = frame_of(node, item, store);
    int refusal = frame_write(&frame, buffer, buffer_length, written);

    if (refusal != NOT_REFUSED) {
        return refusal;
    }
    if (frame.type == TYPE_ACKNOWLEDGE) {
        receiver_handed_out(&node->waiting, end, number);
    } else {
        sender_handed_out(&node->waiting, end, number);
    }
    node->waiting.under_way = (uint16_t)number;
    return NOT_REFUSED;
}

/*
 * What was acknowledged or closed meanwhile has left its list, and may wait
 * again with a later frame: then no timer starts.
 */
int node_frame_end(struct node *node)
{
    struct waiting *waiting = &node->waiting;
    unsigned number = waiting->under_way;
    const struct item *item = &waiting->item[number];

    if (number == ITEM_NONE) {
        return REFUSED_NONE_UNDER_WAY;
    }
    waiting->under_way = ITEM_NONE;
    if (item->list == LIST_TIMER_AT_END) {
        timer_start(waiting, number, node->end[item->index].entry.timeout);
    }
    return NOT_REFUSED;
}
