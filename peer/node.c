#include "node.h"

#include <string.h>

#include "block.h"
#include "lookup.h"
#include "receiver.h"
#include "sender.h"

/* Every end Closed, its counts 0, its part of the store after the last's. */
static void place_ends(struct node *node, const struct table *table)
{
    uint32_t base = 0;

    for (uint8_t i = 0; i < table->count; i++) {
        struct end_point *end = &node->end[i];

        end->entry = table->entry[i];
        end->window.size = end->entry.window;
        window_reset(&end->window);
        end->base = base;
        end->index = i;
        base += entry_store(&end->entry);
        lookup_add(node, end);
    }
}

int node_setup(struct node *node, size_t store_length, const uint8_t *bytes,
               size_t length)
{
    struct table table; /* read whole before the node is touched */

    if (table_read(bytes, length, &table) != NOT_REFUSED) {
        return REFUSED_TABLE;
    }
    if (store_length < table.store) {
        return REFUSED_ROOM;
    }
    memset(node, 0, sizeof *node);
    node->count = table.count;
    node->own = table.own;
    node->protocol = table.protocol;
    node->store = table.store;
    place_ends(node, &table);
    return NOT_REFUSED;
}

int node_open(struct node *node, size_t index)
{
    if (index >= node->count) {
        return REFUSED_INDEX;
    }
    struct end_point *end = &node->end[index];

    if (end->state != STATE_CLOSED) {
        return REFUSED_STATE;
    }
    if (end->entry.kind == KIND_SENDS) {
        sender_enable(&node->waiting, end);
    } else {
        receiver_enable(end);
    }
    return NOT_REFUSED;
}

int node_close(struct node *node, size_t index)
{
    if (index >= node->count) {
        return REFUSED_INDEX;
    }
    struct end_point *end = &node->end[index];

    if (end->state == STATE_CLOSED) {
        return REFUSED_STATE;
    }
    if (end->entry.kind == KIND_SENDS) {
        sender_close(&node->waiting, end);
        node->failing &= (uint16_t)(~(1U << index));
    } else {
        receiver_close(&node->waiting, end);
    }
    return NOT_REFUSED;
}

static int sender_refused(const struct node *node, size_t index)
{
    if (index >= node->count) {
        return REFUSED_INDEX;
    }
    if (node->end[index].entry.kind != KIND_SENDS) {
        return REFUSED_KIND;
    }
    return NOT_REFUSED;
}

int node_counts(const struct node *node, size_t index, struct counts *counts)
{
    int refusal = sender_refused(node, index);

    if (refusal == NOT_REFUSED) {
        counts->accepted = node->end[index].accepted;
        counts->confirmed = node->end[index].confirmed;
    }
    return refusal;
}

/* What Send, Urgent and a plan begin with: 2, 3, 4. */
static int open_sender_refused(const struct node *node, size_t index)
{
    int refusal = sender_refused(node, index);

    if (refusal != NOT_REFUSED) {
        return refusal;
    }
    if (node->end[index].state != STATE_OPEN) {
        return REFUSED_STATE;
    }
    return NOT_REFUSED;
}

/* Refusal 5 is of any other length. */
static bool payload_fits(const struct end_point *end, size_t length)
{
    return length != 0 && length <= end->entry.payload;
}

/* At Open: what is left of Send's order, 5, 8, 7, 6, then the sending. */
static int send_at_open(struct node *node, struct end_point *end,
                        uint8_t *store, size_t store_length,
                        const uint8_t *payload, size_t length)
{
    if (!payload_fits(end, length)) {
        return REFUSED_PAYLOAD;
    }
    if (end->accepted == UINT32_MAX) {
        return REFUSED_COUNT;
    }
    if (end->taken == end->window.size) {
        return REFUSED_WINDOW;
    }
    if (store_length < node->store) {
        return REFUSED_ROOM;
    }
    sender_send(&node->waiting, end, store, payload, (uint16_t)length);
    return NOT_REFUSED;
}

int node_send(struct node *node, uint8_t *store, size_t store_length,
              size_t index, const uint8_t *payload, size_t length)
{
    int refusal = open_sender_refused(node, index);

    if (refusal != NOT_REFUSED) {
        return refusal;
    }
    return send_at_open(node, &node->end[index], store, store_length,
                        payload, length);
}

/*
 * A block's payloads, up to the one that is refused. A send leaves its entry
 * Open, so what all begin with is tested once.
 */
static struct planned send_all(struct node *node, uint8_t *store,
                               size_t store_length, size_t index,
                               const uint8_t *block)
{
    struct planned planned = {.accepted = 0, .stopped = NOT_REFUSED};
    unsigned count = block_count(block);

    if (count == 0) {
        return planned; /* no send is made, so no index is wrong */
    }
    planned.stopped = open_sender_refused(node, index);
    if (planned.stopped != NOT_REFUSED) {
        return planned;
    }
    for (; planned.accepted < count; planned.accepted++) {
        size_t length;
        const uint8_t *payload =
            block_payload(block, planned.accepted, &length);

        planned.stopped = send_at_open(node, &node->end[index], store,
                                       store_length, payload, length);
        if (planned.stopped != NOT_REFUSED) {
            break;
        }
    }
    return planned;
}

int node_plan(struct node *node, uint8_t *store, size_t store_length,
              size_t index, const uint8_t *block, size_t length,
              struct planned *planned)
{
    int refusal = block_refused(block, length);

    if (refusal == NOT_REFUSED) {
        *planned = send_all(node, store, store_length, index, block);
    }
    return refusal;
}

int node_urgent(struct node *node, uint8_t *store, size_t store_length,
                size_t index, const uint8_t *payload, size_t length)
{
    int refusal = open_sender_refused(node, index);

    if (refusal != NOT_REFUSED) {
        return refusal;
    }
    struct end_point *end = &node->end[index];

    if (!payload_fits(end, length)) {
        return REFUSED_PAYLOAD;
    }
    if (node->waiting.item[item_urgent(end->index)].list != LIST_NONE) {
        return REFUSED_URGENT;
    }
    if (store_length < node->store) {
        return REFUSED_ROOM;
    }
    sender_urgent(&node->waiting, end, store, payload, (uint16_t)length);
    return NOT_REFUSED;
}

/*
 * Failing ends with no timer running (002, 7.5.11) and no frame under way
 * (02, K3) become Enabled.
 */
static uint16_t enable_failed(struct node *node)
{
    uint16_t enabled = 0;

    for (unsigned left = node->failing; left != 0; left &= left - 1) {
        unsigned index = lowest_bit(left);

        if (!timers_run(&node->waiting, index) &&
            !has_under_way(&node->waiting, index)) {
            sender_enable(&node->waiting, &node->end[index]);
            enabled |= (uint16_t)(1U << index);
        }
    }
    node->failing &= (uint16_t)~enabled;
    return enabled;
}

uint16_t node_tick(struct node *node)
{
    node->waiting.now++;
    for (unsigned i = 0; i < node->count; i++) {
        if (timers_run(&node->waiting, i)) {
            sender_tick(&node->waiting, &node->end[i]);
            if (node->end[i].state == STATE_FAILING) {
                node->failing |= (uint16_t)(1U << i);
            }
        }
    }
    return enable_failed(node);
}
