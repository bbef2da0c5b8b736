#include "receiver.h"

#include <string.h>

#include "block.h"

void receiver_enable(struct end_point *end)
{
    end->state = STATE_ENABLED;
    window_reset(&end->window);
}

bool acks_are_full(const struct waiting *waiting)
{
    return waiting->acks == UINT32_MAX;
}

static void acknowledge(struct waiting *waiting, struct end_point *end,
                        uint8_t sequence)
{
    unsigned place = lowest_bit(~(uint64_t)waiting->acks);
    uint32_t bit = UINT32_C(1) << place;

    waiting->acks |= bit;
    end->acks |= bit;
    waiting_put(waiting, LIST_ACK, ITEM_ACK + place, end->index, sequence);
}

void receiver_handed_out(struct waiting *waiting, struct end_point *end,
                         unsigned item)
{
    uint32_t bit = UINT32_C(1) << (item - ITEM_ACK);

    waiting->acks &= ~bit;
    end->acks &= ~bit;
    waiting_leave(waiting, item);
}

static void drop_acks(struct waiting *waiting, struct end_point *end)
{
    while (end->acks != 0) {
        receiver_handed_out(waiting, end, ITEM_ACK + lowest_bit(end->acks));
    }
}

void receiver_close(struct waiting *waiting, struct end_point *end)
{
    drop_acks(waiting, end);
    window_reset(&end->window);
    end->state = STATE_CLOSED;
}

struct arrival receiver_reset(struct waiting *waiting, struct end_point *end)
{
    unsigned held = marks_count(end->window.marks);

    end->state = STATE_OPEN;
    window_reset(&end->window);
    drop_acks(waiting, end);
    acknowledge(waiting, end, RESET_SEQUENCE);
    return (struct arrival){.what = ARRIVAL_RESET, .number = held};
}

/* Puts a payload that is new and in the window in its slot. */
static void hold(struct end_point *end, const struct frame *frame,
                 uint8_t *store)
{
    struct window *window = &end->window;
    uint8_t distance = sequence_distance(window->start, frame->sequence);
    unsigned slot = window_slot(window, frame->sequence);

    if (!window_test(window->start, window->size, frame->sequence) ||
        marks_has(window->marks, distance)) {
        return;
    }
    memcpy(store + slot_place(end, slot), frame->payload, frame->length);
    end->length[slot] = (uint16_t)frame->length;
    marks_set(&window->marks, distance);
}

/* Writes the block of what the start passes, and passes it. */
static size_t deliver(struct end_point *end, const uint8_t *store,
                      uint8_t *bytes)
{
    uint8_t sequence = end->window.start;
    unsigned count = window_pass(&end->window);
    struct block block = block_begin(bytes, count);

    for (unsigned i = 0; i < count; i++, sequence++) {
        unsigned slot = window_slot(&end->window, sequence);

        block_add(&block, store + slot_place(end, slot), end->length[slot]);
    }
    return block_finish(&block);
}

struct arrival receiver_data(struct waiting *waiting, struct end_point *end,
                             const struct frame *frame, uint8_t *store,
                             uint8_t *block)
{
    struct arrival arrival = {.what = ARRIVAL_DATA};

    hold(end, frame, store);
    arrival.block_length = deliver(end, store, block);
    acknowledge(waiting, end, frame->sequence);
    return arrival;
}

struct arrival receiver_urgent(const struct frame *frame, uint8_t *block)
{
    struct arrival arrival = {.what = ARRIVAL_URGENT};
    struct block urgent = block_begin(block, 1);

    block_add(&urgent, frame->payload, frame->length);
    arrival.block_length = block_finish(&urgent);
    return arrival;
}
