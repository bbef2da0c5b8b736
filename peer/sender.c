#include "sender.h"

#include <string.h>

static unsigned data_item(const struct end_point *end, uint8_t sequence)
{
    return item_data(end->index, window_slot(&end->window, sequence));
}

static void forget_numbers(struct end_point *end)
{
    window_reset(&end->window);
    end->taken = 0;
    end->handed_out = 0;
}

static void wait_reset(struct waiting *waiting, const struct end_point *end)
{
    waiting_put(waiting, LIST_RESET, item_reset(end->index), end->index,
                RESET_SEQUENCE);
}

/* Its waiting Urgent, data and retransmissions; timers run on. */
static void drop_frames(struct waiting *waiting, const struct end_point *end)
{
    waiting_leave(waiting, item_urgent(end->index));
    for (unsigned i = 0; i < end->taken; i++) {
        unsigned item = data_item(end, (uint8_t)(end->window.start + i));
        unsigned list = waiting->item[item].list;

        if (list == LIST_DATA || list == LIST_AGAIN) {
            waiting_leave(waiting, item);
        }
    }
}

/* Those that run, and the one that its frame under way is to start. */
static void drop_timers(struct waiting *waiting, const struct end_point *end)
{
    while (timers_run(waiting, end->index)) {
        waiting_leave(waiting,
                      waiting->list[LIST_TIMERS + end->index].first);
    }
    if (has_under_way(waiting, end->index)) {
        waiting_leave(waiting, waiting->under_way);
    }
}

void sender_enable(struct waiting *waiting, struct end_point *end)
{
    end->state = STATE_ENABLED;
    end->reset_handed_out = false;
    forget_numbers(end);
    wait_reset(waiting, end);
}

void sender_close(struct waiting *waiting, struct end_point *end)
{
    drop_frames(waiting, end);
    drop_timers(waiting, end);
    waiting_leave(waiting, item_reset(end->index));
    forget_numbers(end);
    end->state = STATE_CLOSED;
}

void sender_send(struct waiting *waiting, struct end_point *end,
                 uint8_t *store, const uint8_t *payload, uint16_t length)
{
    uint8_t sequence = (uint8_t)(end->window.start + end->taken);
    unsigned slot = window_slot(&end->window, sequence);
    unsigned item = item_data(end->index, slot);

    memcpy(store + slot_place(end, slot), payload, length);
    end->length[slot] = length;
    end->taken++;
    end->accepted++;
    waiting->item[item].retries = 0;
    waiting_put(waiting, LIST_DATA, item, end->index, sequence);
}

void sender_urgent(struct waiting *waiting, struct end_point *end,
                   uint8_t *store, const uint8_t *payload, uint16_t length)
{
    unsigned slot = urgent_slot(end);

    memcpy(store + slot_place(end, slot), payload, length);
    end->length[slot] = length;
    waiting_put(waiting, LIST_URGENT, item_urgent(end->index), end->index,
                URGENT_SEQUENCE);
}

/* At Enabled only the answer to a Reset that was handed out counts. */
static struct arrival reset_acknowledged(struct waiting *waiting,
                                         struct end_point *end,
                                         uint8_t sequence)
{
    if (sequence != RESET_SEQUENCE || !end->reset_handed_out) {
        return (struct arrival){.what = ARRIVAL_IGNORED};
    }
    waiting_leave(waiting, item_reset(end->index));
    end->state = STATE_OPEN;
    end->accepted = 0;
    end->confirmed = 0;
    return (struct arrival){.what = ARRIVAL_OPENED};
}

struct arrival sender_acknowledged(struct waiting *waiting,
                                   struct end_point *end, uint8_t sequence)
{
    struct window *window = &end->window;
    uint8_t distance = sequence_distance(window->start, sequence);

    if (end->state == STATE_ENABLED) {
        return reset_acknowledged(waiting, end, sequence);
    }
    /* At most W are handed out, so this is the window test too. */
    if (distance >= end->handed_out || marks_has(window->marks, distance)) {
        return (struct arrival){.what = ARRIVAL_IGNORED};
    }
    waiting_leave(waiting, data_item(end, sequence));
    marks_set(&window->marks, distance);
    unsigned passed = window_pass(window);

    end->taken = (uint8_t)(end->taken - passed);
    end->handed_out = (uint8_t)(end->handed_out - passed);
    end->confirmed += passed;
    return (struct arrival){.what = ARRIVAL_ACKNOWLEDGED, .number = passed};
}

void sender_handed_out(struct waiting *waiting, struct end_point *end,
                       unsigned item)
{
    unsigned list = waiting->item[item].list;

    waiting_leave(waiting, item);
    if (list == LIST_URGENT) {
        return; /* sent once, without a timer (002, 7.5.12) */
    }
    if (list == LIST_RESET) {
        end->reset_handed_out = true;
    } else if (list == LIST_DATA) {
        end->handed_out++;
    }
    waiting->item[item].list = LIST_TIMER_AT_END;
}

/* A data timer is at zero. */
static void expire(struct waiting *waiting, struct end_point *end,
                   uint8_t sequence)
{
    unsigned item = data_item(end, sequence);

    if (end->state == STATE_FAILING) {
        return;
    }
    if (waiting->item[item].retries < end->entry.retries) {
        waiting->item[item].retries++;
        waiting_put(waiting, LIST_AGAIN, item, end->index, sequence);
    } else {
        end->state = STATE_FAILING;
        drop_frames(waiting, end);
    }
}

/* Timers at zero are found oldest first, but go in window order. */
static void tick_data(struct waiting *waiting, struct end_point *end)
{
    struct marks expired = {0, 0};
    unsigned item;

    while ((item = timer_take_expired(waiting, end->index)) != ITEM_NONE) {
        marks_set(&expired, sequence_distance(end->window.start,
                                              waiting->item[item].sequence));
    }
    while (marks_any(expired)) {
        unsigned distance = marks_take_lowest(&expired);

        expire(waiting, end, (uint8_t)(end->window.start + distance));
    }
}

void sender_tick(struct waiting *waiting, struct end_point *end)
{
    if (end->state != STATE_ENABLED) {
        tick_data(waiting, end);
    } else if (timer_take_expired(waiting, end->index) != ITEM_NONE) {
        wait_reset(waiting, end);
    }
}
