/* An end point: what the table says of it and how it stands. */
#ifndef PEER_END_POINT_H
#define PEER_END_POINT_H

#include <stdbool.h>
#include <stddef.h>
#include <stdint.h>

#include "numbers.h"
#include "table.h"
#include "window.h"

/* Failing is 002's Open until 7.5.11 is met; only a sender can be in it. */
enum end_state {
    STATE_CLOSED,
    STATE_ENABLED,
    STATE_OPEN,
    STATE_FAILING
};

struct end_point {
    struct entry entry;
    struct window window;
    uint32_t base;      /* where its part of the store begins */
    uint8_t index;      /* in the table */
    uint8_t next_alike; /* 1 + the next end point in the same bucket, or 0 */
    uint8_t state;      /* enum end_state */

    /* Sender. Numbers are handed out in the order they were taken. */
    bool reset_handed_out; /* since Enabled began */
    uint8_t taken;         /* numbers, from the window start on */
    uint8_t handed_out;    /* the first of them, at least once */
    uint32_t accepted;
    uint32_t confirmed;

    /* Receiver: its own among the waiting acknowledgements. */
    uint32_t acks;

    uint16_t length[WINDOW_MOST + 1]; /* of the payload in each slot */
};

/* Where a slot begins in the lent store. */
static inline size_t slot_place(const struct end_point *end, unsigned slot)
{
    return end->base + (size_t)slot * end->entry.payload;
}

/* A sender's last slot is for its Urgent. */
static inline unsigned urgent_slot(const struct end_point *end)
{
    return end->window.size;
}

#endif
