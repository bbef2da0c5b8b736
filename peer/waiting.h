/*
 * What waits: frames to be handed out, each sort in the order it began to
 * wait, and running timers, each entry's in the order they run out. Every
 * item is in one list at most, so it joins and leaves in one step. Beside
 * the lists, the item whose frame is under way: handed out, its end not yet
 * reported (02, K3). All zeros is nothing waiting and nothing under way.
 */
#ifndef PEER_WAITING_H
#define PEER_WAITING_H

#include <stdbool.h>
#include <stdint.h>

#include "numbers.h"

/*
 * The sorts of frame in the order of handing out, then the timers. Before
 * them, the Data or Reset under way while its end is to start its timer: it
 * is the only one there, so nothing is linked.
 */
enum list {
    LIST_NONE,
    LIST_TIMER_AT_END,
    LIST_ACK,
    LIST_RESET,
    LIST_URGENT,
    LIST_AGAIN, /* retransmissions */
    LIST_DATA,
    LIST_TIMERS, /* of entry 0; the other entries' follow */
    LISTS = LIST_TIMERS + TABLE_COUNT_MOST
};

/* Items by number: 32 acknowledgements, then what each entry can have. */
enum item_number {
    ITEM_NONE,
    ITEM_ACK,
    ITEM_RESET = ITEM_ACK + ACKS_MOST,
    ITEM_URGENT = ITEM_RESET + TABLE_COUNT_MOST,
    ITEM_DATA = ITEM_URGENT + TABLE_COUNT_MOST,
    ITEMS = ITEM_DATA + TABLE_COUNT_MOST * WINDOW_MOST
};

struct item {
    uint32_t due; /* the tick at which its timer runs out */
    uint16_t next;
    uint16_t before;
    uint8_t list;
    uint8_t index; /* of its entry */
    uint8_t sequence;
    uint8_t retries;
};

struct list_ends {
    uint16_t first;
    uint16_t last;
};

struct waiting {
    uint32_t now;       /* ticks so far; wraps, no timer runs that long */
    uint32_t acks;      /* bit i: acknowledgement item i waits */
    uint16_t under_way; /* the item whose frame is, or ITEM_NONE */
    struct list_ends list[LISTS];
    struct item item[ITEMS];
};

static inline unsigned item_reset(unsigned index)
{
    return ITEM_RESET + index;
}

static inline unsigned item_urgent(unsigned index)
{
    return ITEM_URGENT + index;
}

static inline unsigned item_data(unsigned index, unsigned slot)
{
    return ITEM_DATA + index * WINDOW_MOST + slot;
}

static inline void waiting_join(struct waiting *waiting, unsigned list,
                                unsigned number)
{
    struct list_ends *ends = &waiting->list[list];
    struct item *item = &waiting->item[number];

    item->list = (uint8_t)list;
    item->before = ends->last;
    item->next = ITEM_NONE;
    if (ends->last == ITEM_NONE) {
        ends->first = (uint16_t)number;
    } else {
        waiting->item[ends->last].next = (uint16_t)number;
    }
    ends->last = (uint16_t)number;
}

static inline void waiting_unlink(struct waiting *waiting,
                                  const struct item *item)
{
    struct list_ends *ends = &waiting->list[item->list];

    if (item->before == ITEM_NONE) {
        ends->first = item->next;
    } else {
        waiting->item[item->before].next = item->next;
    }
    if (item->next == ITEM_NONE) {
        ends->last = item->before;
    } else {
        waiting->item[item->next].before = item->before;
    }
}

/* From whatever list it is in, if any. */
static inline void waiting_leave(struct waiting *waiting, unsigned number)
{
    struct item *item = &waiting->item[number];

    if (item->list > LIST_TIMER_AT_END) {
        waiting_unlink(waiting, item);
    }
    item->list = LIST_NONE;
}

/* A frame of this entry and sequence number begins to wait. */
static inline void waiting_put(struct waiting *waiting, enum list list,
                               unsigned number, uint8_t index,
                               uint8_t sequence)
{
    waiting->item[number].index = index;
    waiting->item[number].sequence = sequence;
    waiting_join(waiting, list, number);
}

/* The item to hand out next. */
static inline unsigned waiting_first(const struct waiting *waiting)
{
    for (unsigned list = LIST_ACK; list <= LIST_DATA; list++) {
        if (waiting->list[list].first != ITEM_NONE) {
            return waiting->list[list].first;
        }
    }
    return ITEM_NONE;
}

static inline bool timers_run(const struct waiting *waiting, unsigned index)
{
    return waiting->list[LIST_TIMERS + index].first != ITEM_NONE;
}

/*
 * Whether the frame under way is the entry's. For senders: the item of an
 * acknowledgement under way may be another receiver's by now.
 */
static inline bool has_under_way(const struct waiting *waiting,
                                 unsigned index)
{
    return waiting->under_way != ITEM_NONE &&
           waiting->item[waiting->under_way].index == index;
}

/* An entry's timers all start at its T: the oldest runs out first. */
static inline void timer_start(struct waiting *waiting, unsigned number,
                               uint16_t timeout)
{
    struct item *item = &waiting->item[number];

    item->due = waiting->now + timeout;
    waiting_join(waiting, LIST_TIMERS + item->index, number);
}

/* Takes out a timer of the entry that is at zero now, if there is one. */
static inline unsigned timer_take_expired(struct waiting *waiting,
                                          unsigned index)
{
    unsigned number = waiting->list[LIST_TIMERS + index].first;

    if (number == ITEM_NONE || waiting->item[number].due != waiting->now) {
        return ITEM_NONE;
    }
    waiting_leave(waiting, number);
    return number;
}

#endif
