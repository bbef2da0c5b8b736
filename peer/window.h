/*
 * A window of sequence numbers: its start, its size and the marks of numbers
 * in it. A sender marks what is acknowledged, a receiver what it holds.
 */
#ifndef PEER_WINDOW_H
#define PEER_WINDOW_H

#include <stdbool.h>
#include <stdint.h>

#include "numbers.h"

/* Bit d, counted from low's lowest, is the number at distance d. */
struct marks {
    uint64_t low;
    uint64_t high;
};

struct window {
    struct marks marks;
    uint8_t start;
    uint8_t size; /* W */
};

/* C11 has no count of trailing zeros; gcc and clang have. Not for 0. */
static inline unsigned lowest_bit(uint64_t word)
{
    return (unsigned)__builtin_ctzll(word);
}

static inline bool marks_any(struct marks marks)
{
    return (marks.low | marks.high) != 0;
}

static inline bool marks_has(struct marks marks, unsigned distance)
{
    uint64_t word = distance < 64 ? marks.low : marks.high;

    return (word >> (distance % 64) & 1) != 0;
}

static inline void marks_set(struct marks *marks, unsigned distance)
{
    uint64_t bit = UINT64_C(1) << (distance % 64);

    if (distance < 64) {
        marks->low |= bit;
    } else {
        marks->high |= bit;
    }
}

/* Takes the lowest mark out and gives its distance; there must be one. */
static inline unsigned marks_take_lowest(struct marks *marks)
{
    uint64_t *word = marks->low != 0 ? &marks->low : &marks->high;
    unsigned distance = lowest_bit(*word) + (marks->low != 0 ? 0 : 64);

    *word &= *word - 1;
    return distance;
}

/* How many are marked from the start on without a gap. */
static inline unsigned marks_run(struct marks marks)
{
    if (marks.low != UINT64_MAX) {
        return lowest_bit(~marks.low);
    }
    if (marks.high != UINT64_MAX) {
        return 64 + lowest_bit(~marks.high);
    }
    return WINDOW_MOST;
}

static inline unsigned marks_count(struct marks marks)
{
    return (unsigned)(__builtin_popcountll(marks.low) +
                      __builtin_popcountll(marks.high));
}

/* The marks as counted from a start that is further on by some numbers. */
static inline struct marks marks_past(struct marks marks, unsigned numbers)
{
    struct marks past = {0, 0};

    if (numbers == 0) {
        return marks;
    }
    if (numbers < 64) {
        past.low = marks.low >> numbers | marks.high << (64 - numbers);
        past.high = marks.high >> numbers;
    } else if (numbers < WINDOW_MOST) {
        past.low = marks.high >> (numbers - 64);
    }
    return past;
}

/* How far a sequence number is from the start: 0 follows 255. */
static inline uint8_t sequence_distance(uint8_t start, uint8_t sequence)
{
    return (uint8_t)(sequence - start);
}

/* The window test on numbers (01: "(s - start) mod 256 < W"). */
static inline bool window_test(uint8_t start, uint8_t size, uint8_t sequence)
{
    return sequence_distance(start, sequence) < size;
}

/* Passes all marked numbers without a gap and says how many. */
static inline unsigned window_pass(struct window *window)
{
    unsigned passed = marks_run(window->marks);

    window->marks = marks_past(window->marks, passed);
    window->start = (uint8_t)(window->start + passed);
    return passed;
}

static inline void window_reset(struct window *window)
{
    window->marks = (struct marks){0, 0};
    window->start = WINDOW_START;
}

/* Slots hold sequence s mod W, and W has one bit set. */
static inline unsigned window_slot(const struct window *window,
                                   uint8_t sequence)
{
    return sequence & (window->size - 1U);
}

#endif
