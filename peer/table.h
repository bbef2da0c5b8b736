/* The channel table (01, "The channel table"). */
#ifndef PEER_TABLE_H
#define PEER_TABLE_H

#include <stddef.h>
#include <stdint.h>

#include "numbers.h"

struct entry {
    uint8_t kind; /* enum entry_kind */
    uint8_t remote;
    uint8_t channel;
    uint8_t retries;  /* M */
    uint8_t window;   /* W in force: WINDOW_DEFAULT for a 0 in the table */
    uint16_t payload; /* P, the largest */
    uint16_t timeout; /* T */
};

struct table {
    uint8_t count;
    uint8_t own;
    uint8_t protocol;
    uint32_t store; /* bytes that all entries take of the lent store */
    struct entry entry[TABLE_COUNT_MOST];
};

/* Answers 0 or refusal 1; what it wrote to the table counts only with 0. */
int table_read(const uint8_t *bytes, size_t length, struct table *table);

/* Bytes of the lent store that one entry takes. */
uint32_t entry_store(const struct entry *entry);

#endif
