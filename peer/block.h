/*
 * The host's block of payloads: written with those that are delivered (01,
 * "End points"), read with those of a plan (02, K6).
 */
#ifndef PEER_BLOCK_H
#define PEER_BLOCK_H

#include <stddef.h>
#include <stdint.h>

#include "bytes.h"
#include "numbers.h"
#include "table.h"

/* A block that is being written. */
struct block {
    uint8_t *bytes;
    uint8_t *offset; /* where the next payload's offset goes */
    size_t end;      /* where the next payload goes */
};

/* The room that Data and Urgent for this entry need. */
size_t block_room(const struct entry *entry);

struct block block_begin(uint8_t *bytes, unsigned count);
void block_add(struct block *block, const uint8_t *payload, size_t length);

/* Gives the block's length. */
size_t block_finish(struct block *block);

/*
 * Answers 0 of a block that is well formed and has no more payloads than a
 * plan may have, and refusal 22 of any other bytes, of whatever length. The
 * functions below read a block that is answered 0.
 */
int block_refused(const uint8_t *bytes, size_t length);

static inline unsigned block_count(const uint8_t *bytes)
{
    return get16(bytes);
}

/* At a place up to the count: there it is the block's end. */
static inline uint32_t block_offset(const uint8_t *bytes, unsigned place)
{
    return get32(bytes + BLOCK_COUNT + (size_t)BLOCK_OFFSET * place);
}

/* Lends the payload at a place below the count, and writes its length. */
static inline const uint8_t *block_payload(const uint8_t *bytes,
                                           unsigned place, size_t *length)
{
    uint32_t offset = block_offset(bytes, place);

    *length = block_offset(bytes, place + 1) - offset;
    return bytes + offset;
}

#endif
