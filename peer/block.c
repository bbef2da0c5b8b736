#include "block.h"

#include <stdbool.h>
#include <string.h>

#include "bytes.h"
#include "numbers.h"

size_t block_room(const struct entry *entry)
{
    return BLOCK_EMPTY +
           (size_t)entry->window * (BLOCK_OFFSET + (size_t)entry->payload);
}

/* The first payload goes right after the offsets. */
static size_t first_payload(unsigned count)
{
    return BLOCK_EMPTY + (size_t)BLOCK_OFFSET * count;
}

struct block block_begin(uint8_t *bytes, unsigned count)
{
    struct block block = {
        .bytes = bytes,
        .offset = bytes + BLOCK_COUNT,
        .end = first_payload(count),
    };

    put16(bytes, (uint16_t)count);
    return block;
}

static void put_offset(struct block *block)
{
    put32(block->offset, (uint32_t)block->end);
    block->offset += BLOCK_OFFSET;
}

void block_add(struct block *block, const uint8_t *payload, size_t length)
{
    put_offset(block);
    memcpy(block->bytes + block->end, payload, length);
    block->end += length;
}

size_t block_finish(struct block *block)
{
    put_offset(block);
    return block->end;
}

/*
 * "Offsets must start right after themselves, never fall, and end at the
 * block's end" (02, K6). So every payload lies in the block, however large
 * the offsets could be.
 */
static bool offsets_fit(const uint8_t *bytes, size_t length, unsigned count)
{
    uint32_t last = block_offset(bytes, 0);

    if (last != first_payload(count)) {
        return false;
    }
    for (unsigned place = 1; place <= count; place++) {
        uint32_t offset = block_offset(bytes, place);

        if (offset < last) {
            return false;
        }
        last = offset;
    }
    return last == length;
}

int block_refused(const uint8_t *bytes, size_t length)
{
    if (length < BLOCK_EMPTY) {
        return REFUSED_BLOCK;
    }
    unsigned count = block_count(bytes);

    if (count > PLAN_MOST || length < first_payload(count) ||
        !offsets_fit(bytes, length, count)) {
        return REFUSED_BLOCK;
    }
    return NOT_REFUSED;
}
