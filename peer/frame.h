/* The standing frame reader and writer (01, "The frame"; 02, K1). */
#ifndef PEER_FRAME_H
#define PEER_FRAME_H

#include <stdbool.h>
#include <stddef.h>
#include <stdint.h>

struct frame {
    uint8_t destination;
    uint8_t protocol;
    uint8_t source;
    uint8_t type;
    uint8_t user; /* the high nibble of byte 3; the rules want 0 */
    uint8_t channel;
    uint8_t sequence;
    const uint8_t *payload;
    size_t length; /* of the payload */
};

/*
 * Both answer 0 or a refusal number and write through their out-pointers, and
 * into the buffer, only with 0. A frame that was read lends its payload from
 * the bytes it was read from. Buffer bytes after a written frame stay.
 */
int frame_read(const uint8_t *bytes, size_t length, struct frame *frame);
int frame_write(const struct frame *frame, uint8_t *buffer, size_t room,
                size_t *written);

/* The reader's two steps, for a node that looks at addresses in between. */
bool frame_is_whole(const uint8_t *bytes, size_t length);
int frame_take_apart(const uint8_t *whole, struct frame *frame);

/*
 * The number of the byte where the fault sits, of a reader's or an arrival's
 * refusal 15 to 18; FAULT_BYTE_NONE of any other answer.
 */
int frame_fault_byte(int refusal);

#endif
