/* What desk and replay share: a record's call is made, its answer printed. */
#ifndef PEER_CALL_H
#define PEER_CALL_H

#include "node.h"
#include "numbers.h"
#include "stream.h"
#include "trace.h"

enum {
    FRAME_MOST = PAYLOAD_MOST + FRAME_OVERHEAD
};

/*
 * A node, the memory that its calls are lent, long enough for every table,
 * and the lines that say what it answered. All zeros has a new node.
 */
struct caller {
    struct node node;
    uint8_t store[STORE_MOST];
    uint8_t block[BLOCK_MOST];
    uint8_t buffer[FRAME_MOST];
    struct lines lines;
};

struct answer {
    int refusal;          /* or 0 */
    const uint8_t *bytes; /* the block or frame that was written */
    size_t length;        /* of it; 0 if there is none */
};

/* Takes a record off the front; false, and none taken, if it is not whole. */
bool record_take(struct input *input, struct record *record);

/* Begins a record's line with its number and kind. */
void call_begin(struct caller *caller, uint32_t number,
                const struct record *record);

/*
 * Makes the call of a record of known kind and adds its answer to the line:
 * the refusal or 0, then what was returned. A block's or a frame's length
 * comes last; the program may add its bytes, and ends the line.
 */
struct answer call_make(struct caller *caller, const struct record *record);

#endif
