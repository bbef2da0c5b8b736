/* A receiving end point (01, "End points"; 002, 7.4). */
#ifndef PEER_RECEIVER_H
#define PEER_RECEIVER_H

#include <stdbool.h>
#include <stdint.h>

#include "end_point.h"
#include "frame.h"
#include "node.h"
#include "waiting.h"

void receiver_enable(struct end_point *end);
void receiver_close(struct waiting *waiting, struct end_point *end);

bool acks_are_full(const struct waiting *waiting);

/* The next three leave the answer's index to node_arrival. */

/* At Enabled or Open, with acknowledgements not full. */
struct arrival receiver_reset(struct waiting *waiting, struct end_point *end);

/* At Open, with acknowledgements not full and room in store and block. */
struct arrival receiver_data(struct waiting *waiting, struct end_point *end,
                             const struct frame *frame, uint8_t *store,
                             uint8_t *block);

/* At Open, with room in the block. */
struct arrival receiver_urgent(const struct frame *frame, uint8_t *block);

/* An acknowledgement was handed out: it no longer waits. */
void receiver_handed_out(struct waiting *waiting, struct end_point *end,
                         unsigned item);

#endif
