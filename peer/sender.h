/* A sending end point (01, "End points"; 02, K3; 002, 7.2 and 7.5). */
#ifndef PEER_SENDER_H
#define PEER_SENDER_H

#include <stdint.h>

#include "end_point.h"
#include "node.h"
#include "waiting.h"

/* Becomes Enabled from Closed or from Failing. */
void sender_enable(struct waiting *waiting, struct end_point *end);
void sender_close(struct waiting *waiting, struct end_point *end);

/* At Open, with a number left to take and room for the payload. */
void sender_send(struct waiting *waiting, struct end_point *end,
                 uint8_t *store, const uint8_t *payload, uint16_t length);

/* At Open, with no Urgent waiting. */
void sender_urgent(struct waiting *waiting, struct end_point *end,
                   uint8_t *store, const uint8_t *payload, uint16_t length);

/* At any state but Closed. Leaves the answer's index to node_arrival. */
struct arrival sender_acknowledged(struct waiting *waiting,
                                   struct end_point *end, uint8_t sequence);

/*
 * A frame of the sender's was handed out: it no longer waits. Its timer, if
 * it has one, starts at its end: node_frame_end.
 */
void sender_handed_out(struct waiting *waiting, struct end_point *end,
                       unsigned item);

/* What the tick that is now does to its timers. */
void sender_tick(struct waiting *waiting, struct end_point *end);

#endif
