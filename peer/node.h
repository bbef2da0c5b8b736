/*
 * The protocol node of paper 01. The caller lends the node, the store, the
 * block and the frame buffer. A new node is all zeros.
 *
 * Every call but the tick answers 0 or a refusal number (numbers.h); refused,
 * it alters nothing, and out-pointers are written with 0 only. The store is
 * the same memory in every call from a setup to the next. A node may be
 * copied: nothing in it points anywhere.
 */
#ifndef PEER_NODE_H
#define PEER_NODE_H

#include <stddef.h>
#include <stdint.h>

#include "end_point.h"
#include "numbers.h"
#include "waiting.h"

/* End points are found by bucket: lookup.c. */
enum {
    LOOKUP_BUCKETS = 256
};

struct node {
    uint8_t count;
    uint8_t own;
    uint8_t protocol;
    uint16_t failing;              /* bit i: entry i is Failing */
    uint32_t store;                /* bytes that must be lent */
    uint8_t alike[LOOKUP_BUCKETS]; /* 1 + the first end point in each, or 0 */
    struct end_point end[TABLE_COUNT_MOST];
    struct waiting waiting;
};

enum arrival_kind {
    ARRIVAL_IGNORED,
    ARRIVAL_ACKNOWLEDGED,
    ARRIVAL_OPENED,
    ARRIVAL_RESET,
    ARRIVAL_DATA,
    ARRIVAL_URGENT
};

struct arrival {
    enum arrival_kind what;
    uint8_t index;       /* of the entry that the frame was for */
    unsigned number;     /* ACKNOWLEDGED: passed by the start; RESET: held */
    size_t block_length; /* DATA and URGENT */
};

struct counts {
    uint32_t accepted;
    uint32_t confirmed;
};

struct planned {
    unsigned accepted; /* payloads of the block, from its first on */
    int stopped;       /* the refusal that stopped the rest, or 0 */
};

/* Setup tests the store's length only; no byte of it is touched. */
int node_setup(struct node *node, size_t store_length, const uint8_t *bytes,
               size_t length);
int node_open(struct node *node, size_t index);
int node_close(struct node *node, size_t index);
int node_counts(const struct node *node, size_t index, struct counts *counts);
int node_send(struct node *node, uint8_t *store, size_t store_length,
              size_t index, const uint8_t *payload, size_t length);
int node_urgent(struct node *node, uint8_t *store, size_t store_length,
                size_t index, const uint8_t *payload, size_t length);

/*
 * Sends a block's payloads in order until one is refused (02, K6). Such a
 * stop is not a refused call: only refusal 22, of the block, is, and it comes
 * before everything else. No payload, no send: then any index will do.
 */
int node_plan(struct node *node, uint8_t *store, size_t store_length,
              size_t index, const uint8_t *block, size_t length,
              struct planned *planned);
int node_arrival(struct node *node, uint8_t *store, size_t store_length,
                 uint8_t *block, size_t block_length, const uint8_t *bytes,
                 size_t length, struct arrival *arrival);

/*
 * With nothing waiting the length written is 0. A frame that is handed out is
 * under way until its end is reported; until then no other is handed out.
 */
int node_hand_out(struct node *node, const uint8_t *store,
                  size_t store_length, uint8_t *buffer, size_t buffer_length,
                  size_t *written);

/* The port reports the end of the frame under way (02, K3). */
int node_frame_end(struct node *node);

/* Bit i: entry i became Enabled in this tick. */
uint16_t node_tick(struct node *node);

#endif
