/* Finds the end point that a frame is for, without a walk over all. */
#ifndef PEER_LOOKUP_H
#define PEER_LOOKUP_H

#include "frame.h"
#include "node.h"

void lookup_add(struct node *node, struct end_point *end);

/* By kind, source and channel; NULL if there is none. */
struct end_point *lookup(struct node *node, const struct frame *frame);

#endif
