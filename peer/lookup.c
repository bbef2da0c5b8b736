#include "lookup.h"

/* Few end points share one: a remote's channels differ, and so do remotes. */
static uint8_t *bucket(struct node *node, uint8_t remote, uint8_t channel)
{
    return &node->alike[remote ^ channel];
}

void lookup_add(struct node *node, struct end_point *end)
{
    uint8_t *first = bucket(node, end->entry.remote, end->entry.channel);

    end->next_alike = *first;
    *first = (uint8_t)(end->index + 1);
}

/* Acknowledgements are for senders, all else is for receivers. */
struct end_point *lookup(struct node *node, const struct frame *frame)
{
    uint8_t kind =
        frame->type == TYPE_ACKNOWLEDGE ? KIND_SENDS : KIND_RECEIVES;
    uint8_t at = *bucket(node, frame->source, frame->channel);

    while (at != 0) {
        struct end_point *end = &node->end[at - 1];

        if (end->entry.kind == kind && end->entry.remote == frame->source &&
            end->entry.channel == frame->channel) {
            return end;
        }
        at = end->next_alike;
    }
    return NULL;
}
