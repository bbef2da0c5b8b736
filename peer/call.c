#include "call.h"

bool record_take(struct input *input, struct record *record)
{
    const uint8_t *taken;
    size_t size = record_read(input->at, input->left, record);

    return size != 0 && input_take(input, size, &taken);
}

void call_begin(struct caller *caller, uint32_t number,
                const struct record *record)
{
    lines_number(&caller->lines, number);
    lines_number(&caller->lines, record->kind);
}

/* A block or a frame: its length is printed, its bytes are lent. */
static void answer_bytes(struct caller *caller, struct answer *answer,
                         const uint8_t *bytes, size_t length)
{
    lines_number(&caller->lines, (uint32_t)length);
    answer->bytes = bytes;
    answer->length = length;
}

static void answer_arrival(struct caller *caller, struct answer *answer,
                           const struct arrival *arrival)
{
    lines_number(&caller->lines, arrival->what);
    lines_number(&caller->lines, arrival->index);
    switch (arrival->what) {
    case ARRIVAL_ACKNOWLEDGED:
    case ARRIVAL_RESET:
        lines_number(&caller->lines, arrival->number);
        break;
    case ARRIVAL_DATA:
    case ARRIVAL_URGENT:
        answer_bytes(caller, answer, caller->block, arrival->block_length);
        break;
    case ARRIVAL_IGNORED:
    case ARRIVAL_OPENED:
        break;
    }
}

static void make_arrival(struct caller *caller, const struct record *record,
                         struct answer *answer)
{
    struct arrival arrival;

    answer->refusal =
        node_arrival(&caller->node, caller->store, sizeof caller->store,
                     caller->block, sizeof caller->block, record->bytes,
                     record->length, &arrival);
    lines_frame_refusal(&caller->lines, answer->refusal);
    if (answer->refusal == NOT_REFUSED) {
        answer_arrival(caller, answer, &arrival);
    }
}

static void make_hand_out(struct caller *caller, struct answer *answer)
{
    size_t length;

    answer->refusal =
        node_hand_out(&caller->node, caller->store, sizeof caller->store,
                      caller->buffer, sizeof caller->buffer, &length);
    lines_number(&caller->lines, (uint32_t)answer->refusal);
    if (answer->refusal == NOT_REFUSED) {
        answer_bytes(caller, answer, caller->buffer, length);
    }
}

/* The calls that answer a refusal number and nothing else. */
static int make_plain(struct caller *caller, const struct record *record)
{
    switch (record->kind) {
    case CALL_TABLE:
        return node_setup(&caller->node, sizeof caller->store,
                          record->bytes, record->length);
    case CALL_OPEN:
        return node_open(&caller->node, record->index);
    case CALL_CLOSE:
        return node_close(&caller->node, record->index);
    case CALL_SEND:
        return node_send(&caller->node, caller->store, sizeof caller->store,
                         record->index, record->bytes, record->length);
    case CALL_FRAME_END:
        return node_frame_end(&caller->node);
    default:
        return node_urgent(&caller->node, caller->store,
                           sizeof caller->store, record->index,
                           record->bytes, record->length);
    }
}

struct answer call_make(struct caller *caller, const struct record *record)
{
    struct answer answer = {.refusal = NOT_REFUSED};

    switch (record->kind) {
    case CALL_ARRIVAL:
        make_arrival(caller, record, &answer);
        break;
    case CALL_TICK:
        lines_number(&caller->lines, NOT_REFUSED);
        lines_number(&caller->lines, node_tick(&caller->node));
        break;
    case CALL_HAND_OUT:
        make_hand_out(caller, &answer);
        break;
    default:
        answer.refusal = make_plain(caller, record);
        lines_number(&caller->lines, (uint32_t)answer.refusal);
        break;
    }
    return answer;
}
