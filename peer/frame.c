#include "frame.h"

#include <string.h>

#include "bytes.h"
#include "check.h"
#include "numbers.h"

/* 002, 5.2.1 and 5.2.2, of one of the four types. */
static bool length_fits(uint8_t type, size_t length)
{
    switch (type) {
    case TYPE_DATA:
    case TYPE_URGENT:
        return length >= 1 && length <= FRAME_PAYLOAD_MOST;
    default:
        return length == 0;
    }
}

static bool is_written_with_zero(uint8_t type)
{
    return type == TYPE_RESET || type == TYPE_URGENT;
}

/* Refusal 10's tests: at least 9 bytes, the length matches, a good check. */
bool frame_is_whole(const uint8_t *bytes, size_t length)
{
    return length >= FRAME_OVERHEAD &&
           length == (size_t)get16(bytes + FRAME_LENGTH) + FRAME_OVERHEAD &&
           check_byte(bytes, length) == 0;
}

/* Of a control byte that is none of the types: 15, or else 16 (02, K1). */
static int control_fault(uint8_t control)
{
    return (control & CONTROL_TYPE) > TYPE_URGENT ? REFUSED_TYPE
                                                  : REFUSED_USER;
}

/* 02, K1: a frame that is whole is tested for 15, 16, 17, 18. */
int frame_take_apart(const uint8_t *whole, struct frame *frame)
{
    /* With the user bits zero, the control byte is the type. */
    uint8_t type = whole[FRAME_CONTROL];
    uint8_t sequence = whole[FRAME_SEQUENCE];
    size_t length = get16(whole + FRAME_LENGTH);

    if (type > TYPE_URGENT) {
        return control_fault(type);
    }
    if (!length_fits(type, length)) {
        return REFUSED_LENGTH;
    }
    if (type == TYPE_RESET && sequence != RESET_SEQUENCE) {
        return REFUSED_SEQUENCE;
    }
    frame->destination = whole[FRAME_DESTINATION];
    frame->protocol = whole[FRAME_PROTOCOL];
    frame->source = whole[FRAME_SOURCE];
    frame->type = type;
    frame->user = 0;
    frame->channel = whole[FRAME_CHANNEL];
    frame->sequence = type == TYPE_URGENT ? URGENT_SEQUENCE : sequence;
    frame->payload = whole + FRAME_PAYLOAD;
    frame->length = length;
    return NOT_REFUSED;
}

int frame_read(const uint8_t *bytes, size_t length, struct frame *frame)
{
    if (!frame_is_whole(bytes, length)) {
        return REFUSED_FRAME;
    }
    return frame_take_apart(bytes, frame);
}

int frame_fault_byte(int refusal)
{
    switch (refusal) {
    case REFUSED_TYPE:
    case REFUSED_USER:
        return FRAME_CONTROL;
    case REFUSED_LENGTH:
        return FRAME_LENGTH;
    case REFUSED_SEQUENCE:
        return FRAME_SEQUENCE;
    default:
        return FAULT_BYTE_NONE;
    }
}

/*
 * The frame writer's order is 15, 16, 18, 5, 6 (02, K1): a length that does
 * not fit its type is 5 here (01, "Refusal numbers").
 */
static int writing_refused(const struct frame *frame, size_t room)
{
    if (frame->type > TYPE_URGENT) {
        return REFUSED_TYPE;
    }
    if (frame->user != 0) {
        return REFUSED_USER;
    }
    if (is_written_with_zero(frame->type) && frame->sequence != 0) {
        return REFUSED_SEQUENCE;
    }
    if (!length_fits(frame->type, frame->length)) {
        return REFUSED_PAYLOAD;
    }
    if (room < frame->length + FRAME_OVERHEAD) {
        return REFUSED_ROOM;
    }
    return NOT_REFUSED;
}

int frame_write(const struct frame *frame, uint8_t *buffer, size_t room,
                size_t *written)
{
    size_t checked = FRAME_PAYLOAD + frame->length;
    int refusal = writing_refused(frame, room);

    if (refusal != NOT_REFUSED) {
        return refusal;
    }
    buffer[FRAME_DESTINATION] = frame->destination;
    buffer[FRAME_PROTOCOL] = frame->protocol;
    buffer[FRAME_SOURCE] = frame->source;
    buffer[FRAME_CONTROL] = frame->type;
    put16(buffer + FRAME_LENGTH, (uint16_t)frame->length);
    buffer[FRAME_CHANNEL] = frame->channel;
    buffer[FRAME_SEQUENCE] = frame->sequence;
    if (frame->length > 0) {
        memcpy(buffer + FRAME_PAYLOAD, frame->payload, frame->length);
    }
    buffer[checked] = check_byte(buffer, checked);
    *written = checked + 1;
    return NOT_REFUSED;
}
