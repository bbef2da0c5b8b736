/* Frames and windows from C: writes a frame of each type, reads it back, shows each refusal, which byte of
 * a refused frame is at fault, and the window test.
 * Prints what it saw; ends with status 1 where that is not what the header promises. */
#include <stdio.h>
#include <string.h>

#include "shelugvar.h"

static int wrong;

static void expect(const char *what, unsigned got, unsigned wanted)
{
    printf("%-40s %u\n", what, got);
    if (got != wanted) {
        printf("  wanted %u\n", wanted);
        wrong = 1;
    }
}

/* One frame there and back. */
static void round_trip(const char *what, struct shelugvar_fields fields, const char *text)
{
    uint8_t buffer[64];
    struct shelugvar_fields back;
    size_t n = strlen(text);

    memset(buffer, 165, sizeof buffer);
    expect(what, shelugvar_write_frame(buffer, sizeof buffer, &fields, (const uint8_t *)text, n), SHELUGVAR_DONE);
    expect("  read back", shelugvar_read_frame(buffer, SHELUGVAR_FRAME_ROOM(n), &back), SHELUGVAR_DONE);
    expect("  same fields", memcmp(&fields, &back, sizeof back) == 0, 1);
    expect("  same payload", memcmp(buffer + SHELUGVAR_PAYLOAD_OFFSET, text, n) == 0, 1);
    expect("  the byte after the frame stays", buffer[SHELUGVAR_FRAME_ROOM(n)], 165);
}

static void refusals(void)
{
    const size_t most = SHELUGVAR_PROTOCOL_PAYLOAD_MOST, whole = SHELUGVAR_PROTOCOL_FRAME_MOST;
    struct shelugvar_fields f = {65, SHELUGVAR_PROTOCOL_ID, 64, SHELUGVAR_DATA, 0, 7, 1}, kept = f, bad;
    static uint8_t payload[SHELUGVAR_PROTOCOL_PAYLOAD_MOST + 1], room[SHELUGVAR_PROTOCOL_FRAME_MOST + 1];

    bad = f, bad.type = 4;
    expect("type 4", shelugvar_write_frame(room, sizeof room, &bad, payload, 1), SHELUGVAR_UNKNOWN_TYPE);
    bad = f, bad.user = 1;
    expect("user bits", shelugvar_write_frame(room, sizeof room, &bad, payload, 1), SHELUGVAR_USER_BITS);
    bad = f, bad.type = SHELUGVAR_RESET;
    expect("a Reset's sequence", shelugvar_write_frame(room, sizeof room, &bad, NULL, 0), SHELUGVAR_WRONG_SEQUENCE);
    expect("Data without payload", shelugvar_write_frame(room, sizeof room, &f, NULL, 0), SHELUGVAR_PAYLOAD_LENGTH);
    expect("65,520 bytes", shelugvar_write_frame(room, sizeof room, &f, payload, most), SHELUGVAR_DONE);
    expect("65,521 bytes", shelugvar_write_frame(room, sizeof room, &f, payload, most + 1), SHELUGVAR_PAYLOAD_LENGTH);
    expect("no room", shelugvar_write_frame(room, 9, &f, payload, 1), SHELUGVAR_TOO_SHORT);

    expect("eight bytes", shelugvar_read_frame(room, 8, &kept), SHELUGVAR_BAD_FRAME);
    expect("a byte too many", shelugvar_read_frame(room, whole + 1, &kept), SHELUGVAR_BAD_FRAME);
    expect("whole", shelugvar_read_frame(room, whole, &kept), SHELUGVAR_DONE);
    expect("  Data", shelugvar_fields_type(&kept) == SHELUGVAR_DATA, 1);
    room[100] ^= 1;
    kept = f;
    expect("a bit damaged", shelugvar_read_frame(room, whole, &kept), SHELUGVAR_BAD_FRAME);
    expect("  fields kept", memcmp(&f, &kept, sizeof f) == 0, 1);
}

/* A frame whose check byte is right and whose header is not: the refusal, and the byte at fault. */
static void at_fault(const char *what, const uint8_t *frame, size_t length, unsigned wanted, unsigned byte)
{
    struct shelugvar_fields fields;
    const enum shelugvar_refusal refused = shelugvar_read_frame(frame, length, &fields);

    expect(what, refused, wanted);
    expect("  byte", shelugvar_byte_at_fault(refused), byte);
}

static void faults(void)
{
    static const uint8_t type[] = {64, 238, 66, 0x14, 0, 0, 7, 4, 161};
    static const uint8_t user[] = {64, 238, 66, 0x12, 0, 1, 7, 4, 1, 137};
    static const uint8_t length[] = {64, 238, 66, 2, 0, 1, 7, 4, 1, 23};
    static const uint8_t sequence[] = {64, 238, 66, 2, 0, 0, 7, 4, 216};

    at_fault("type 4 and a user bit", type, sizeof type, SHELUGVAR_UNKNOWN_TYPE, 3);
    at_fault("a Reset with user bit, payload, number 4", user, sizeof user, SHELUGVAR_USER_BITS, 3);
    at_fault("a Reset with payload and number 4", length, sizeof length, SHELUGVAR_LENGTH_AGAINST_TYPE, 4);
    at_fault("a Reset with number 4", sequence, sizeof sequence, SHELUGVAR_WRONG_SEQUENCE, 7);
    at_fault("eight bytes", sequence, 8, SHELUGVAR_BAD_FRAME, SHELUGVAR_NO_BYTE);
}

int main(void)
{
    struct shelugvar_fields data = {65, SHELUGVAR_PROTOCOL_ID, 64, SHELUGVAR_DATA, 0, 7, 5};
    struct shelugvar_fields ack = data, reset = data, urgent = data;

    ack.type = SHELUGVAR_ACKNOWLEDGE;
    reset.type = SHELUGVAR_RESET, reset.sequence = 0;
    urgent.type = SHELUGVAR_URGENT, urgent.sequence = 0;
    round_trip("Data", data, "turn to 12.5");
    round_trip("Acknowledge", ack, "");
    round_trip("Reset", reset, "");
    round_trip("Urgent", urgent, "stop");
    refusals();
    faults();
    expect("start 250, W 16: 9", shelugvar_test_window(250, 16, 9), SHELUGVAR_INSIDE);
    expect("start 250, W 16: 10", shelugvar_test_window(250, 16, 10), SHELUGVAR_OUTSIDE);
    expect("start 246, W 16: 5, the turn too far", shelugvar_test_window(246, 16, 5), SHELUGVAR_INSIDE);
    expect("start 250, W 0, which is 8: 1", shelugvar_test_window(250, 0, 1), SHELUGVAR_INSIDE);
    expect("start 250, W 0, which is 8: 2", shelugvar_test_window(250, 0, 2), SHELUGVAR_OUTSIDE);
    expect("W 3", shelugvar_test_window(0, 3, 0), SHELUGVAR_NO_WINDOW);
    expect("W 256", shelugvar_test_window(0, 256, 0), SHELUGVAR_NO_WINDOW);
    return wrong;
}
