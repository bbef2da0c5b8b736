/* include/shelugvar.h by itself, as C99, C11, C++11 and C++17 (tests/header): it may be included twice; each of its
 * tags may be a typedef's name too, which it cannot where a function has that name; every function with a length takes
 * null where that is 0, and answers what it has to; a frame is under way until its end is reported; a plan leaves what
 * its sends leave; the macros give the paper's bytes and lengths.
 * Prints what is wrong and ends with status 1 where anything is. */
#include "shelugvar.h"
#include "shelugvar.h"

#include <stdio.h>
#include <string.h>

typedef struct shelugvar_node shelugvar_node;
typedef struct shelugvar_sender_counts shelugvar_sender_counts;
typedef struct shelugvar_planned shelugvar_planned;
typedef struct shelugvar_arrived shelugvar_arrived;
typedef struct shelugvar_fields shelugvar_fields;
typedef enum shelugvar_frame_type shelugvar_frame_type;
typedef enum shelugvar_kind shelugvar_kind;
typedef enum shelugvar_state shelugvar_state;
typedef enum shelugvar_refusal shelugvar_refusal;
typedef enum shelugvar_what shelugvar_what;
typedef enum shelugvar_window_answer shelugvar_window_answer;

static int wrong;

static void must(int holds, const char *what)
{
    if (holds)
        return;
    printf("wrong: %s\n", what);
    wrong = 1;
}

static void refuses(shelugvar_refusal got, shelugvar_refusal wanted, const char *what)
{
    if (got == wanted)
        return;
    printf("wrong: %s answers %d, not %d\n", what, got, wanted);
    wrong = 1;
}

static void comes_to(const shelugvar_planned *planned, int accepted, shelugvar_refusal stop, const char *what)
{
    if (planned->accepted == accepted && shelugvar_planned_stop(planned) == stop)
        return;
    printf("wrong: %s accepts %d and stops with %d, not %d and %d\n", what, planned->accepted, planned->stop, accepted,
           stop);
    wrong = 1;
}

/* The table of the paper's worked example, whose store is 4,864 bytes. */
static void table_bytes(void)
{
    static const uint8_t paper[] = {0x00, 0x02, 0x00, 0x08, 0x40, 0xEE, 0x00, 0x00, 0x00, 0x41, 0x07,
                                    0x03, 0x00, 0x10, 0x01, 0x00, 0x00, 0x64, 0x00, 0x00, 0x01, 0x41,
                                    0x09, 0x00, 0x00, 0x00, 0x00, 0x40, 0x00, 0x00, 0x00, 0x00};
    size_t need = 7;
    const uint8_t remote = paper[9]; /* a variable may stand in a table too */
    const uint8_t table[] = {SHELUGVAR_HEAD(2, 64, SHELUGVAR_PROTOCOL_ID), SHELUGVAR_SENDER(remote, 7, 3, 16, 256, 100),
                             SHELUGVAR_RECEIVER(remote, 9, 0, 64)};

    must(sizeof table == sizeof paper && memcmp(table, paper, sizeof paper) == 0, "the table's bytes");
    must(SHELUGVAR_SENDER_STORE(16, 256) + SHELUGVAR_RECEIVER_STORE(SHELUGVAR_WINDOW_DEFAULT, 64) == 4864,
         "the table's store");
    refuses(shelugvar_node_store_need(table, sizeof table, &need), SHELUGVAR_DONE, "the need of a table");
    must(need == 4864, "the need of a table");
}

static void lengths(void)
{
    must(SHELUGVAR_TABLE_HEAD + SHELUGVAR_ENTRIES_MOST * SHELUGVAR_TABLE_ENTRY == SHELUGVAR_TABLE_MOST, "table");
    must(SHELUGVAR_BLOCK_ROOM(SHELUGVAR_WINDOW_MOST, SHELUGVAR_STORE_MOST / SHELUGVAR_WINDOW_MOST) ==
             SHELUGVAR_BLOCK_MOST,
         "block");
    must(SHELUGVAR_PLAN_LENGTH(8, 8 * 64) == SHELUGVAR_BLOCK_ROOM(8, 64), "a plan is a block");
    must(SHELUGVAR_PLAN_LENGTH(0, 0) == 6 && SHELUGVAR_PLAN_MOST == 64, "plan");
    must(SHELUGVAR_FRAME_ROOM(SHELUGVAR_PAYLOAD_MOST) == SHELUGVAR_FRAME_MOST, "frame");
    must(SHELUGVAR_FRAME_ROOM(SHELUGVAR_PROTOCOL_PAYLOAD_MOST) == SHELUGVAR_PROTOCOL_FRAME_MOST, "the wire's frame");
    must(SHELUGVAR_RUN_MOST == UINT32_MAX, "a run's payloads");
}

static void version(void)
{
    char text[32];

    snprintf(text, sizeof text, "%d.%d.%d", SHELUGVAR_VERSION_NUMBER >> 16, SHELUGVAR_VERSION_NUMBER >> 8 & 255,
             SHELUGVAR_VERSION_NUMBER & 255);
    must(strcmp(text, SHELUGVAR_VERSION) == 0, "the version's number");
    must(shelugvar_version() == SHELUGVAR_VERSION_NUMBER, "the archive's version");
}

/* Null pointers at a new node, to which no store is too short. */
static void null_at_a_new_node(void)
{
    static const uint8_t no_entries[] = {SHELUGVAR_HEAD(0, 64, SHELUGVAR_PROTOCOL_ID)};
    static const uint8_t empty_plan[] = {0, 0, 0, 0, 0, 6};
    static shelugvar_node n;
    shelugvar_arrived arrived = {7, 7, 7};
    shelugvar_sender_counts counts = {7, 7};
    shelugvar_planned planned = {7, 7};
    shelugvar_state state = SHELUGVAR_FAILING;
    size_t length = 7, need = 7;

    refuses(shelugvar_node_store_need(NULL, 0, &need), SHELUGVAR_BAD_TABLE, "the need of no table");
    refuses(shelugvar_node_setup(&n, NULL, 0, NULL, 0), SHELUGVAR_BAD_TABLE, "setup, no table");
    refuses(shelugvar_node_setup(&n, NULL, 0, no_entries, sizeof no_entries), SHELUGVAR_DONE, "setup, no store");
    refuses(shelugvar_node_open(&n, 0), SHELUGVAR_NO_ENTRY, "open");
    refuses(shelugvar_node_close(&n, 0), SHELUGVAR_NO_ENTRY, "close");
    refuses(shelugvar_node_counts(&n, 0, &counts), SHELUGVAR_NO_ENTRY, "counts");
    refuses(shelugvar_node_entry_state(&n, 0, &state), SHELUGVAR_NO_ENTRY, "an entry's state");
    refuses(shelugvar_node_send(&n, NULL, 0, 0, NULL, 0), SHELUGVAR_NO_ENTRY, "send");
    refuses(shelugvar_node_urgent(&n, NULL, 0, 0, NULL, 0), SHELUGVAR_NO_ENTRY, "urgent");
    refuses(shelugvar_node_plan(&n, NULL, 0, 0, NULL, 0, &planned), SHELUGVAR_BAD_BLOCK, "plan, no block");
    refuses(shelugvar_node_arrival(&n, NULL, 0, NULL, 0, NULL, 0, &arrived), SHELUGVAR_BAD_FRAME, "arrival");
    must(arrived.what == 7 && arrived.entry == 7 && arrived.value == 7 && counts.accepted == 7 && need == 7 &&
             state == SHELUGVAR_FAILING && planned.accepted == 7 && planned.stop == 7,
         "a refused call alters nothing");
    refuses(shelugvar_node_plan(&n, NULL, 0, 0, empty_plan, sizeof empty_plan, &planned), SHELUGVAR_DONE,
            "an empty plan");
    comes_to(&planned, 0, SHELUGVAR_DONE, "an empty plan, for which every index will do,");
    refuses(shelugvar_node_report(&n), SHELUGVAR_NONE_UNDER_WAY, "report");
    refuses(shelugvar_node_hand_out(&n, NULL, 0, NULL, 0, &length), SHELUGVAR_DONE, "hand out");
    must(length == 0, "nothing waits");
    refuses(shelugvar_node_report(&n), SHELUGVAR_NONE_UNDER_WAY, "report, nothing went out");
    must(shelugvar_node_tick(&n) == 0, "tick");
}

/* Null pointers at a sender that is Open, where a store, a frame buffer or a payload is asked for. */
static void null_at_a_sender(void)
{
    static const uint8_t table[] = {SHELUGVAR_HEAD(1, 64, SHELUGVAR_PROTOCOL_ID),
                                    SHELUGVAR_SENDER(65, 7, 3, 1, 8, 100)};
    static const shelugvar_fields ack = {64, SHELUGVAR_PROTOCOL_ID, 65, SHELUGVAR_ACKNOWLEDGE, 0, 7, 0};
    static shelugvar_node n;
    uint8_t store[SHELUGVAR_SENDER_STORE(1, 8)], frame[SHELUGVAR_FRAME_ROOM(8)];
    const uint8_t payload[] = {1}, plan[] = {0, 1, 0, 0, 0, 10, 0, 0, 0, 11, 1};
    shelugvar_arrived arrived = {7, 7, 7};
    shelugvar_planned planned = {7, 7};
    shelugvar_state state = SHELUGVAR_FAILING;
    size_t length = 0;

    refuses(shelugvar_node_setup(&n, NULL, 0, table, sizeof table), SHELUGVAR_TOO_SHORT, "setup, a store too short");
    refuses(shelugvar_node_setup(&n, store, sizeof store, table, sizeof table), SHELUGVAR_DONE, "setup");
    refuses(shelugvar_node_open(&n, 0), SHELUGVAR_DONE, "open");
    refuses(shelugvar_node_hand_out(&n, store, sizeof store, NULL, 0, &length), SHELUGVAR_TOO_SHORT,
            "hand out, no frame buffer");
    refuses(shelugvar_node_hand_out(&n, NULL, 0, frame, sizeof frame, &length), SHELUGVAR_TOO_SHORT,
            "hand out, no store");
    refuses(shelugvar_node_hand_out(&n, store, sizeof store, frame, sizeof frame, &length), SHELUGVAR_DONE, "a Reset");
    refuses(shelugvar_node_hand_out(&n, NULL, 0, NULL, 0, &length), SHELUGVAR_UNDER_WAY,
            "hand out, a frame under way and no store");
    refuses(shelugvar_node_report(&n), SHELUGVAR_DONE, "report");
    refuses(shelugvar_write_frame(frame, sizeof frame, &ack, NULL, 0), SHELUGVAR_DONE, "write, no payload");
    refuses(shelugvar_node_arrival(&n, NULL, 0, NULL, 0, frame, SHELUGVAR_FRAME_OVERHEAD, &arrived),
            SHELUGVAR_TOO_SHORT, "arrival, no store");
    refuses(shelugvar_node_arrival(&n, store, sizeof store, NULL, 0, frame, SHELUGVAR_FRAME_OVERHEAD, &arrived),
            SHELUGVAR_DONE, "arrival, no block");
    must(shelugvar_arrived_what(&arrived) == SHELUGVAR_WAS_OPENED && arrived.entry == 0, "the sender's arrival");
    refuses(shelugvar_node_entry_state(&n, 0, &state), SHELUGVAR_DONE, "the sender's state");
    must(state == SHELUGVAR_OPEN, "the sender is Open");
    refuses(shelugvar_node_send(&n, store, sizeof store, 0, NULL, 0), SHELUGVAR_PAYLOAD_LENGTH, "send, no payload");
    refuses(shelugvar_node_send(&n, NULL, 0, 0, payload, 1), SHELUGVAR_TOO_SHORT, "send, no store");
    refuses(shelugvar_node_urgent(&n, store, sizeof store, 0, NULL, 0), SHELUGVAR_PAYLOAD_LENGTH, "urgent, no payload");
    refuses(shelugvar_node_urgent(&n, NULL, 0, 0, payload, 1), SHELUGVAR_TOO_SHORT, "urgent, no store");
    refuses(shelugvar_node_plan(&n, NULL, 0, 0, plan, sizeof plan, &planned), SHELUGVAR_DONE, "plan, no store");
    comes_to(&planned, 0, SHELUGVAR_TOO_SHORT, "plan, no store");
}

/* Set up with a sender of W 2, which is Open then. */
static void open_a_sender(shelugvar_node *n, uint8_t *store, size_t room)
{
    static const uint8_t table[] = {SHELUGVAR_HEAD(1, 64, SHELUGVAR_PROTOCOL_ID),
                                    SHELUGVAR_SENDER(65, 7, 3, 2, 8, 100)};
    static const shelugvar_fields ack = {64, SHELUGVAR_PROTOCOL_ID, 65, SHELUGVAR_ACKNOWLEDGE, 0, 7, 0};
    uint8_t frame[SHELUGVAR_FRAME_OVERHEAD];
    shelugvar_arrived arrived;
    size_t length;

    refuses(shelugvar_node_setup(n, store, room, table, sizeof table), SHELUGVAR_DONE, "setup");
    refuses(shelugvar_node_open(n, 0), SHELUGVAR_DONE, "open");
    refuses(shelugvar_node_hand_out(n, store, room, frame, sizeof frame, &length), SHELUGVAR_DONE, "a Reset");
    refuses(shelugvar_node_report(n), SHELUGVAR_DONE, "report");
    refuses(shelugvar_write_frame(frame, sizeof frame, &ack, NULL, 0), SHELUGVAR_DONE, "write");
    refuses(shelugvar_node_arrival(n, store, room, NULL, 0, frame, sizeof frame, &arrived), SHELUGVAR_DONE, "arrival");
}

/* A plan that the full window stops leaves node, book and store as its sends do. One that is refused for its block, by
 * the archive's own function and by the header's, alters nothing. */
static void plan_and_sends(void)
{
    static const uint8_t plan[] = {0, 3, 0, 0, 0, 18, 0, 0, 0, 19, 0, 0, 0, 21, 0, 0, 0, 22, 11, 12, 13, 14};
    static shelugvar_node n, m;
    static uint8_t store[SHELUGVAR_SENDER_STORE(2, 8)], other[SHELUGVAR_SENDER_STORE(2, 8)];
    shelugvar_planned planned = {7, 7};

    open_a_sender(&n, store, sizeof store);
    m = n;
    must(shelugvar_plan(n.node, n.book, store, sizeof store, 0, plan, sizeof plan - 1, &planned) == 22,
         "the archive's refusal of a block");
    refuses(shelugvar_node_plan(&n, store, sizeof store, 0, plan, sizeof plan - 1, &planned), SHELUGVAR_BAD_BLOCK,
            "plan, a byte is missing");
    must(planned.accepted == 7 && planned.stop == 7 && memcmp(&n, &m, sizeof n) == 0 &&
             memcmp(store, other, sizeof store) == 0,
         "a refused plan alters nothing");
    refuses(shelugvar_node_plan(&n, store, sizeof store, 0, plan, sizeof plan, &planned), SHELUGVAR_DONE, "plan");
    comes_to(&planned, 2, SHELUGVAR_WINDOW_FULL, "a plan of three at a window of two");
    refuses(shelugvar_node_send(&m, other, sizeof other, 0, plan + 18, 1), SHELUGVAR_DONE, "the first send");
    refuses(shelugvar_node_send(&m, other, sizeof other, 0, plan + 19, 2), SHELUGVAR_DONE, "the second");
    refuses(shelugvar_node_send(&m, other, sizeof other, 0, plan + 21, 1), SHELUGVAR_WINDOW_FULL, "the third");
    must(memcmp(&n, &m, sizeof n) == 0 && memcmp(store, other, sizeof store) == 0, "a plan leaves what its sends do");
}

/* As many payloads as a plan may have, here of no bytes, and one more: all offsets are the block's end. */
static void most_of_a_plan(void)
{
    static uint8_t plan[SHELUGVAR_PLAN_LENGTH(SHELUGVAR_PLAN_MOST + 1, 0)];
    static shelugvar_node n;
    shelugvar_planned planned = {7, 7};

    for (unsigned count = SHELUGVAR_PLAN_MOST; count <= SHELUGVAR_PLAN_MOST + 1; count++) {
        const size_t length = SHELUGVAR_PLAN_LENGTH(count, 0);

        plan[1] = count & 255;
        for (unsigned k = 0; k <= count; k++) {
            plan[4 + 4 * k] = length >> 8 & 255;
            plan[5 + 4 * k] = length & 255;
        }
        refuses(shelugvar_node_plan(&n, NULL, 0, 0, plan, length, &planned),
                count == SHELUGVAR_PLAN_MOST ? SHELUGVAR_DONE : SHELUGVAR_BAD_BLOCK, "the most of a plan");
        comes_to(&planned, 0, SHELUGVAR_NO_ENTRY, "the most of a plan");
    }
}

/* The two refusals of the frame under way, by the archive's own functions and by the header's, which alter nothing;
 * that a timer starts at the report; that a close ends no frame, and a setup does. */
static void frame_under_way(void)
{
    static const uint8_t table[] = {SHELUGVAR_HEAD(1, 64, SHELUGVAR_PROTOCOL_ID),
                                    SHELUGVAR_SENDER(65, 7, 3, 1, 8, 2)};
    static shelugvar_node n, before;
    static uint8_t store[SHELUGVAR_SENDER_STORE(1, 8)];
    uint8_t frame[SHELUGVAR_FRAME_ROOM(8)];
    size_t length = 7;

    refuses(shelugvar_node_setup(&n, store, sizeof store, table, sizeof table), SHELUGVAR_DONE, "setup");
    refuses(shelugvar_node_open(&n, 0), SHELUGVAR_DONE, "open");
    before = n;
    must(shelugvar_report(n.node, n.book) == 20, "the archive's refusal of a report");
    refuses(shelugvar_node_report(&n), SHELUGVAR_NONE_UNDER_WAY, "report, none under way");
    must(memcmp(&n, &before, sizeof n) == 0, "a refused report alters nothing");
    refuses(shelugvar_node_hand_out(&n, store, sizeof store, frame, sizeof frame, &length), SHELUGVAR_DONE, "a Reset");
    must(length == 9, "a Reset's length");
    before = n;
    length = 7;
    must(shelugvar_hand_out(n.node, n.book, store, sizeof store, frame, sizeof frame, &length) == 19,
         "the archive's refusal of a second frame");
    refuses(shelugvar_node_hand_out(&n, store, sizeof store, frame, sizeof frame, &length), SHELUGVAR_UNDER_WAY,
            "hand out, a frame under way");
    must(length == 7 && memcmp(&n, &before, sizeof n) == 0, "a refused handing out alters nothing");
    must(shelugvar_node_tick(&n) == 0 && shelugvar_node_tick(&n) == 0 && shelugvar_node_tick(&n) == 0, "ticks");
    refuses(shelugvar_node_report(&n), SHELUGVAR_DONE, "report");
    must(shelugvar_node_tick(&n) == 0, "a tick after the report");
    refuses(shelugvar_node_hand_out(&n, store, sizeof store, frame, sizeof frame, &length), SHELUGVAR_DONE, "none yet");
    must(length == 0 && shelugvar_node_tick(&n) == 0, "the timer starts at the report");
    refuses(shelugvar_node_hand_out(&n, store, sizeof store, frame, sizeof frame, &length), SHELUGVAR_DONE, "again");
    must(length == 9, "the timer has ended");
    refuses(shelugvar_node_close(&n, 0), SHELUGVAR_DONE, "close");
    refuses(shelugvar_node_hand_out(&n, store, sizeof store, frame, sizeof frame, &length), SHELUGVAR_UNDER_WAY,
            "hand out after a close");
    refuses(shelugvar_node_setup(&n, store, sizeof store, table, sizeof table), SHELUGVAR_DONE, "setup");
    refuses(shelugvar_node_report(&n), SHELUGVAR_NONE_UNDER_WAY, "report after a setup");
}

static void null_without_a_node(void)
{
    static const shelugvar_fields reset = {64, SHELUGVAR_PROTOCOL_ID, 65, SHELUGVAR_RESET, 0, 7, 0};
    shelugvar_fields fields;
    uint8_t frame[SHELUGVAR_FRAME_OVERHEAD];

    refuses(shelugvar_read_frame(NULL, 0, &fields), SHELUGVAR_BAD_FRAME, "read");
    refuses(shelugvar_write_frame(NULL, 0, &reset, NULL, 0), SHELUGVAR_TOO_SHORT, "write, no buffer");
    refuses(shelugvar_write_frame(frame, sizeof frame, &reset, NULL, 0), SHELUGVAR_DONE, "write, no payload");
    refuses(shelugvar_read_frame(frame, sizeof frame, &fields), SHELUGVAR_DONE, "read back");
    must(shelugvar_fields_type(&fields) == SHELUGVAR_RESET, "a frame's type");
    must(shelugvar_test_window(250, 16, 9) == SHELUGVAR_INSIDE, "the window test");
}

/* Every refusal's byte: the four faults', and none for all other numbers. A frame refused for one alters nothing. */
static void bytes_at_fault(void)
{
    static const uint8_t bytes[] = {3, 3, 4, 7};
    static const uint8_t numbered_reset[] = {64, 238, 66, SHELUGVAR_RESET, 0, 0, 7, 4, 216};
    static const uint8_t no_entries[] = {SHELUGVAR_HEAD(0, 64, SHELUGVAR_PROTOCOL_ID)};
    static shelugvar_node n;
    shelugvar_arrived arrived = {7, 7, 7};
    shelugvar_fields fields = {7, 7, 7, 7, 7, 7, 7};
    uint8_t refusal = 0;

    do {
        const int at_fault = refusal >= SHELUGVAR_UNKNOWN_TYPE && refusal <= SHELUGVAR_WRONG_SEQUENCE;
        const int byte = at_fault ? bytes[refusal - SHELUGVAR_UNKNOWN_TYPE] : SHELUGVAR_NO_BYTE;

        must(shelugvar_fault_byte(refusal) == byte, "the byte of a refusal");
    } while (++refusal != 0);
    refuses(shelugvar_read_frame(numbered_reset, sizeof numbered_reset, &fields), SHELUGVAR_WRONG_SEQUENCE, "read");
    must(shelugvar_byte_at_fault(SHELUGVAR_WRONG_SEQUENCE) == 7, "the byte at fault");
    refuses(shelugvar_node_setup(&n, NULL, 0, no_entries, sizeof no_entries), SHELUGVAR_DONE, "setup");
    refuses(shelugvar_node_arrival(&n, NULL, 0, NULL, 0, numbered_reset, sizeof numbered_reset, &arrived),
            SHELUGVAR_WRONG_SEQUENCE, "arrival");
    must(arrived.what == 7 && arrived.entry == 7 && arrived.value == 7 && fields.destination == 7 &&
             fields.sequence == 7,
         "a frame refused for a fault alters nothing");
}

int main(void)
{
    table_bytes();
    lengths();
    version();
    null_at_a_new_node();
    null_at_a_sender();
    plan_and_sends();
    most_of_a_plan();
    frame_under_way();
    null_without_a_node();
    bytes_at_fault();
    return wrong;
}
