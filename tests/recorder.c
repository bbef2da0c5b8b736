/* include/shelugvar_recorder.h, as C99, C11, C++11 and C++17 (tests/recorder): what is recorded and what is left out,
 * and that the recorder holds a whole trace file at any time. Writes the traces of its cases into the folder that it is
 * given, each beside what a replay must print of it. Prints what is wrong and ends with status 1 where anything is. */
#include "shelugvar_recorder.h"
#include "shelugvar_recorder.h"

#include <stdio.h>

typedef struct shelugvar_recorder shelugvar_recorder;
typedef enum shelugvar_record_kind shelugvar_record_kind;

enum {
    WINDOW = 2,
    PAYLOAD = 60
};

static const uint8_t TABLE[] = {SHELUGVAR_HEAD(1, 64, SHELUGVAR_PROTOCOL_ID),
                                SHELUGVAR_SENDER(65, 7, 1, WINDOW, PAYLOAD, 3)};
static const uint8_t NO_TABLE[] = {0, 1};

static struct shelugvar_node node;
static shelugvar_recorder recorder;
static uint8_t store[SHELUGVAR_SENDER_STORE(WINDOW, PAYLOAD)];
static uint8_t frame[SHELUGVAR_PROTOCOL_FRAME_MOST + 7];
static const char *folder;
static int wrong;

static void must(int holds, const char *what)
{
    if (holds)
        return;
    printf("wrong: %s\n", what);
    wrong = 1;
}

static void begin(void)
{
    memset(&node, 0, sizeof node);
    recorder.size = recorder.count = recorder.left = 0;
}

static enum shelugvar_refusal set_up(const uint8_t *table, size_t length)
{
    return shelugvar_recorded_setup(&recorder, &node, store, sizeof store, table, length);
}

/* The trace and what its replay must print. */
static void leave(const char *name, const char *printed)
{
    char path[4096];
    FILE *file;

    snprintf(path, sizeof path, "%s/%s.trace", folder, name);
    file = fopen(path, "wb");
    must(file != NULL && fwrite(recorder.file, 1, recorder.size, file) == recorder.size && fclose(file) == 0, path);
    snprintf(path, sizeof path, "%s/%s.answers", folder, name);
    file = fopen(path, "wb");
    must(file != NULL && fputs(printed, file) >= 0 && fclose(file) == 0, path);
}

/* Every call once, in the order of the kinds. */
static void each_kind(void)
{
    struct shelugvar_arrived arrived;
    size_t length = 0;

    begin();
    set_up(TABLE, sizeof TABLE);
    shelugvar_recorded_open(&recorder, &node, 0);
    shelugvar_recorded_close(&recorder, &node, 0);
    shelugvar_recorded_send(&recorder, &node, store, sizeof store, 0, frame, 1);
    shelugvar_recorded_urgent(&recorder, &node, store, sizeof store, 0, NULL, 0);
    shelugvar_recorded_arrival(&recorder, &node, store, sizeof store, frame, 0, frame, 9, &arrived);
    shelugvar_recorded_tick(&recorder, &node);
    shelugvar_recorded_hand_out(&recorder, &node, store, sizeof store, frame, sizeof frame, &length);
    shelugvar_recorded_report(&recorder, &node);
    must(recorder.count == 9 && recorder.left == 0, "each kind is recorded");
    leave("each_kind", "1 1 0\n2 2 0\n3 3 0\n4 4 4\n5 5 4\n6 6 10\n7 7 0 0\n8 8 0 0\n9 9 20\n");
}

/* What alters nothing and cannot be written down, or would not be refused by a replay, is left out. */
static void left_out(void)
{
    struct shelugvar_arrived arrived;
    size_t length = 0;

    begin();
    must(shelugvar_recorded_open(&recorder, &node, 0) == SHELUGVAR_NO_ENTRY && recorder.size == 0, "before a table");
    shelugvar_recorded_tick(&recorder, &node);
    must(recorder.size == 0, "a tick before a table");
    must(shelugvar_recorded_report(&recorder, &node) != SHELUGVAR_DONE && recorder.size == 0, "a report before it");
    set_up(TABLE, sizeof TABLE);
    must(shelugvar_recorded_open(&recorder, &node, 256) == SHELUGVAR_NO_ENTRY, "an index of 256");
    must(shelugvar_recorded_send(&recorder, &node, store, sizeof store, 0, frame, 65536) == SHELUGVAR_WRONG_STATE,
         "a payload of 65,536 bytes");
    must(shelugvar_recorded_arrival(&recorder, &node, store, sizeof store, NULL, 0, frame, 65536, &arrived) ==
             SHELUGVAR_BAD_FRAME,
         "a frame of 65,536 bytes");
    shelugvar_recorded_open(&recorder, &node, 0);
    must(shelugvar_recorded_hand_out(&recorder, &node, store, sizeof store, frame, 8, &length) == SHELUGVAR_TOO_SHORT,
         "a short frame buffer");
    shelugvar_recorded_hand_out(&recorder, &node, store, sizeof store, frame, 9, &length);
    must(set_up(NO_TABLE, sizeof NO_TABLE) == SHELUGVAR_BAD_TABLE, "a table that is refused");
    must(shelugvar_recorded_report(&recorder, &node) == SHELUGVAR_DONE, "a report");
    must(recorder.count == 4 && recorder.left == 0, "what is left out");
    leave("left_out", "1 1 0\n2 2 0\n3 8 0 9\n4 9 0\n");
}

/* ---- plans: the payloads of each, for the sender above */

#define OFFSET(number) 0, 0, 0, number /* of a block */
static const uint8_t ONE[] = {0, 1, OFFSET(10), OFFSET(12), 21, 22};
static const uint8_t THREE[] = {0, 3, OFFSET(18), OFFSET(19), OFFSET(22), OFFSET(23), 31, 32, 33, 34, 35};
static const uint8_t WITH_NONE[] = {0, 2, OFFSET(14), OFFSET(14), OFFSET(15), 41};
static const uint8_t EMPTY[] = {0, 0, OFFSET(6)};

/* The sender is Open, after 5 records. */
static void open_sender(void)
{
    static const struct shelugvar_fields ack = {64, SHELUGVAR_PROTOCOL_ID, 65, SHELUGVAR_ACKNOWLEDGE, 0, 7, 0};
    struct shelugvar_arrived arrived;
    size_t length = 0;

    begin();
    set_up(TABLE, sizeof TABLE);
    shelugvar_recorded_open(&recorder, &node, 0);
    shelugvar_recorded_hand_out(&recorder, &node, store, sizeof store, frame, sizeof frame, &length);
    shelugvar_recorded_report(&recorder, &node);
    must(shelugvar_write_frame(frame, sizeof frame, &ack, NULL, 0) == SHELUGVAR_DONE, "an acknowledgement");
    shelugvar_recorded_arrival(&recorder, &node, store, sizeof store, NULL, 0, frame, 9, &arrived);
    must(recorder.count == 5, "the sender opens");
}

/* A plan at this index comes to so much, and is in the trace by so many records more. */
static void plan(size_t room, size_t index, const uint8_t *block, size_t length, int accepted,
                 enum shelugvar_refusal stop, uint32_t records, const char *what)
{
    const uint32_t before = recorder.count;
    struct shelugvar_planned planned = {7, 7};

    must(shelugvar_recorded_plan(&recorder, &node, store, room, index, block, length, &planned) == SHELUGVAR_DONE &&
             planned.accepted == accepted && shelugvar_planned_stop(&planned) == stop &&
             recorder.count == before + records,
         what);
}

/* A plan is recorded as its sends, with the one that is refused and none behind it. What is left out of sends is left
 * out of plans: what is refused with 6, and an index above 255. A block that is refused is no record. */
static void plans(void)
{
    struct shelugvar_planned planned = {7, 7};

    open_sender();
    plan(sizeof store, 0, EMPTY, sizeof EMPTY, 0, SHELUGVAR_DONE, 0, "an empty plan");
    plan(sizeof store, 0, WITH_NONE, sizeof WITH_NONE, 0, SHELUGVAR_PAYLOAD_LENGTH, 1, "a plan with an empty payload");
    plan(sizeof store - 1, 0, ONE, sizeof ONE, 0, SHELUGVAR_TOO_SHORT, 0, "a plan and a short store");
    plan(sizeof store, 256, ONE, sizeof ONE, 0, SHELUGVAR_NO_ENTRY, 0, "a plan for an index of 256");
    plan(sizeof store, 255, ONE, sizeof ONE, 0, SHELUGVAR_NO_ENTRY, 1, "a plan for an index of 255");
    must(shelugvar_recorded_plan(&recorder, &node, store, sizeof store, 0, THREE, sizeof THREE - 1, &planned) ==
                 SHELUGVAR_BAD_BLOCK &&
             planned.accepted == 7 && planned.stop == 7 && recorder.count == 7,
         "a plan whose block is refused");
    plan(sizeof store, 0, ONE, sizeof ONE, 1, SHELUGVAR_DONE, 1, "a plan that is accepted whole");
    plan(sizeof store, 0, THREE, sizeof THREE, 1, SHELUGVAR_WINDOW_FULL, 2, "a plan that is stopped in the middle");
    must(recorder.left == 0, "no plan is cut");
    leave("plans", "1 1 0\n2 2 0\n3 8 0 9\n4 9 0\n5 6 0 2 0\n6 4 5\n7 4 2\n8 4 0\n9 4 0\n10 4 7\n");
}

static void send(size_t index, const uint8_t *payload, size_t length, enum shelugvar_refusal refused)
{
    must(shelugvar_recorded_send(&recorder, &node, store, sizeof store, index, payload, length) == refused, "a send");
}

/* The trace of those plans is, to the byte, that of their sends. */
static void sends_of_plans(void)
{
    static shelugvar_recorder planned;

    plans();
    planned = recorder;
    open_sender();
    send(0, WITH_NONE + 14, 0, SHELUGVAR_PAYLOAD_LENGTH);
    send(255, ONE + 10, 2, SHELUGVAR_NO_ENTRY);
    send(0, ONE + 10, 2, SHELUGVAR_DONE);
    send(0, THREE + 18, 1, SHELUGVAR_DONE);
    send(0, THREE + 19, 3, SHELUGVAR_WINDOW_FULL);
    must(recorder.size == planned.size && memcmp(recorder.file, planned.file, planned.size) == 0,
         "a plan is recorded as its sends");
}

/* The file is full in the middle of a plan: what it has is the beginning, and the send that is missing is counted. */
static void plan_at_the_end(void)
{
    open_sender();
    while (recorder.count < SHELUGVAR_TRACE_RECORDS - 2)
        shelugvar_recorded_tick(&recorder, &node);
    plan(sizeof store, 0, THREE, sizeof THREE, 2, SHELUGVAR_WINDOW_FULL, 2, "the beginning of a plan");
    must(recorder.left == 1, "the rest of a plan is left out");
}

/* A setup begins anew; a table that is refused is a trace of its own where there is no other. */
static void anew(void)
{
    begin();
    set_up(NO_TABLE, sizeof NO_TABLE);
    leave("refused_table", "1 1 1\n");
    shelugvar_recorded_tick(&recorder, &node);
    set_up(TABLE, sizeof TABLE);
    shelugvar_recorded_tick(&recorder, &node);
    set_up(TABLE, sizeof TABLE);
    must(recorder.count == 1, "a setup begins anew");
    leave("anew", "1 1 0\n");
}

/* The file is full by records, and by bytes; what it has stays, and a shorter record does not slip in behind. */
static void full(void)
{
    static char printed[SHELUGVAR_TRACE_RECORDS * 16];
    struct shelugvar_arrived arrived;
    size_t at = 0;

    begin();
    set_up(TABLE, sizeof TABLE);
    for (unsigned k = 1; k < SHELUGVAR_TRACE_RECORDS + 2; k++)
        shelugvar_recorded_tick(&recorder, &node);
    must(recorder.count == SHELUGVAR_TRACE_RECORDS && recorder.left == 2, "full by records");
    for (unsigned k = 1; k <= SHELUGVAR_TRACE_RECORDS; k++) {
        snprintf(printed + at, sizeof printed - at, k == 1 ? "%u 1 0\n" : "%u 7 0 0\n", k);
        at += strlen(printed + at);
    }
    leave("full_by_records", printed);
    set_up(TABLE, sizeof TABLE);
    shelugvar_recorded_arrival(&recorder, &node, store, sizeof store, NULL, 0, frame, 61404, &arrived);
    must(recorder.size == SHELUGVAR_TRACE_MOST && recorder.left == 0, "full to the last byte");
    leave("full_by_bytes", "1 1 0\n2 6 10\n");
    set_up(TABLE, sizeof TABLE);
    shelugvar_recorded_arrival(&recorder, &node, store, sizeof store, NULL, 0, frame, 61405, &arrived);
    shelugvar_recorded_tick(&recorder, &node);
    must(recorder.count == 1 && recorder.left == 2, "nothing behind what is missing");
    leave("one_byte_more", "1 1 0\n");
}

/* Without a recorder the calls are the node's own. */
static void without(void)
{
    struct shelugvar_planned planned = {7, 7};

    begin();
    must(shelugvar_recorded_setup(NULL, &node, store, sizeof store, TABLE, sizeof TABLE) == SHELUGVAR_DONE, "setup");
    must(shelugvar_recorded_open(NULL, &node, 0) == SHELUGVAR_DONE, "open");
    must(shelugvar_recorded_plan(NULL, &node, store, sizeof store, 0, ONE, sizeof ONE, &planned) == SHELUGVAR_DONE &&
             planned.stop == SHELUGVAR_WRONG_STATE,
         "plan");
    must(shelugvar_recorded_tick(NULL, &node) == 0, "tick");
    must(shelugvar_recorded_report(NULL, &node) != SHELUGVAR_DONE, "report");
}

int main(int count, char **arguments)
{
    folder = count > 1 ? arguments[1] : ".";
    each_kind();
    left_out();
    sends_of_plans();
    plan_at_the_end();
    anew();
    full();
    without();
    return wrong;
}
