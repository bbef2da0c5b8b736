/* Two nodes from C, end to end: a plan of moves goes up from the ground to the pedestal and readings come down, over a
 * link that loses, repeats and damages frames and for a while passes none, so that both senders fail and recover.
 * Prints how it went; ends with status 1 where a payload is missing or out of order, or a call refuses wrongly.
 * With the name of a folder it leaves there what was called at each node, ground.trace and pedestal.trace, as far as a
 * trace goes, and what those calls answered, ground.answers and pedestal.answers: `replay` prints the same. */
#include <stdio.h>

#include "shelugvar.h"
#include "shelugvar_recorder.h"

/* the entries, at both sides */
enum {
    SENDS = 0,
    RECEIVES = 1
};

enum {
    WINDOW = 16,
    PAYLOAD = 8,
    PLAN = 100,
    BROKEN_FROM = 12,
    BROKEN_TO = 50,
    STEPS_MOST = 1000
};

struct side {
    struct shelugvar_node node;
    struct shelugvar_recorder recorder;
    uint32_t told; /* how many recorded calls' answers are written */
    FILE *answers; /* where to, or null */
    uint8_t store[SHELUGVAR_SENDER_STORE(WINDOW, PAYLOAD) + SHELUGVAR_RECEIVER_STORE(WINDOW, PAYLOAD)];
    /* what it sends: how much of the plan runs before this one confirmed, what is sent next, and recoveries */
    unsigned settled, next_out, recoveries;
    /* what it is sent: how much of the plan it has, what comes next in this run, and whether the run is new */
    unsigned taken, next_in, fresh;
};

static struct side ground, pedestal;
static unsigned lost, damaged, repeated, broken;
static int wrong;

static void must(int holds, const char *what)
{
    if (holds)
        return;
    printf("wrong: %s\n", what);
    wrong = 1;
}

/* What a call answered, as `replay` prints it, where the recorder has the call: the number of the record, the kind, the
 * refusal with the byte at fault or 0, then so many values. */
static void tell(struct side *s, enum shelugvar_record_kind kind, enum shelugvar_refusal refused, const size_t *values,
                 unsigned count)
{
    const uint8_t fault = shelugvar_byte_at_fault(refused);

    if (s->told == s->recorder.count || s->answers == NULL)
        return;
    s->told = s->recorder.count;
    fprintf(s->answers, "%u %d %d", (unsigned)s->told, (int)kind, (int)refused);
    if (fault != SHELUGVAR_NO_BYTE)
        fprintf(s->answers, " %d", fault);
    for (unsigned i = 0; refused == SHELUGVAR_DONE && i < count; i++)
        fprintf(s->answers, " %lu", (unsigned long)values[i]);
    fputc('\n', s->answers);
}

/* The channel table: entry 0 sends to the other side, with 6 retries and a timeout of 3 ticks; entry 1 receives. */
static void start(struct side *s, uint8_t own, uint8_t other, uint8_t channel_out, uint8_t channel_in)
{
    const uint8_t table[] = {SHELUGVAR_HEAD(2, own, SHELUGVAR_PROTOCOL_ID),
                             SHELUGVAR_SENDER(other, channel_out, 6, WINDOW, PAYLOAD, 3),
                             SHELUGVAR_RECEIVER(other, channel_in, WINDOW, PAYLOAD)};
    enum shelugvar_refusal refused =
        shelugvar_recorded_setup(&s->recorder, &s->node, s->store, sizeof s->store, table, sizeof table);

    must(refused == SHELUGVAR_DONE, "setup");
    tell(s, SHELUGVAR_RECORD_TABLE, refused, NULL, 0);
    for (size_t entry = SENDS; entry <= RECEIVES; entry++) {
        refused = shelugvar_recorded_open(&s->recorder, &s->node, entry);
        must(refused == SHELUGVAR_DONE, "open");
        tell(s, SHELUGVAR_RECORD_OPEN, refused, NULL, 0);
    }
}

/* How much of its plan a side knows to have arrived. */
static unsigned confirmed(const struct side *s)
{
    struct shelugvar_sender_counts counts = {0, 0};

    must(shelugvar_node_counts(&s->node, SENDS, &counts) == SHELUGVAR_DONE, "counts");
    return s->settled + counts.confirmed;
}

/* Sends as much of the plan as the window lets through: a payload is its place in the plan. */
static void send_on(struct side *s)
{
    enum shelugvar_refusal refused = SHELUGVAR_DONE;

    while (s->next_out < PLAN) {
        const uint8_t payload[2] = {(uint8_t)(s->next_out >> 8), (uint8_t)s->next_out};

        refused = shelugvar_recorded_send(&s->recorder, &s->node, s->store, sizeof s->store, SENDS, payload,
                                          sizeof payload);
        tell(s, SHELUGVAR_RECORD_SEND, refused, NULL, 0);
        if (refused != SHELUGVAR_DONE)
            break;
        s->next_out++;
    }
    must(refused == SHELUGVAR_DONE || refused == SHELUGVAR_WINDOW_FULL || refused == SHELUGVAR_WRONG_STATE, "send");
}

/* Takes a block's payloads. In one run they come in order without a gap; a new run begins with what no acknowledgement
 * came back for, some of which may have arrived. */
static void take(struct side *s, const uint8_t *block)
{
    unsigned count = block[0] * 256u + block[1];

    for (unsigned i = 0; i < count; i++) {
        const uint8_t *payload = block + (block[4 + 4 * i] * 256u + block[5 + 4 * i]);
        unsigned place = payload[0] * 256u + payload[1];

        must(s->fresh ? place <= s->taken : place == s->next_in, "payloads are in order and none is missing");
        s->fresh = 0;
        s->next_in = place + 1;
        if (s->taken < s->next_in)
            s->taken = s->next_in;
    }
}

static void arrive(struct side *s, const uint8_t *frame, size_t length, enum shelugvar_refusal wanted)
{
    uint8_t block[SHELUGVAR_BLOCK_ROOM(WINDOW, PAYLOAD)];
    struct shelugvar_arrived arrived = {0, 0, 0};
    const enum shelugvar_refusal refused =
        shelugvar_recorded_arrival(&s->recorder, &s->node, s->store, sizeof s->store, block, sizeof block, frame,
                                   length, &arrived);
    const size_t values[3] = {arrived.what, arrived.entry, arrived.value};
    /* what was ignored, and what opened, have no value */
    const unsigned count = arrived.what == SHELUGVAR_WAS_IGNORED || arrived.what == SHELUGVAR_WAS_OPENED ? 2 : 3;

    tell(s, SHELUGVAR_RECORD_ARRIVAL, refused, values, count);
    must(refused == wanted || refused == SHELUGVAR_NO_END_POINT, "arrival");
    if (refused != SHELUGVAR_DONE)
        return;
    switch (shelugvar_arrived_what(&arrived)) {
    case SHELUGVAR_WAS_OPENED: /* a new run: its counts begin at 0 */
        s->settled = s->next_out;
        break;
    case SHELUGVAR_WAS_RESET:
        s->fresh = 1;
        break;
    case SHELUGVAR_WAS_DATA:
        take(s, block);
        break;
    case SHELUGVAR_WAS_IGNORED:
    case SHELUGVAR_WAS_ACKNOWLEDGED:
    case SHELUGVAR_WAS_URGENT:
        break;
    }
}

/* The length of the frame that goes out next, 0 where nothing waits. */
static size_t hand_out(struct side *s, uint8_t *frame, size_t room)
{
    size_t length = 0;
    const enum shelugvar_refusal refused =
        shelugvar_recorded_hand_out(&s->recorder, &s->node, s->store, sizeof s->store, frame, room, &length);

    must(refused == SHELUGVAR_DONE, "hand out");
    tell(s, SHELUGVAR_RECORD_HAND_OUT, refused, &length, 1);
    return length;
}

/* The port has sent the last byte of the frame that was handed out: its timer starts, and another may go out. */
static void report(struct side *s)
{
    const enum shelugvar_refusal refused = shelugvar_recorded_report(&s->recorder, &s->node);

    must(refused == SHELUGVAR_DONE, "report");
    tell(s, SHELUGVAR_RECORD_REPORT, refused, NULL, 0);
}

/* The link: of 16 frames 2 are lost, 1 comes with a damaged bit and 2 come twice, by a fixed sequence of numbers. */
static void carry(struct side *from, struct side *to)
{
    static uint32_t draw = 1;
    uint8_t frame[SHELUGVAR_FRAME_ROOM(PAYLOAD)];
    size_t length;

    while ((length = hand_out(from, frame, sizeof frame)) != 0) {
        draw = draw * 1103515245 + 12345;
        unsigned fate = draw >> 16 & 15;

        report(from);
        if (broken || fate < 2) {
            lost++;
            continue;
        }
        if (fate == 2) {
            damaged++;
            frame[4] ^= 1;
        }
        arrive(to, frame, length, fate == 2 ? SHELUGVAR_BAD_FRAME : SHELUGVAR_DONE);
        if (fate == 3 || fate == 4) {
            repeated++;
            arrive(to, frame, length, SHELUGVAR_DONE);
        }
    }
}

/* A tick. A sender that failed is Enabled again: what its run did not confirm is sent again. */
static void tick(struct side *s)
{
    const size_t enabled = shelugvar_recorded_tick(&s->recorder, &s->node);

    tell(s, SHELUGVAR_RECORD_TICK, SHELUGVAR_DONE, &enabled, 1);
    if (enabled & 1u << SENDS) {
        s->recoveries++;
        s->next_out = confirmed(s);
    }
}

/* A file of a folder, by a side's name and an ending. */
static FILE *file_of(const char *folder, const char *side, const char *ending)
{
    char path[4096];
    FILE *file;

    snprintf(path, sizeof path, "%s/%s.%s", folder, side, ending);
    file = fopen(path, "wb");
    if (file == NULL)
        perror(path);
    must(file != NULL, "a file can be written");
    return file;
}

/* Leaves a side's trace in the folder. */
static void leave_trace(const struct side *s, const char *folder, const char *name)
{
    FILE *file = file_of(folder, name, "trace");

    if (file != NULL) {
        must(fwrite(s->recorder.file, 1, s->recorder.size, file) == s->recorder.size, "the trace is written");
        must(fclose(file) == 0, "the trace is written");
    }
    if (s->answers != NULL)
        must(fclose(s->answers) == 0, "the answers are written");
}

int main(int count, char **arguments)
{
    const char *folder = count > 1 ? arguments[1] : NULL;
    unsigned step = 0;

    if (folder != NULL) {
        ground.answers = file_of(folder, "ground", "answers");
        pedestal.answers = file_of(folder, "pedestal", "answers");
    }
    start(&ground, 64, 65, 7, 9);
    start(&pedestal, 65, 64, 9, 7);
    for (; step < STEPS_MOST && (confirmed(&ground) < PLAN || confirmed(&pedestal) < PLAN); step++) {
        broken = BROKEN_FROM <= step && step < BROKEN_TO;
        send_on(&ground);
        send_on(&pedestal);
        carry(&ground, &pedestal);
        carry(&pedestal, &ground);
        tick(&ground);
        tick(&pedestal);
    }
    printf("%u steps; of the frames %u lost, %u damaged, %u twice\n", step, lost, damaged, repeated);
    printf("moves: %u arrived, %u confirmed, recoveries %u\n", pedestal.taken, confirmed(&ground), ground.recoveries);
    printf("readings: %u arrived, %u confirmed, recoveries %u\n", ground.taken, confirmed(&pedestal),
           pedestal.recoveries);
    must(pedestal.taken == PLAN && ground.taken == PLAN, "everything arrived");
    must(confirmed(&ground) == PLAN && confirmed(&pedestal) == PLAN, "everything is confirmed");
    must(ground.recoveries > 0 && pedestal.recoveries > 0, "both senders failed and recovered");
    if (folder != NULL) {
        leave_trace(&ground, folder, "ground");
        leave_trace(&pedestal, folder, "pedestal");
    }
    return wrong;
}
