/* The benchmark's harness, compiled once with the product's adapter and once with the peer's (ADAPTER).
 *
 *   harness ROW ROUNDS MODE WINDOW ENTRIES PAYLOAD TIMERS
 *
 * A round puts the nodes back as they were, then makes a batch of the row's calls: not at all in MODE 0, once in 1,
 * once by the clock in 2. Prints how many calls a batch has and, in MODE 2, the nanoseconds a call of the quickest
 * batch. Instructions are counted from outside: those in MODE 1 less those in MODE 0. One round more is made in every
 * mode, and what it leaves is looked at. */
#include <stdio.h>
#include <stdlib.h>
#include <string.h>
#include <time.h>

#include ADAPTER

enum {
    STORE = 32768,
    BLOCK = 33286,
    FRAME = 32777,
    MOST = 2048,
    COPIES = 16
};

static node_t here, there, here_before, there_before; /* the sender's side, the receiver's */
static node_t copies[COPIES];                         /* for a call that one node can make once */
static const node_t *copied;                          /* of whom, in a row that uses them */
static uint8_t here_store[STORE], there_store[STORE], block[BLOCK], payload[STORE];
static uint8_t frames[MOST][64], frame[FRAME]; /* frames that arrive in a row, short ones */
static size_t lengths[MOST];
static unsigned window, entries, size; /* of every entry; `size` is P, and every payload's length */
static unsigned timeout = 65535;       /* of every sender */
static unsigned timers;                /* how many run, in the rows that say so */

static void must(int holds, const char *what)
{
    if (holds)
        return;
    fprintf(stderr, "harness: %s\n", what);
    exit(1);
}

/* ---- two sides whose entries name each other, all Open */

static size_t table(uint8_t *to, uint8_t own, uint8_t other, int receives)
{
    size_t at = 8;

    memcpy(to, (const uint8_t[8]){0, (uint8_t)entries, 0, 8, own, 238, 0, 0}, 8);
    for (unsigned i = 0; i < entries; i++, at += 12) {
        const unsigned t = receives ? 0 : timeout;
        const uint8_t entry[12] = {(uint8_t)receives, other, (uint8_t)i, receives ? 0 : 3,
                                   (uint8_t)(window >> 8), (uint8_t)window, (uint8_t)(size >> 8), (uint8_t)size,
                                   (uint8_t)(t >> 8), (uint8_t)t, 0, 0};
        memcpy(to + at, entry, 12);
    }
    return at;
}

/* A frame is handed out, and is under way. */
static size_t begins_here(void)
{
    return node_hands_out(&here, here_store, STORE, frame, FRAME);
}

static size_t begins_there(void)
{
    return node_hands_out(&there, there_store, STORE, frame, FRAME);
}

/* The same, and its end is reported; 0 where one of the two is refused. */
static size_t out_of_here(void)
{
    const size_t n = begins_here();

    return node_reports(&here) == 0 ? n : 0;
}

static size_t out_of_there(void)
{
    const size_t n = begins_there();

    return node_reports(&there) == 0 ? n : 0;
}

static int into_here(const uint8_t *f, size_t n)
{
    return node_takes(&here, here_store, STORE, block, BLOCK, f, n);
}

static int into_there(const uint8_t *f, size_t n)
{
    return node_takes(&there, there_store, STORE, block, BLOCK, f, n);
}

static void open_both(void)
{
    uint8_t bytes[8 + 16 * 12];
    size_t n = table(bytes, 64, 65, 0);

    must(node_set_up(&here, here_store, STORE, bytes, n) == 0, "setup of the sending side");
    n = table(bytes, 65, 64, 1);
    must(node_set_up(&there, there_store, STORE, bytes, n) == 0, "setup of the receiving side");
    for (unsigned i = 0; i < entries; i++)
        must(node_opens(&here, i) == 0 && node_opens(&there, i) == 0, "open");
    for (unsigned i = 0; i < entries; i++) {
        must((n = out_of_here()) == 9 && into_there(frame, n) == 0, "a Reset");
        must((n = out_of_there()) == 9 && into_here(frame, n) == 0, "its acknowledgement");
    }
}

static int send_one(unsigned i)
{
    return node_sends(&here, here_store, STORE, i, payload, size);
}

/* Every window full, and `handed` of all that handed out, each kept among the frames that arrive. */
static void fill(unsigned handed)
{
    for (unsigned i = 0; i < entries; i++)
        for (unsigned k = 0; k < window; k++)
            must(send_one(i) == 0, "send");
    for (unsigned k = 0; k < handed; k++) {
        lengths[k] = out_of_here();
        must(lengths[k] == size + 9, "hand out");
        memcpy(frames[k], frame, lengths[k] < sizeof frames[k] ? lengths[k] : sizeof frames[k]);
    }
}

/* The acknowledgements of the frames kept, kept in their place. */
static void acknowledge(unsigned many)
{
    for (unsigned k = 0; k < many; k++) {
        must(into_there(frames[k], lengths[k]) == 0, "arrival");
        must((lengths[k] = out_of_there()) == 9, "an acknowledgement");
        memcpy(frames[k], frame, 9);
    }
}

/* The timers that are to run, in the first entries as far as they go. */
static void start_timers(void)
{
    for (unsigned k = 0; k < timers; k++)
        must(send_one(k / window) == 0 && out_of_here() == size + 9, "a timer's start");
}

/* A timer that is started and stopped by its acknowledgement. */
static void stop_a_timer(void)
{
    must(send_one(0) == 0 && into_there(frame, out_of_here()) == 0, "a timer's start");
    must(into_here(frame, out_of_there()) == 0 && node_confirmed(&here, 0) == 1, "its stop");
}

static void pass_ticks(unsigned many)
{
    for (unsigned k = 0; k < many; k++)
        must(node_ticks(&here) == 0, "a tick that recovers none");
}

/* ---- the rows: what stands before a batch, a batch's calls, and what is to hold after them */

static unsigned batch_length;

static void before_reads(void)
{
    must(writes(frame, FRAME, payload, size) == 0, "write");
    batch_length = 64;
}

static int batch_reads(void)
{
    int refused = 0;
    for (unsigned k = 0; k < 64; k++)
        refused |= reads(frame, size + 9);
    return refused;
}

static void before_writes(void)
{
    batch_length = 64;
}

static int batch_writes(void)
{
    int refused = 0;
    for (unsigned k = 0; k < 64; k++)
        refused |= writes(frame, FRAME, payload, size);
    return refused;
}

static void before_send(void)
{
    open_both();
    batch_length = window;
}

static int batch_send(void)
{
    int refused = 0;
    for (unsigned k = 0; k < window; k++)
        refused |= send_one(0);
    return refused;
}

/* A plan of as many payloads as the window has numbers, in the block; then the same by single sends. */
static void before_plan(void)
{
    size_t at = 6 + 4 * window;

    open_both();
    batch_length = 1;
    memcpy(block, (const uint8_t[2]){0, (uint8_t)window}, 2);
    for (unsigned k = 0; k <= window; k++, at += size)
        memcpy(block + 2 + 4 * k, (const uint8_t[4]){0, 0, (uint8_t)(at >> 8), (uint8_t)at}, 4);
}

static int batch_plan(void)
{
    return node_plans(&here, here_store, STORE, 0, block, 6 + window * (4 + size));
}

/* Every number is taken, and each goes out. */
static void after_plan(void)
{
    must(send_one(0) == 7, "the window is full");
    for (unsigned k = 0; k < window; k++)
        must(out_of_here() == size + 9, "hand out");
}

/* A batch of one call each on copies of a node. */
static void copy(const node_t *node)
{
    copied = node;
    batch_length = COPIES;
}

static void before_hand_out(void)
{
    open_both();
    fill(0);
    copy(&here_before);
}

static int batch_hand_out(void)
{
    int refused = 0;
    for (unsigned k = 0; k < COPIES; k++)
        refused |= node_hands_out(&copies[k], here_store, STORE, frame, FRAME) != size + 9;
    return refused;
}

/* Number 1 is under way, others wait. */
static void before_report(void)
{
    timeout = 1;
    before_hand_out();
    must(begins_here() == size + 9, "hand out");
}

/* An acknowledgement is under way. */
static void before_report_acknowledge(void)
{
    open_both();
    fill(1);
    must(into_there(frames[0], lengths[0]) == 0 && begins_there() == 9, "an acknowledgement");
    copy(&there_before);
}

static int batch_report(void)
{
    int refused = 0;
    for (unsigned k = 0; k < COPIES; k++)
        refused |= node_reports(&copies[k]);
    return refused;
}

static void after_report_acknowledge(void)
{
    for (unsigned k = 0; k < COPIES; k++)
        must(node_reports(&copies[k]) == 20, "none is under way");
}

/* The timer of number 1 runs: it ends in a tick, and number 1 goes out before the others. */
static void after_report(void)
{
    after_report_acknowledge();
    for (unsigned k = 0; k < COPIES; k++)
        must(node_ticks(&copies[k]) == 0 && node_hands_out(&copies[k], here_store, STORE, frame, FRAME) == size + 9 &&
                 frame[7] == 1,
             "the timer has started");
}

static void before_arrive(void)
{
    open_both();
    fill(window);
    batch_length = 31; /* 32 acknowledgements may wait */
}

static int batch_in_order(void)
{
    int refused = 0;
    for (unsigned k = 0; k < batch_length; k++)
        refused |= into_there(frames[k], lengths[k]);
    return refused;
}

static int batch_out_of_order(void)
{
    int refused = 0;
    for (unsigned k = 1; k <= batch_length; k++)
        refused |= into_there(frames[k], lengths[k]);
    return refused;
}

static void before_faulty(void)
{
    open_both();
    batch_length = 64;
}

/* A Reset with number 4 arrives, and the driver asks which byte is at fault. */
static int batch_faulty(void)
{
    static const uint8_t numbered_reset[9] = {65, 238, 64, 2, 0, 0, 0, 4, 242};
    int wrong = 0;
    for (unsigned k = 0; k < 64; k++) {
        const int refused = into_there(numbered_reset, sizeof numbered_reset);
        wrong |= refused != 18 || at_fault(refused) != 7;
    }
    return wrong;
}

static void before_acknowledge(void)
{
    open_both();
    fill(window);
    acknowledge(window);
    batch_length = window;
}

static int batch_acknowledge(void)
{
    int refused = 0;
    for (unsigned k = 0; k < batch_length; k++)
        refused |= into_here(frames[k], 9);
    return refused;
}

static void before_round_trip(void)
{
    open_both();
    batch_length = entries * window;
}

/* All windows are filled; then each payload goes over, and its acknowledgement comes back; the end of each frame is
 * reported at the node that it leaves. */
static int batch_round_trip(void)
{
    int refused = 0;
    for (unsigned i = 0; i < entries; i++)
        for (unsigned k = 0; k < window; k++)
            refused |= send_one(i);
    for (unsigned k = 0; k < entries * window; k++) {
        refused |= into_there(frame, out_of_here());
        refused |= into_here(frame, out_of_there());
    }
    return refused;
}

static void after_round_trip(void)
{
    for (unsigned i = 0; i < entries; i++)
        must(node_confirmed(&here, i) == window, "what was sent is confirmed");
}

static void before_idle(void)
{
    open_both();
    batch_length = 64;
}

static void before_busy(void)
{
    open_both();
    fill(entries * window);
    batch_length = 64;
}

static int batch_tick(void)
{
    unsigned enabled = 0;
    for (unsigned k = 0; k < 64; k++)
        enabled |= node_ticks(&here);
    return enabled != 0;
}

/* Nothing is due for long. What setup left to be found out by a first tick is found out before. */
static void before_quiet(void)
{
    open_both();
    start_timers();
    pass_ticks(1);
    batch_length = 64;
}

/* The next tick ends no timer, but could: it is the one at which a timer would have ended that was stopped, and all
 * that run have started since the tick before. No bound that is left from the Resets' timers comes in between. */
static void before_through(void)
{
    timeout = 2;
    open_both();
    pass_ticks(timeout);
    stop_a_timer();
    pass_ticks(timeout - 1);
    start_timers();
    batch_length = 1;
}

/* The next tick ends every timer, all with retries left. */
static void before_ending(void)
{
    timeout = 1;
    open_both();
    start_timers();
    batch_length = 1;
}

static int batch_one_tick(void)
{
    return node_ticks(&here) != 0;
}

static void after_none_ended(void)
{
    must(begins_here() == 0, "no timer has ended");
}

static void after_all_ended(void)
{
    for (unsigned k = 0; k < timers; k++)
        must(out_of_here() == size + 9, "every timer has ended");
    after_none_ended();
}

/* None has ended, all do in the tick that follows. */
static void after_through(void)
{
    after_none_ended();
    pass_ticks(1);
    after_all_ended();
}

static void after_nothing(void)
{
}

static const struct row {
    const char *name;
    void (*before)(void);
    int (*batch)(void);
    void (*after)(void);
} rows[] = {
    {"read", before_reads, batch_reads, after_nothing},
    {"write", before_writes, batch_writes, after_nothing},
    {"send", before_send, batch_send, after_nothing},
    {"sends", before_plan, batch_send, after_plan},
    {"plan", before_plan, batch_plan, after_plan},
    {"hand_out", before_hand_out, batch_hand_out, after_nothing},
    {"report", before_report, batch_report, after_report},
    {"report_acknowledge", before_report_acknowledge, batch_report, after_report_acknowledge},
    {"data", before_arrive, batch_in_order, after_nothing},
    {"early_data", before_arrive, batch_out_of_order, after_nothing},
    {"faulty", before_faulty, batch_faulty, after_nothing},
    {"acknowledgement", before_acknowledge, batch_acknowledge, after_nothing},
    {"round_trip", before_round_trip, batch_round_trip, after_round_trip},
    {"idle_tick", before_idle, batch_tick, after_none_ended},
    {"busy_tick", before_busy, batch_tick, after_none_ended},
    {"quiet_tick", before_quiet, batch_tick, after_none_ended},
    {"through_tick", before_through, batch_one_tick, after_through},
    {"ending_tick", before_ending, batch_one_tick, after_all_ended},
};

/* ---- rounds */

static double now(void)
{
    struct timespec t;
    clock_gettime(CLOCK_MONOTONIC, &t);
    return (double)t.tv_sec * 1e9 + (double)t.tv_nsec;
}

/* A round in a mode; how long its batch took, by the clock. */
static double round_of(const struct row *row, int mode)
{
    double begin = 0;
    int refused;

    here = here_before;
    there = there_before;
    for (unsigned k = 0; copied != NULL && k < COPIES; k++)
        copies[k] = *copied;
    if (mode == 0)
        return 0;
    if (mode == 2)
        begin = now();
    refused = row->batch();
    must(!refused, "a call of the batch was refused");
    return mode == 2 ? now() - begin : 0;
}

static const struct row *row_called(const char *name)
{
    for (size_t i = 0; i < sizeof rows / sizeof *rows; i++)
        if (strcmp(name, rows[i].name) == 0)
            return &rows[i];
    must(0, "there is no such row");
    return NULL;
}

int main(int argc, char **argv)
{
    double best = 1e18;

    must(argc == 8, "usage: harness ROW ROUNDS MODE WINDOW ENTRIES PAYLOAD TIMERS");
    const struct row *row = row_called(argv[1]);
    int rounds = atoi(argv[2]), mode = atoi(argv[3]);
    window = (unsigned)atoi(argv[4]);
    entries = (unsigned)atoi(argv[5]);
    size = (unsigned)atoi(argv[6]);
    timers = (unsigned)atoi(argv[7]);
    for (size_t i = 0; i < sizeof payload; i++)
        payload[i] = (uint8_t)(i * 7);
    row->before();
    here_before = here;
    there_before = there;
    for (int k = 0; k < rounds; k++) {
        double took = round_of(row, mode);
        best = took < best ? took : best;
    }
    round_of(row, 1);
    row->after();
    printf("%u %.3f\n", batch_length, best / batch_length);
    return 0;
}
