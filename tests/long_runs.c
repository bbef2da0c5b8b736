/* The product and the C peer side by side for longer than a desk's stream lasts: more than 65,535 ticks a trace, so
 * that every timeout can run out and a clock of 16 bits goes round. Each call is made on both; answers, frames and
 * blocks must be the same to the byte.
 *
 *   long_runs TRACES
 *
 * First timers and plans by themselves, of which it is known by hand what they come to; then random calls on two nodes
 * whose entries name each other, over a link that loses frames and through ports that are quick or slow. Prints what
 * was reached, and last 'N passed, M failed': a trace each, and one that everything listed was reached. */
#include <stdio.h>
#include <stdlib.h>
#include <string.h>

#include "node.h"
#include "shelugvar.h"

enum {
    STORE = 4096,
    BLOCK = 4096,
    FRAME = 64,
    PAYLOAD = 16,
    ENTRIES = 4,
    ROUND = 65535,
    PLAN_BLOCK = SHELUGVAR_BLOCK_ROOM(SHELUGVAR_PLAN_MOST + 1, PAYLOAD + 1)
};

/* ---- what is to be reached */

enum event {
    LONG_TRACE,
    LONGEST_ENDS,
    LONGEST_ENDS_LATE,
    LONGEST_STOPPED,
    SHORTEST_ENDS_LATE,
    OVER_THE_ROUND,
    AT_THE_ROUND,
    SEVERAL_ENTRIES,
    OUT_OF_ORDER,
    STOPPED_FIRST,
    FAILS_AND_RECOVERS,
    RECOVERS_ALONE,
    CLOSED_RUNNING,
    SET_UP_RUNNING,
    SECOND_REFUSED,
    NONE_REFUSED,
    STARTED_LATE,
    STARTED_LATER,
    DATA_ANSWERED,
    RESET_ANSWERED,
    CLOSED_UNDER_WAY,
    FAILING_UNDER_WAY,
    SET_UP_UNDER_WAY,
    PLAN_WHOLE,
    PLAN_LONGEST,
    PLAN_STOPPED,
    PLAN_CUT,
    PLAN_AT_NOBODY,
    PLAN_WITHOUT,
    PLAN_ROUND,
    PLAN_LATE,
    PLAN_REFUSED,
    PLAN_TOO_MANY,
    EVENTS
};
static const char *const event_names[EVENTS] = {
    [LONG_TRACE] = "a trace of more than 65,535 ticks",
    [LONGEST_ENDS] = "a timer of T 65,535 ends",
    [LONGEST_ENDS_LATE] = "a timer of T 65,535 ends after the clock's round",
    [LONGEST_STOPPED] = "a timer of T 65,535 is stopped by its acknowledgement",
    [SHORTEST_ENDS_LATE] = "a timer of T 1 ends after the clock's round",
    [OVER_THE_ROUND] = "a timer of a shorter T starts before the clock's round and ends after it",
    [AT_THE_ROUND] = "a timer ends in the tick of the clock's round",
    [SEVERAL_ENTRIES] = "timers of several entries end in one tick",
    [OUT_OF_ORDER] = "timers end in one tick in another order than they started",
    [STOPPED_FIRST] = "acknowledgement stops the first timer due of several",
    [FAILS_AND_RECOVERS] = "failing and recovery in one tick",
    [RECOVERS_ALONE] = "recovery in a tick at which no timer is due",
    [CLOSED_RUNNING] = "close while the entry's timers run",
    [SET_UP_RUNNING] = "setup while timers run",
    [SECOND_REFUSED] = "handing out refused, since a frame is under way",
    [NONE_REFUSED] = "report refused, since none is",
    [STARTED_LATE] = "a timer starts ticks after its frame was handed out",
    [STARTED_LATER] = "a timer starts more than the clock's round after that",
    [DATA_ANSWERED] = "Data is acknowledged while it is under way",
    [RESET_ANSWERED] = "a Reset is answered while it is under way",
    [CLOSED_UNDER_WAY] = "close while the entry's frame is under way",
    [FAILING_UNDER_WAY] = "a Failing end waits for its frame under way alone",
    [SET_UP_UNDER_WAY] = "setup while a frame is under way",
    [PLAN_WHOLE] = "a plan of several payloads is accepted whole",
    [PLAN_LONGEST] = "a plan of 64 payloads is accepted whole",
    [PLAN_STOPPED] = "the full window stops a plan of which some are accepted",
    [PLAN_CUT] = "a payload's length stops a plan of which some are accepted",
    [PLAN_AT_NOBODY] = "a plan for an index that does not exist is stopped at once",
    [PLAN_WITHOUT] = "a plan without payloads is accepted, for such an index too",
    [PLAN_ROUND] = "a plan takes sequence numbers on from 255 to 0",
    [PLAN_LATE] = "a plan is accepted after the clock's round",
    [PLAN_REFUSED] = "a plan is refused, since an offset of its block is wrong",
    [PLAN_TOO_MANY] = "a plan is refused, since its block has 65 payloads",
};
static unsigned long seen[EVENTS];

/* ---- both programs as one: a call answers what both answer */

struct side {
    struct shelugvar_node ours;
    struct node peers;
    uint8_t our_store[STORE], peers_store[STORE];
};

static struct side here, there; /* the sender's side, the receiver's */
static unsigned long ticks;     /* of `here` in this trace */
static unsigned long went_out;  /* the tick at which `here` last handed out a frame */
static unsigned long ticks_in_all, calls;
static const char *trace;
static unsigned long trace_number;
static int differs; /* in this trace; it then goes no further */
static unsigned count, timeouts[ENTRIES], retries[ENTRIES], windows[ENTRIES];

/* Answers `ours`, which is to be the peer's too. */
static unsigned long same(const char *what, unsigned long ours, unsigned long peers)
{
    calls++;
    if (ours != peers && !differs) {
        printf("%s %lu, tick %lu, %s: ours %lu, peer's %lu\n", trace, trace_number, ticks, what, ours, peers);
        differs = 1;
    }
    return ours;
}

static void must(int holds, const char *what)
{
    if (!holds && !differs) {
        printf("%s %lu, tick %lu: %s\n", trace, trace_number, ticks, what);
        differs = 1;
    }
}

static unsigned long set_up(struct side *s, const uint8_t *table, size_t length)
{
    return same("setup", shelugvar_node_setup(&s->ours, s->our_store, STORE, table, length),
                (unsigned long)node_setup(&s->peers, STORE, table, length));
}

static unsigned long open_entry(struct side *s, unsigned i)
{
    return same("open", shelugvar_node_open(&s->ours, i), (unsigned long)node_open(&s->peers, i));
}

static unsigned long close_entry(struct side *s, unsigned i)
{
    return same("close", shelugvar_node_close(&s->ours, i), (unsigned long)node_close(&s->peers, i));
}

static unsigned long send_one(struct side *s, unsigned i, const uint8_t *payload, size_t length)
{
    return same("send", shelugvar_node_send(&s->ours, s->our_store, STORE, i, payload, length),
                (unsigned long)node_send(&s->peers, s->peers_store, STORE, i, payload, length));
}

static unsigned long send_urgent(struct side *s, unsigned i, const uint8_t *payload, size_t length)
{
    return same("urgent", shelugvar_node_urgent(&s->ours, s->our_store, STORE, i, payload, length),
                (unsigned long)node_urgent(&s->peers, s->peers_store, STORE, i, payload, length));
}

static unsigned long send_plan(struct side *s, unsigned i, const uint8_t *block, size_t length,
                               struct shelugvar_planned *planned)
{
    struct planned peers = {planned->accepted, planned->stop};
    unsigned long refused =
        same("plan", shelugvar_node_plan(&s->ours, s->our_store, STORE, i, block, length, planned),
             (unsigned long)node_plan(&s->peers, s->peers_store, STORE, i, block, length, &peers));

    same("a plan's accepted", planned->accepted, peers.accepted);
    same("a plan's stop", planned->stop, (unsigned long)peers.stopped);
    return refused;
}

static void ask_counts(struct side *s, unsigned i)
{
    struct shelugvar_sender_counts ours = {0, 0};
    struct counts peers = {0, 0};

    same("counts", shelugvar_node_counts(&s->ours, i, &ours), (unsigned long)node_counts(&s->peers, i, &peers));
    same("accepted", ours.accepted, peers.accepted);
    same("confirmed", ours.confirmed, peers.confirmed);
}

/* The frame's length, 0 where nothing waits or a frame is under way. */
static size_t hand_out(struct side *s, uint8_t *frame)
{
    uint8_t peers_frame[FRAME];
    size_t length = 0, peers_length = 0;
    unsigned long refused =
        same("hand out", shelugvar_node_hand_out(&s->ours, s->our_store, STORE, frame, FRAME, &length),
             (unsigned long)node_hand_out(&s->peers, s->peers_store, STORE, peers_frame, FRAME, &peers_length));

    seen[SECOND_REFUSED] += refused == SHELUGVAR_UNDER_WAY;
    if (same("a frame's length", length, peers_length) == peers_length)
        same("a frame", 0, memcmp(frame, peers_frame, length) != 0);
    if (s == &here && length != 0)
        went_out = ticks;
    return length;
}

/* Whether the end of the frame under way is to start a timer. */
static int starts_a_timer(const struct side *s)
{
    return s->peers.waiting.item[s->peers.waiting.under_way].list == LIST_TIMER_AT_END;
}

static unsigned long report(struct side *s)
{
    const int late = s == &here && starts_a_timer(s) && ticks > went_out;
    unsigned long refused =
        same("report", shelugvar_node_report(&s->ours), (unsigned long)node_frame_end(&s->peers));

    seen[NONE_REFUSED] += refused == SHELUGVAR_NONE_UNDER_WAY;
    seen[STARTED_LATE] += (unsigned long)late;
    seen[STARTED_LATER] += late && ticks - went_out > ROUND;
    return refused;
}

/* The same by a port that has sent the frame at once. */
static size_t send_out(struct side *s, uint8_t *frame)
{
    const size_t length = hand_out(s, frame);

    if (length != 0)
        report(s);
    return length;
}

static void take_in(struct side *s, const uint8_t *frame, size_t length)
{
    static uint8_t block[BLOCK], peers_block[BLOCK];
    struct shelugvar_arrived ours = {0};
    struct arrival peers = {0};
    unsigned long refused =
        same("arrival", shelugvar_node_arrival(&s->ours, s->our_store, STORE, block, BLOCK, frame, length, &ours),
             (unsigned long)node_arrival(&s->peers, s->peers_store, STORE, peers_block, BLOCK, frame, length, &peers));
    int writes_block = refused == 0 && (ours.what == SHELUGVAR_WAS_DATA || ours.what == SHELUGVAR_WAS_URGENT);

    same("what arrived", ours.what, peers.what);
    same("an arrival's entry", ours.entry, peers.index);
    unsigned long value = same("an arrival's value", ours.value, writes_block ? peers.block_length : peers.number);

    if (writes_block && value == peers.block_length)
        same("a block", 0, memcmp(block, peers_block, ours.value) != 0);
}

/* ---- the running timers of `here`, read out of the peer, which lists those of each entry in the order they are due */

static const struct item *first_timer(unsigned i)
{
    unsigned number = here.peers.waiting.list[LIST_TIMERS + i].first;

    return number == ITEM_NONE ? NULL : &here.peers.waiting.item[number];
}

/* In how many ticks it is due. */
static uint32_t left(const struct item *timer)
{
    return timer->due - here.peers.waiting.now;
}

static int runs_any(void)
{
    for (unsigned i = 0; i < count; i++)
        if (first_timer(i))
            return 1;
    return 0;
}

/* Those of entry i that end in the tick to come. */
static void see_ending(unsigned i)
{
    const struct item *timer = first_timer(i);
    unsigned long began = ticks + 1 - timeouts[i];

    seen[LONGEST_ENDS] += timeouts[i] == ROUND;
    seen[LONGEST_ENDS_LATE] += timeouts[i] == ROUND && began > ROUND;
    seen[SHORTEST_ENDS_LATE] += timeouts[i] == 1 && ticks > ROUND;
    seen[OVER_THE_ROUND] += timeouts[i] > 1 && timeouts[i] < ROUND && began / ROUND < (ticks + 1) / ROUND;
    seen[AT_THE_ROUND] += (ticks + 1) % ROUND == 0;
    while (timer->next != ITEM_NONE) {
        const struct item *next = &here.peers.waiting.item[timer->next];
        uint8_t start = here.peers.end[i].window.start;

        if (left(next) != 1)
            return;
        seen[OUT_OF_ORDER] += (uint8_t)(next->sequence - start) < (uint8_t)(timer->sequence - start);
        timer = next;
    }
}

/* A tick of `here`: the entries that became Enabled. */
static unsigned long tick(void)
{
    unsigned ending = 0, failing = here.peers.failing;
    unsigned long enabled;

    for (unsigned i = 0; i < count; i++)
        if (first_timer(i) && left(first_timer(i)) == 1) {
            see_ending(i);
            ending++;
        }
    enabled = same("tick", shelugvar_node_tick(&here.ours), node_tick(&here.peers));
    ticks++;
    ticks_in_all++;
    seen[LONG_TRACE] += ticks == ROUND + 1;
    seen[SEVERAL_ENTRIES] += ending > 1;
    seen[FAILS_AND_RECOVERS] += (enabled & ~failing) != 0;
    seen[RECOVERS_ALONE] += enabled != 0 && ending == 0;
    for (unsigned i = 0; i < count; i++)
        seen[FAILING_UNDER_WAY] += here.peers.failing >> i & 1 && !first_timer(i) &&
                                   has_under_way(&here.peers.waiting, i);
    return enabled;
}

/* Ticks that answer nothing. */
static void quiet_ticks(unsigned long many)
{
    for (unsigned long k = 0; k < many && !differs; k++)
        must(tick() == 0, "an end recovers");
}

/* An acknowledgement comes in at `here`; which timer it stops, or keeps from starting, is seen by what it leaves. */
static void take_in_here(const uint8_t *frame, size_t length)
{
    const struct item *first[ENTRIES];
    const int was_to_start = starts_a_timer(&here), is_data = here.peers.waiting.under_way >= ITEM_DATA;
    unsigned soonest = 0;
    uint32_t due[ENTRIES];

    for (unsigned i = 0; i < count; i++) {
        first[i] = first_timer(i);
        due[i] = first[i] ? left(first[i]) : UINT32_MAX;
        soonest = due[i] < due[soonest] ? i : soonest;
    }
    take_in(&here, frame, length);
    for (unsigned i = 0; i < count; i++)
        if (first[i] && first_timer(i) != first[i]) {
            seen[LONGEST_STOPPED] += timeouts[i] == ROUND;
            seen[STOPPED_FIRST] += i == soonest && runs_any();
        }
    if (was_to_start && !starts_a_timer(&here))
        seen[is_data ? DATA_ANSWERED : RESET_ANSWERED]++;
}

/* ---- two sides whose entries name each other */

static size_t table(uint8_t *to, uint8_t own, uint8_t other, int receives)
{
    size_t at = 8;

    memcpy(to, (const uint8_t[8]){0, (uint8_t)count, 0, 8, own, 238, 0, 0}, 8);
    for (unsigned i = 0; i < count; i++, at += 12) {
        const unsigned t = receives ? 0 : timeouts[i];
        const uint8_t entry[12] = {(uint8_t)receives, other, (uint8_t)i, receives ? 0 : (uint8_t)retries[i],
                                   0, (uint8_t)windows[i], 0, PAYLOAD,
                                   (uint8_t)(t >> 8), (uint8_t)t, 0, 0};
        memcpy(to + at, entry, 12);
    }
    return at;
}

static void set_up_both(void)
{
    uint8_t bytes[8 + ENTRIES * 12];
    size_t length = table(bytes, 64, 65, 0);

    must(set_up(&here, bytes, length) == 0, "setup of the sending side is refused");
    length = table(bytes, 65, 64, 1);
    must(set_up(&there, bytes, length) == 0, "setup of the receiving side is refused");
    for (unsigned i = 0; i < count; i++)
        must(open_entry(&here, i) == 0 && open_entry(&there, i) == 0, "an open is refused");
}

/* A frame goes over and is taken in; its length. */
static size_t go_over(void)
{
    uint8_t frame[FRAME];
    size_t length = send_out(&here, frame);

    take_in(&there, frame, length);
    return length;
}

static size_t come_back(void)
{
    uint8_t frame[FRAME];
    size_t length = send_out(&there, frame);

    take_in_here(frame, length);
    return length;
}

static void new_trace(const char *name, unsigned long number)
{
    memset(&here, 0, sizeof here);
    memset(&there, 0, sizeof there);
    ticks = 0;
    differs = 0;
    trace = name;
    trace_number = number;
}

/* ---- a timer by itself: Data is handed out after so many ticks and its end reported some ticks later; the timer ends
 * T after the report, Data is sent again and fails after T more */

static int alone(unsigned timeout, unsigned long after, unsigned long under_way)
{
    uint8_t frame[FRAME], payload[PAYLOAD] = {1};

    new_trace("a timer by itself, after ticks", after);
    count = 1;
    timeouts[0] = timeout;
    retries[0] = 1;
    windows[0] = 1;
    set_up_both();
    must(go_over() == 9 && come_back() == 9, "it does not open");
    quiet_ticks(after);
    must(send_one(&here, 0, payload, PAYLOAD) == 0 && hand_out(&here, frame) == PAYLOAD + 9, "nothing is sent");
    quiet_ticks(under_way);
    must(report(&here) == 0, "its end is refused");
    quiet_ticks(timeout - 1);
    must(hand_out(&here, frame) == 0, "it ends too soon");
    quiet_ticks(1);
    must(send_out(&here, frame) == PAYLOAD + 9, "it does not end");
    quiet_ticks(timeout - 1);
    must(tick() == 1 && hand_out(&here, frame) == 9, "it does not fail and recover");
    return differs;
}

/* ---- random calls */

static uint64_t state;
static unsigned asleep; /* so many steps nothing comes back */

static unsigned below(unsigned n)
{
    state ^= state << 13;
    state ^= state >> 7;
    state ^= state << 17;
    return (unsigned)((state >> 20) % n);
}

/* Short ones, or all sorts from the shortest to the longest. */
static unsigned random_timeout(int short_ones)
{
    switch (below(short_ones ? 3 : 6)) {
    case 0:
        return 1;
    case 1:
        return 1 + below(8);
    case 2:
        return 1 + below(60);
    case 3:
        return 1 + below(2000);
    default:
        return ROUND - (below(2) ? 0 : below(3));
    }
}

static void random_table(int short_ones)
{
    count = 1 + below(ENTRIES);
    for (unsigned i = 0; i < count; i++) {
        timeouts[i] = random_timeout(short_ones);
        retries[i] = below(2) ? 0 : below(4);
        windows[i] = 1U << below(4);
    }
}

static void random_send(void)
{
    uint8_t payload[PAYLOAD];
    unsigned i = below(count), length = 1 + below(PAYLOAD);

    for (unsigned k = 0; k < length; k++)
        payload[k] = (uint8_t)below(256);
    if (below(12) == 0)
        send_urgent(&here, i, payload, length);
    else
        send_one(&here, i, payload, length);
}

/* A plan's block of so many payloads, of which in a hundred so many odd ones may have no byte or one too many. Its
 * length. */
static size_t random_block(uint8_t *block, unsigned payloads, unsigned odd)
{
    size_t end = SHELUGVAR_PLAN_LENGTH(payloads, 0);

    memcpy(block, (const uint8_t[2]){0, (uint8_t)payloads}, 2);
    for (unsigned k = 0; k <= payloads; k++) {
        const unsigned length = below(100) < odd ? below(PAYLOAD + 2) : 1 + below(PAYLOAD);

        memcpy(block + 2 + 4 * k, (const uint8_t[4]){0, 0, (uint8_t)(end >> 8), (uint8_t)end}, 4);
        for (unsigned b = 0; k < payloads && b < length; b++)
            block[end++] = (uint8_t)below(256);
    }
    return end;
}

/* The sequence number that the next payload for entry i is to take. */
static unsigned next_number(unsigned i)
{
    const struct end_point *end = &here.peers.end[i];

    return (uint8_t)(end->window.start + end->taken);
}

/* What a plan of so many payloads for entry i came to, which was to take sequence numbers from `next` on. */
static void see_plan(unsigned i, unsigned payloads, unsigned next, const struct shelugvar_planned *planned)
{
    const enum shelugvar_refusal stop = shelugvar_planned_stop(planned);

    seen[PLAN_WHOLE] += payloads > 1 && stop == SHELUGVAR_DONE;
    seen[PLAN_LONGEST] += payloads == SHELUGVAR_PLAN_MOST && stop == SHELUGVAR_DONE;
    seen[PLAN_STOPPED] += planned->accepted > 0 && stop == SHELUGVAR_WINDOW_FULL;
    seen[PLAN_CUT] += planned->accepted > 0 && stop == SHELUGVAR_PAYLOAD_LENGTH;
    seen[PLAN_AT_NOBODY] += stop == SHELUGVAR_NO_ENTRY;
    seen[PLAN_WITHOUT] += payloads == 0 && i == count;
    seen[PLAN_ROUND] += next + planned->accepted > 256;
    seen[PLAN_LATE] += planned->accepted > 0 && ticks > ROUND;
}

/* A plan, mostly of about as many payloads as a window has numbers, for an entry or for the index behind the last. Of
 * eight blocks one has a bit of its count or its offsets flipped. */
static void random_plan(void)
{
    uint8_t block[PLAN_BLOCK];
    const unsigned i = below(16) ? below(count) : count, payloads = below(16) ? below(12) : 60 + below(6);
    const size_t length = random_block(block, payloads, 5);
    const unsigned next = next_number(i);
    struct shelugvar_planned planned = {99, 99}; /* as which a refused plan leaves it */

    if (below(8) == 0)
        block[below(SHELUGVAR_PLAN_LENGTH(payloads, 0))] ^= (uint8_t)(1U << below(8));
    if (send_plan(&here, i, block, length, &planned) == 0)
        see_plan(i, payloads, next, &planned);
    else
        seen[payloads > SHELUGVAR_PLAN_MOST ? PLAN_TOO_MANY : PLAN_REFUSED]++;
}

/* A frame goes over or comes back, if the link does not lose it. A slow port reports its end at some later step. */
static void random_frame(int over, unsigned loss, unsigned slow)
{
    struct side *from = over ? &here : &there;
    uint8_t frame[FRAME];
    size_t length = hand_out(from, frame);

    if (length != 0 && below(100) >= slow)
        report(from);
    if (length == 0 || below(100) < loss)
        return;
    if (over)
        take_in(&there, frame, length);
    else
        take_in_here(frame, length);
}

static void random_close(void)
{
    unsigned i = below(count);

    seen[CLOSED_RUNNING] += first_timer(i) != NULL;
    seen[CLOSED_UNDER_WAY] += has_under_way(&here.peers.waiting, i);
    close_entry(&here, i);
    open_entry(&here, i);
}

static void random_step(unsigned loss, unsigned slow)
{
    unsigned what = below(1000);

    asleep -= asleep > 0;
    if (what < 160)
        random_send();
    else if (what < 200)
        random_plan();
    else if (what < 500)
        random_frame(1, loss, slow);
    else if (what < 720 && asleep == 0)
        random_frame(0, loss, slow);
    else if (what < 740)
        ask_counts(&here, below(count));
    else if (what < 743)
        random_close();
    else if (what < 760)
        asleep = below(60);
    else if (what < 820)
        report(what < 800 ? &here : &there);
    else
        tick();
}

/* Steps, then as many ticks as bring the clock to a few before its next round, and so on over some rounds. */
static int random_trace(unsigned long seed)
{
    const int short_ones = seed % 3 == 0;

    new_trace("random calls, seed", seed);
    state = seed * 0x9E3779B97F4A7C15ULL + 1;
    asleep = 0;
    random_table(short_ones);
    set_up_both();
    for (unsigned rounds = 1 + below(3); rounds > 0 && !differs; rounds--) {
        const unsigned loss = below(3) ? below(100) : 0, slow = below(3) ? below(60) : 0;

        for (unsigned k = 0; k < 1500 && !differs; k++)
            random_step(loss, slow);
        const unsigned long to_go = ROUND - ticks % ROUND;

        for (unsigned long far = to_go - below(40) % to_go; far > 0 && !differs; far--)
            tick();
        if (below(2) == 0) {
            seen[SET_UP_RUNNING] += (unsigned long)runs_any();
            seen[SET_UP_UNDER_WAY] += here.peers.waiting.under_way != ITEM_NONE;
            set_up_both();
        }
        for (unsigned k = 0; k < 1500 && !differs; k++)
            random_step(loss, slow);
    }
    return differs;
}

/* ---- plans by themselves, of 64 payloads over a link that loses nothing: each is accepted as far as the window goes,
 * and what is accepted arrives before the next; the sequence numbers go round */

static int planned_alone(unsigned window)
{
    const unsigned all = SHELUGVAR_PLAN_MOST, most = window < all ? window : all;
    uint8_t block[PLAN_BLOCK];

    new_trace("plans by themselves, window", window);
    state = window;
    count = 1;
    timeouts[0] = 1;
    retries[0] = 0;
    windows[0] = window;
    set_up_both();
    must(go_over() == 9 && come_back() == 9, "it does not open");
    for (unsigned sent = 0; sent < 600 && !differs; sent += most) {
        const size_t length = random_block(block, all, 0);
        const unsigned next = next_number(0);
        struct shelugvar_planned planned = {0, 0};

        must(send_plan(&here, 0, block, length, &planned) == 0 && planned.accepted == most &&
                 planned.stop == (most < all ? SHELUGVAR_WINDOW_FULL : SHELUGVAR_DONE),
             "a plan is not accepted as far as the window goes");
        see_plan(0, all, next, &planned);
        for (unsigned k = 0; k < most; k++)
            must(go_over() > 9 && come_back() == 9, "a payload of a plan is not acknowledged");
    }
    return differs;
}

int main(int argc, char **argv)
{
    static const unsigned alone_timeouts[] = {1, 2, ROUND - 1, ROUND};
    static const unsigned long afters[] = {0, 1, ROUND - 2, ROUND - 1, ROUND, ROUND + 1}, slows[] = {0, 3, ROUND + 1};
    unsigned long traces = argc == 2 ? strtoul(argv[1], NULL, 10) : 0, run = 0, failed = 0;
    int missing = 0;

    for (size_t t = 0; t < sizeof alone_timeouts / sizeof *alone_timeouts; t++)
        for (size_t k = 0; k < sizeof afters / sizeof *afters; k++)
            for (size_t s = 0; s < sizeof slows / sizeof *slows; s++, run++)
                failed += (unsigned long)alone(alone_timeouts[t], afters[k], slows[s]);
    for (unsigned window = 1; window <= SHELUGVAR_WINDOW_MOST; window *= 2, run++)
        failed += (unsigned long)planned_alone(window);
    for (unsigned long seed = 1; seed <= traces; seed++, run++)
        failed += (unsigned long)random_trace(seed);
    printf("%lu traces, %lu ticks, %lu answers compared\n", run, ticks_in_all, calls);
    for (size_t k = 0; k < EVENTS; k++) {
        printf("%10lu  %s\n", seen[k], event_names[k]);
        missing |= seen[k] == 0;
    }
    if (missing)
        printf("something of this list was not reached\n");
    failed += (unsigned long)missing;
    printf("%lu passed, %lu failed\n", run + 1 - failed, failed);
    return failed != 0;
}
