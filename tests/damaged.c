/* Nodes whose memory was damaged: bits of node and book are flipped, calls follow, and whatever these answer, it leads
 * nowhere outside what was lent. Every length answered is at most the length lent, every entry is one that a table can
 * have, every refusal is one of the list, and the bytes before and after store, blocks and frame buffer are as they
 * were. A plan, of a good block or of one that is nearly good, answers and leaves what its sends do on a copy of the
 * damaged node; refused, it leaves all as it was. Ends with 'N passed, M failed', a test for each sort of call, and
 * with status 1 where one failed. */
#include <stdio.h>
#include <stdlib.h>
#include <string.h>

#include "shelugvar.h"

enum {
    OWN = 65,
    OTHER = 64,
    WINDOW = 8,
    PAYLOAD = 16,
    SENDER = 0,
    RECEIVER = 1,
    MARGIN = 256, /* bytes around each thing lent; what lies in them must stay */
    MARK = 0xa5,
    FLIPS_MOST = 4,
    CALLS = 10
};

enum {
    STORE = SHELUGVAR_SENDER_STORE(WINDOW, PAYLOAD) + SHELUGVAR_RECEIVER_STORE(WINDOW, PAYLOAD),
    BLOCK = SHELUGVAR_BLOCK_ROOM(WINDOW, PAYLOAD),
    FRAME = SHELUGVAR_FRAME_ROOM(PAYLOAD),
    PLANNED_MOST = SHELUGVAR_PLAN_MOST + 1, /* payloads that are planned here: one too many, */
    PLANNED_LONGEST = PAYLOAD + 1,          /* and one byte too long */
    PLAN_BLOCK = SHELUGVAR_BLOCK_ROOM(PLANNED_MOST, PLANNED_LONGEST)
};

/* What is lent, each with marks around it. */
static struct {
    uint8_t before[MARGIN], bytes[STORE], after[MARGIN];
} store;
static struct {
    uint8_t before[MARGIN], bytes[BLOCK], after[MARGIN];
} block;
static struct {
    uint8_t before[MARGIN], bytes[FRAME], after[MARGIN];
} frame;
static struct {
    uint8_t before[MARGIN], bytes[PLAN_BLOCK], after[MARGIN];
} plan_block;
static struct shelugvar_node node;

/* the sorts of call that are tested, what was wrong with each, and how often each was made and not refused */
enum {
    ARRIVAL,
    HAND_OUT,
    PLAN,
    REPORT,
    SEND,
    TICK,
    SORTS
};
static const char *const names[SORTS] = {"arrival", "hand out", "plan", "report", "send and Urgent", "tick"};
static unsigned long made[SORTS], wrong[SORTS];

static unsigned draw(unsigned below)
{
    static uint64_t state = 1;

    state = state * 6364136223846793005u + 1442695040888963407u;
    return (unsigned)(state >> 33) % below;
}

static int marked(const uint8_t *bytes)
{
    for (size_t i = 0; i < MARGIN; i++)
        if (bytes[i] != MARK)
            return 0;
    return 1;
}

/* Whether a number is one of the header's list, which has none between 11 and 13, nor between 20 and 22. */
static int is_listed(enum shelugvar_refusal refused)
{
    return refused <= SHELUGVAR_NOT_OURS ||
           (refused >= SHELUGVAR_NO_END_POINT && refused <= SHELUGVAR_NONE_UNDER_WAY) ||
           refused == SHELUGVAR_BAD_BLOCK;
}

static void judge(unsigned sort, enum shelugvar_refusal refused, size_t length, size_t lent)
{
    int whole = marked(store.before) && marked(store.after) && marked(block.before) && marked(block.after) &&
                marked(frame.before) && marked(frame.after) && marked(plan_block.before) && marked(plan_block.after);

    made[sort] += refused == SHELUGVAR_DONE;
    wrong[sort] += !whole || !is_listed(refused) || length > lent;
}

/* A frame of the other node's comes in. */
static void take(enum shelugvar_frame_type type, unsigned number)
{
    static const uint8_t payload[PAYLOAD] = {1, 2, 3};
    const int carries = type == SHELUGVAR_DATA || type == SHELUGVAR_URGENT;
    const struct shelugvar_fields fields = {
        OWN, SHELUGVAR_PROTOCOL_ID, OTHER, (uint8_t)type, 0, 7, (uint8_t)number};
    const size_t length = carries ? 1 + draw(PAYLOAD) : 0;
    uint8_t bytes[FRAME];
    struct shelugvar_arrived arrived = {0, 0, 0};

    if (shelugvar_write_frame(bytes, FRAME, &fields, payload, length) != SHELUGVAR_DONE)
        exit(2);
    const enum shelugvar_refusal refused = shelugvar_node_arrival(
        &node, store.bytes, STORE, block.bytes, BLOCK, bytes, length + SHELUGVAR_FRAME_OVERHEAD, &arrived);
    const enum shelugvar_what what = shelugvar_arrived_what(&arrived);
    const int writes = what == SHELUGVAR_WAS_DATA || what == SHELUGVAR_WAS_URGENT;

    judge(ARRIVAL, refused, refused == SHELUGVAR_DONE && writes ? arrived.value : 0, BLOCK);
    wrong[ARRIVAL] += refused == SHELUGVAR_DONE && arrived.entry >= SHELUGVAR_ENTRIES_MOST;
}

/* Mostly Data and acknowledgements of numbers in the first window. */
static void arrive(void)
{
    const unsigned sort = draw(16);

    if (sort < 8)
        take(SHELUGVAR_DATA, 1 + draw(WINDOW));
    else if (sort < 14)
        take(SHELUGVAR_ACKNOWLEDGE, draw(WINDOW));
    else
        take(sort == 14 ? SHELUGVAR_RESET : SHELUGVAR_URGENT, 0);
}

static void hand_out(void)
{
    size_t length = 0;
    const enum shelugvar_refusal refused =
        shelugvar_node_hand_out(&node, store.bytes, STORE, frame.bytes, FRAME, &length);

    judge(HAND_OUT, refused, refused == SHELUGVAR_DONE ? length : 0, FRAME);
}

static void report(void)
{
    judge(REPORT, shelugvar_node_report(&node), 0, 0);
}

static void send(void)
{
    static const uint8_t payload[PAYLOAD] = {4, 5, 6};
    const size_t length = 1 + draw(PAYLOAD);
    const enum shelugvar_refusal refused =
        draw(4) != 0 ? shelugvar_node_send(&node, store.bytes, STORE, SENDER, payload, length)
                     : shelugvar_node_urgent(&node, store.bytes, STORE, SENDER, payload, length);

    judge(SEND, refused, 0, 0);
}

/* Where payload k of the plan's block begins, or the block ends. */
static size_t offset(size_t k)
{
    const uint8_t *at = plan_block.bytes + 2 + 4 * k;

    return (size_t)at[0] << 24 | (size_t)at[1] << 16 | (size_t)at[2] << 8 | at[3];
}

/* A block of so many payloads, few of which have no byte or one too many. Its length. */
static size_t write_plan(unsigned count)
{
    size_t end = SHELUGVAR_PLAN_LENGTH(count, 0);

    plan_block.bytes[0] = 0;
    plan_block.bytes[1] = (uint8_t)count;
    for (unsigned k = 0; k <= count; k++) {
        const uint8_t number[4] = {0, 0, (uint8_t)(end >> 8), (uint8_t)end};
        const unsigned length = draw(32) != 0 ? 1 + draw(PAYLOAD) : draw(PLANNED_LONGEST + 1);

        memcpy(plan_block.bytes + 2 + 4 * k, number, sizeof number);
        for (unsigned b = 0; k < count && b < length; b++)
            plan_block.bytes[end++] = (uint8_t)draw(256);
    }
    return end;
}

/* Such a block, mostly with a bit of its count or its offsets flipped; or noise, of any length. */
static size_t some_plan(void)
{
    const unsigned sort = draw(16), count = draw(4) != 0 ? draw(2 * WINDOW) : draw(PLANNED_MOST + 1);
    const size_t length = write_plan(count);

    if (sort < 9)
        plan_block.bytes[draw(SHELUGVAR_PLAN_LENGTH(count, 0))] ^= (uint8_t)(1u << draw(8));
    if (sort != 9)
        return length;
    for (size_t b = 0; b < PLAN_BLOCK; b++)
        plan_block.bytes[b] = (uint8_t)draw(256);
    return draw(PLAN_BLOCK + 1);
}

/* Whether the sends of a plan, one by one, answer what it came to. */
static int sends_answer(struct shelugvar_node *n, uint8_t *to, size_t index, const struct shelugvar_planned *planned)
{
    const enum shelugvar_refusal stop = shelugvar_planned_stop(planned);
    const size_t sends = planned->accepted + (stop == SHELUGVAR_DONE ? 0u : 1u);

    for (size_t k = 0; k < sends; k++)
        if (shelugvar_node_send(n, to, STORE, index, plan_block.bytes + offset(k), offset(k + 1) - offset(k)) !=
            (k < planned->accepted ? SHELUGVAR_DONE : stop))
            return 0;
    return stop != SHELUGVAR_DONE || planned->accepted == plan_block.bytes[1];
}

/* A plan, and its sends on a copy of what it was lent. */
static void plan(void)
{
    static struct shelugvar_node copy;
    static uint8_t copied_store[STORE];
    const size_t length = some_plan(), index = draw(8) != 0 ? SENDER : draw(SHELUGVAR_ENTRIES_MOST);
    struct shelugvar_planned planned = {MARK, MARK};

    copy = node;
    memcpy(copied_store, store.bytes, STORE);
    const enum shelugvar_refusal refused =
        shelugvar_node_plan(&node, store.bytes, STORE, index, plan_block.bytes, length, &planned);

    judge(PLAN, refused, refused == SHELUGVAR_DONE ? planned.accepted : 0, plan_block.bytes[1]);
    if (refused == SHELUGVAR_DONE)
        wrong[PLAN] += !sends_answer(&copy, copied_store, index, &planned);
    else
        wrong[PLAN] += planned.accepted != MARK || planned.stop != MARK;
    wrong[PLAN] += memcmp(&node, &copy, sizeof node) != 0 || memcmp(store.bytes, copied_store, STORE) != 0;
}

static void some_call(void)
{
    const unsigned sort = draw(15);

    if (sort < 4)
        arrive();
    else if (sort < 7)
        hand_out();
    else if (sort < 10)
        report();
    else if (sort < 12)
        send();
    else if (sort < 14)
        plan();
    else
        judge(TICK, SHELUGVAR_DONE, shelugvar_node_tick(&node), UINT16_MAX);
}

/* A node with both its ends open, by calls alone: all but the first number of a window are held, and payloads wait;
 * some frames have gone out, and the last of them is under way. */
static void begin(void)
{
    static const uint8_t table[] = {SHELUGVAR_HEAD(2, OWN, SHELUGVAR_PROTOCOL_ID),
                                    SHELUGVAR_SENDER(OTHER, 7, 3, WINDOW, PAYLOAD, 5),
                                    SHELUGVAR_RECEIVER(OTHER, 7, WINDOW, PAYLOAD)};

    memset(&node, 0, sizeof node);
    if (shelugvar_node_setup(&node, store.bytes, STORE, table, sizeof table) != SHELUGVAR_DONE ||
        shelugvar_node_open(&node, SENDER) != SHELUGVAR_DONE || shelugvar_node_open(&node, RECEIVER) != SHELUGVAR_DONE)
        exit(2);
    hand_out();
    report();
    take(SHELUGVAR_ACKNOWLEDGE, 0);
    take(SHELUGVAR_RESET, 0);
    for (unsigned number = 2; number <= WINDOW; number++)
        take(SHELUGVAR_DATA, number);
    for (unsigned i = 0; i < WINDOW; i++)
        send();
    hand_out();
    for (unsigned i = draw(2 * WINDOW); i > 0; i--) {
        report();
        hand_out();
    }
}

/* A place that is in use, or perhaps not: what is not 0 is. */
static unsigned place(const uint16_t *halves, unsigned count)
{
    unsigned at = draw(count);

    for (unsigned tries = 0; tries < 1000 && halves[at] == 0; tries++)
        at = draw(count);
    return at;
}

/* Some bits of node and book are flipped. */
static void damage(void)
{
    for (unsigned i = 1 + draw(FLIPS_MOST); i > 0; i--)
        if (draw(4) == 0)
            node.node[draw(SHELUGVAR_NODE_WORDS)] ^= UINT64_C(1) << draw(64);
        else
            node.book[place(node.book, SHELUGVAR_BOOK_WORDS)] ^= (uint16_t)(1u << draw(16));
}

int main(int argc, char **argv)
{
    const unsigned long nodes = argc > 1 ? strtoul(argv[1], NULL, 10) : 50000;
    unsigned passed = 0;

    memset(&store, MARK, sizeof store);
    memset(&block, MARK, sizeof block);
    memset(&frame, MARK, sizeof frame);
    memset(&plan_block, MARK, sizeof plan_block);
    for (unsigned long n = 0; n < nodes; n++) {
        begin();
        damage();
        for (unsigned i = 0; i < CALLS; i++)
            some_call();
    }
    for (unsigned sort = 0; sort < SORTS; sort++) {
        printf("%s: %lu not refused, %lu wrong\n", names[sort], made[sort], wrong[sort]);
        passed += made[sort] > 0 && wrong[sort] == 0;
    }
    printf("%u passed, %u failed\n", passed, SORTS - passed);
    return passed != SORTS;
}
