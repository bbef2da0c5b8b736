/* What the functions of the archive cost at most: stack, and instructions (tests/costs).
 *
 *   costs stack         prints what setup asks of memset: instructions of this one, bytes; then a line for each
 *                       function: its name, the most bytes of stack that a call of it took, its number of arguments
 *   costs cases         prints a line for each case: its name, the function that it calls
 *   costs CASE 0|1      makes what stands before the case's call, and with 1 the call, with 0 one of a function that
 *                       does nothing: whoever counts the instructions of both runs has those of the call
 *
 * Each call runs on a stack of its own that is painted before and looked at after; all cases are run so, and a loop of
 * two nodes with 16 entries over a link that loses, repeats and damages frames. */
#include <stdio.h>
#include <stdlib.h>
#include <string.h>

#include "shelugvar.h"

enum call {
    SETUP,
    OPEN,
    CLOSE,
    COUNTS,
    SEND,
    URGENT,
    PLAN,
    ARRIVAL,
    HAND_OUT,
    REPORT,
    TICK,
    ENTRY_STATE,
    STORE_NEED,
    FRAME_READ,
    FAULT_BYTE,
    FRAME_WRITE,
    WINDOW_TEST,
    VERSION,
    CALLS
};

typedef void (*function)(void);

static const struct {
    const char *name;
    function called;
    unsigned arguments;
    unsigned answers; /* the bits of its answer */
} calls[CALLS] = {
    {"setup", (function)shelugvar_setup, 6, UINT8_MAX},
    {"open", (function)shelugvar_open, 3, UINT8_MAX},
    {"close", (function)shelugvar_close, 3, UINT8_MAX},
    {"counts", (function)shelugvar_counts, 3, UINT8_MAX},
    {"send", (function)shelugvar_send, 7, UINT8_MAX},
    {"urgent", (function)shelugvar_urgent, 7, UINT8_MAX},
    {"plan", (function)shelugvar_plan, 8, UINT8_MAX},
    {"arrival", (function)shelugvar_arrival, 9, UINT8_MAX},
    {"hand_out", (function)shelugvar_hand_out, 7, UINT8_MAX},
    {"report", (function)shelugvar_report, 2, UINT8_MAX},
    {"tick", (function)shelugvar_tick, 2, UINT16_MAX},
    {"entry_state", (function)shelugvar_entry_state, 3, UINT8_MAX},
    {"store_need", (function)shelugvar_store_need, 3, UINT8_MAX},
    {"frame_read", (function)shelugvar_frame_read, 3, UINT8_MAX},
    {"fault_byte", (function)shelugvar_fault_byte, 1, UINT8_MAX},
    {"frame_write", (function)shelugvar_frame_write, 5, UINT8_MAX},
    {"window_test", (function)shelugvar_window_test, 3, UINT8_MAX},
    {"version", (function)shelugvar_version, 0, UINT32_MAX},
};

/* ---- A call on a stack of its own, whose top is given: six arguments in registers, the others on that stack. It is
 * written in assembly so that it takes as many instructions whichever compiler the rest has. And the archive's one
 * outside function, memset, of which the instructions are known. */

uint64_t call_on(function called, const uint64_t *arguments, uint64_t count, const void *top);
void does_nothing(void);
extern uint64_t memset_calls, memset_bytes;
enum {
    MEMSET_CALL = 7,
    MEMSET_BYTE = 4
};

__asm__("    .text\n"
        "call_on:\n"
        "    push %rbp\n"
        "    mov %rsp, %rbp\n"
        "    mov %rcx, %rsp\n"
        "    mov %rdi, %rax\n"
        "    mov %rsi, %r10\n"
        "    mov %rdx, %r11\n"
        "    cmp $6, %r11\n"
        "    jbe 2f\n"
        "    test $1, %r11\n" /* an odd one more: at a call the stack lies at a multiple of 16 */
        "    jz 1f\n"
        "    sub $8, %rsp\n"
        "1:  push -8(%r10,%r11,8)\n"
        "    dec %r11\n"
        "    cmp $6, %r11\n"
        "    ja 1b\n"
        "2:  mov (%r10), %rdi\n"
        "    mov 8(%r10), %rsi\n"
        "    mov 16(%r10), %rdx\n"
        "    mov 24(%r10), %rcx\n"
        "    mov 32(%r10), %r8\n"
        "    mov 40(%r10), %r9\n"
        "    call *%rax\n"
        "    mov %rbp, %rsp\n"
        "    pop %rbp\n"
        "    ret\n"
        "does_nothing:\n"
        "    ret\n"
        "    .globl memset\n"
        "memset:\n"
        "    incq memset_calls(%rip)\n"
        "    add %rdx, memset_bytes(%rip)\n"
        "    mov %rdi, %rax\n"
        "    jmp 2f\n"
        "1:  mov %sil, -1(%rdi,%rdx)\n"
        "    dec %rdx\n"
        "2:  test %rdx, %rdx\n"
        "    jnz 1b\n"
        "    ret\n"
        "    .bss\n"
        "    .balign 8\n"
        "memset_calls: .skip 8\n"
        "memset_bytes: .skip 8\n"
        "    .text\n");

enum {
    STACK_WORDS = 2048,
    PAINTED_WORDS = 512
};
static const uint64_t paint = 0x5AC3A53C0FF01E78; /* no byte of it is twice there, and none is likely */
static uint64_t stack[STACK_WORDS] __attribute__((aligned(16)));
static int painting; /* whether stacks are measured */
static int instead;  /* whether calls are replaced by one that does nothing */
static size_t deepest[CALLS];

static void must(int holds, const char *what)
{
    if (holds)
        return;
    fprintf(stderr, "costs: %s\n", what);
    exit(1);
}

/* How far down the painted stack is not as it was painted, in bytes from its top. */
static size_t depth(void)
{
    const uint8_t *bytes = (const uint8_t *)(stack + STACK_WORDS - PAINTED_WORDS), *painted = (const uint8_t *)&paint;
    size_t same = 0;

    while (same < PAINTED_WORDS * sizeof paint && bytes[same] == painted[same % sizeof paint])
        same++;
    return PAINTED_WORDS * sizeof paint - same;
}

/* A call of the archive: what it answers. Unused arguments are 0. */
static unsigned call(enum call which, const uint64_t arguments[9])
{
    if (painting)
        for (size_t k = STACK_WORDS - PAINTED_WORDS; k < STACK_WORDS; k++)
            stack[k] = paint;
    const uint64_t answer = call_on(instead ? does_nothing : calls[which].called, arguments, calls[which].arguments,
                                    stack + STACK_WORDS);

    if (painting) {
        const size_t took = depth();

        must(took < PAINTED_WORDS * sizeof *stack, "the painted stack is too short");
        deepest[which] = took > deepest[which] ? took : deepest[which];
    }
    return (unsigned)answer & calls[which].answers;
}

/* ---- a node with what is lent to it, and its calls */

struct side {
    struct shelugvar_node node;
    uint8_t store[SHELUGVAR_STORE_MOST];
};

static struct side sides[2];
static uint8_t block[SHELUGVAR_BLOCK_MOST], payload[SHELUGVAR_PROTOCOL_PAYLOAD_MOST];
static uint8_t frame[SHELUGVAR_FRAME_ROOM(65535)]; /* as long as two length bytes can say */
static size_t frame_length;
static struct shelugvar_arrived arrived;
static struct shelugvar_sender_counts counts;
static struct shelugvar_planned planned;
static struct shelugvar_fields fields;
static uint8_t state;
static size_t need;

static uint64_t at(const void *what)
{
    return (uint64_t)(uintptr_t)what;
}

/* the arguments that most calls begin with */
#define NODE(s) at((s)->node.node), at((s)->node.book)
#define NODE_AND_STORE(s) NODE(s), at((s)->store), sizeof(s)->store

static unsigned setup(struct side *s, const uint8_t *table, size_t length)
{
    return call(SETUP, (const uint64_t[9]){NODE_AND_STORE(s), at(table), length});
}

static unsigned open_entry(struct side *s, size_t index)
{
    return call(OPEN, (const uint64_t[9]){NODE(s), index});
}

static unsigned close_entry(struct side *s, size_t index)
{
    return call(CLOSE, (const uint64_t[9]){NODE(s), index});
}

static unsigned tell_counts(struct side *s, size_t index)
{
    return call(COUNTS, (const uint64_t[9]){at(s->node.node), index, at(&counts)});
}

static unsigned send(struct side *s, size_t index, size_t length)
{
    return call(SEND, (const uint64_t[9]){NODE_AND_STORE(s), index, at(payload), length});
}

static unsigned urgent(struct side *s, size_t index, size_t length)
{
    return call(URGENT, (const uint64_t[9]){NODE_AND_STORE(s), index, at(payload), length});
}

/* Of the block, as many bytes as are given. */
static unsigned plan(struct side *s, size_t index, size_t length)
{
    return call(PLAN, (const uint64_t[9]){NODE_AND_STORE(s), index, at(block), length, at(&planned)});
}

static unsigned arrival(struct side *s)
{
    return call(ARRIVAL, (const uint64_t[9]){NODE_AND_STORE(s), at(block), sizeof block, at(frame), frame_length,
                                             at(&arrived)});
}

static unsigned hand_out(struct side *s)
{
    return call(HAND_OUT, (const uint64_t[9]){NODE_AND_STORE(s), at(frame), sizeof frame, at(&frame_length)});
}

static unsigned report(struct side *s)
{
    return call(REPORT, (const uint64_t[9]){NODE(s)});
}

static unsigned tick(struct side *s)
{
    return call(TICK, (const uint64_t[9]){NODE(s)});
}

static unsigned entry_state(struct side *s, size_t index)
{
    return call(ENTRY_STATE, (const uint64_t[9]){at(s->node.node), index, at(&state)});
}

static unsigned store_need(const uint8_t *table, size_t length)
{
    return call(STORE_NEED, (const uint64_t[9]){at(table), length, at(&need)});
}

static unsigned version(void)
{
    return call(VERSION, (const uint64_t[9]){0});
}

static unsigned frame_read(void)
{
    return call(FRAME_READ, (const uint64_t[9]){at(frame), frame_length, at(&fields)});
}

static unsigned fault_byte(unsigned refusal)
{
    return call(FAULT_BYTE, (const uint64_t[9]){refusal});
}

static unsigned frame_write(size_t length)
{
    return call(FRAME_WRITE, (const uint64_t[9]){at(frame), sizeof frame, at(&fields), at(payload), length});
}

static unsigned window_test(unsigned start, unsigned size, unsigned sequence)
{
    return call(WINDOW_TEST, (const uint64_t[9]){start, size, sequence});
}

/* ---- what cases are made of: side 0, whose own address is 64, against nobody. Frames for it are written by hand. */

enum {
    OWN = 64,
    REMOTE = 65
};

/* A frame of this type and number for entry `index`, which has that channel. */
static void write_for(enum shelugvar_frame_type type, size_t index, unsigned sequence, size_t length)
{
    fields = (struct shelugvar_fields){OWN, SHELUGVAR_PROTOCOL_ID, REMOTE, (uint8_t)type, 0, (uint8_t)index,
                                       (uint8_t)sequence};
    must(frame_write(length) == SHELUGVAR_DONE, "frame_write");
    frame_length = SHELUGVAR_FRAME_ROOM(length);
}

/* A frame of that length goes out, and is under way; or its end is reported too. */
static void begin_out(size_t length)
{
    must(hand_out(&sides[0]) == SHELUGVAR_DONE && frame_length == length, "hand_out");
}

static void go_out(size_t length)
{
    begin_out(length);
    must(report(&sides[0]) == SHELUGVAR_DONE, "report");
}

static void take(enum shelugvar_frame_type type, size_t index, unsigned sequence, size_t length)
{
    write_for(type, index, sequence, length);
    must(arrival(&sides[0]) == SHELUGVAR_DONE, "arrival");
}

/* A table with so many entries alike: senders of no retries and a timeout of one tick, or receivers. */
static size_t table_of(uint8_t *to, enum shelugvar_kind kind, size_t count, unsigned window, unsigned largest)
{
    const uint8_t head[] = {SHELUGVAR_HEAD(count, OWN, SHELUGVAR_PROTOCOL_ID)};
    size_t length = sizeof head;

    memcpy(to, head, sizeof head);
    for (size_t i = 0; i < count; i++, length += SHELUGVAR_TABLE_ENTRY) {
        const uint8_t sender[] = {SHELUGVAR_SENDER(REMOTE, i, 0, window, largest, 1)};
        const uint8_t receiver[] = {SHELUGVAR_RECEIVER(REMOTE, i, window, largest)};

        memcpy(to + length, kind == SHELUGVAR_SENDS ? sender : receiver, SHELUGVAR_TABLE_ENTRY);
    }
    return length;
}

/* Set up by such a table, and every entry Open. */
static void open_all(enum shelugvar_kind kind, size_t count, unsigned window, unsigned largest)
{
    uint8_t table[SHELUGVAR_TABLE_MOST];
    const size_t length = table_of(table, kind, count, window, largest);

    must(setup(&sides[0], table, length) == SHELUGVAR_DONE, "setup");
    for (size_t i = 0; i < count; i++)
        must(open_entry(&sides[0], i) == SHELUGVAR_DONE, "open");
    for (size_t i = 0; i < count; i++) {
        if (kind == SHELUGVAR_SENDS) {
            go_out(SHELUGVAR_FRAME_OVERHEAD);
            take(SHELUGVAR_ACKNOWLEDGE, i, 0, 0);
        } else {
            take(SHELUGVAR_RESET, i, 0, 0);
            go_out(SHELUGVAR_FRAME_OVERHEAD);
        }
    }
}

/* Every number of every window taken by a payload of that length; all of them have gone out, or none. */
static void fill(size_t count, unsigned window, size_t length, int gone)
{
    for (size_t i = 0; i < count; i++)
        for (unsigned k = 0; k < window; k++)
            must(send(&sides[0], i, length) == SHELUGVAR_DONE, "send");
    for (size_t k = 0; gone && k < count * window; k++)
        go_out(SHELUGVAR_FRAME_ROOM(length));
}

/* A plan of so many payloads, all of that length, in the block. The block's length. */
static size_t write_plan(unsigned count, size_t length)
{
    block[0] = 0;
    block[1] = (uint8_t)count;
    for (unsigned k = 0; k <= count; k++) {
        const size_t begin = SHELUGVAR_PLAN_LENGTH(count, k * length);

        memcpy(block + 2 + 4 * k, (const uint8_t[4]){0, 0, (uint8_t)(begin >> 8), (uint8_t)begin}, 4);
        memcpy(block + begin, payload, k < count ? length : 0);
    }
    return SHELUGVAR_PLAN_LENGTH(count, count * length);
}

/* Data from one number to another, all held; their acknowledgements go out, or wait. */
static void hold(unsigned first, unsigned last, size_t length, int acknowledged)
{
    for (unsigned s = first; s <= last; s++) {
        take(SHELUGVAR_DATA, 0, s, length);
        if (acknowledged)
            go_out(SHELUGVAR_FRAME_OVERHEAD);
    }
}

enum {
    MANY = SHELUGVAR_ENTRIES_MOST,
    WIDE = SHELUGVAR_WINDOW_MOST,
    SLIM = 15,                         /* P of 16 senders with W 128 */
    LONG = SHELUGVAR_PAYLOAD_MOST / 2, /* P of a sender with W 1 */
    LONGEST = SHELUGVAR_PAYLOAD_MOST,  /* P of a receiver with W 1 */
    BROAD = SHELUGVAR_STORE_MOST / WIDE,
    FULL = SHELUGVAR_PLAN_MOST,                     /* payloads of a plan, and W of a sender that accepts them all */
    PLANNED = SHELUGVAR_STORE_MOST / (FULL + 1) - 1 /* its P; one more would cost less, being a whole number of words */
};

/* ---- the cases: what stands before the call, and the call */

static uint8_t full_table[SHELUGVAR_TABLE_MOST];

static void before_setup(void)
{
    must(table_of(full_table, SHELUGVAR_SENDS, MANY, WIDE, SLIM) == sizeof full_table, "a full table");
}

static unsigned do_setup(void)
{
    return setup(&sides[0], full_table, sizeof full_table);
}

static void before_open(void)
{
    before_setup();
    must(do_setup() == SHELUGVAR_DONE, "setup");
}

static unsigned do_open(void)
{
    return open_entry(&sides[0], MANY - 1);
}

static void before_close(void)
{
    open_all(SHELUGVAR_SENDS, MANY, WIDE, SLIM);
    fill(MANY, WIDE, SLIM, 0);
}

static void before_close_receiver(void)
{
    open_all(SHELUGVAR_RECEIVES, 1, WIDE, BROAD);
    hold(2, WIDE - SHELUGVAR_ACKS_MOST, 1, 1);
    hold(WIDE - SHELUGVAR_ACKS_MOST + 1, WIDE, 1, 0);
}

static unsigned do_close(void)
{
    return close_entry(&sides[0], 0);
}

static void before_counts(void)
{
    open_all(SHELUGVAR_SENDS, MANY, WIDE, SLIM);
}

static unsigned do_counts(void)
{
    return tell_counts(&sides[0], MANY - 1);
}

static void before_send(void)
{
    open_all(SHELUGVAR_SENDS, 1, 1, LONG);
}

static unsigned do_send(void)
{
    return send(&sides[0], 0, LONG);
}

static unsigned do_urgent(void)
{
    return urgent(&sides[0], 0, LONG);
}

static size_t full_plan;

static void before_plan(void)
{
    open_all(SHELUGVAR_SENDS, 1, FULL, PLANNED);
    full_plan = write_plan(FULL, PLANNED);
}

/* Its refusal and, in the low byte, how many payloads were accepted. */
static unsigned do_plan(void)
{
    const unsigned refused = plan(&sides[0], 0, full_plan);

    return refused << 8 | planned.accepted;
}

static void before_hand_out(void)
{
    before_send();
    must(do_send() == SHELUGVAR_DONE, "send");
}

static unsigned do_hand_out(void)
{
    return hand_out(&sides[0]);
}

/* An Acknowledge is under way. */
static void before_report(void)
{
    open_all(SHELUGVAR_RECEIVES, MANY, WIDE, SLIM);
    take(SHELUGVAR_DATA, MANY - 1, 1, 1);
    begin_out(SHELUGVAR_FRAME_OVERHEAD);
}

/* Data of the last of 16 senders is under way, number 128, and the numbers before it are not acknowledged. */
static void before_data_report(void)
{
    open_all(SHELUGVAR_SENDS, MANY, WIDE, SLIM);
    for (unsigned k = 1; k <= WIDE; k++)
        must(send(&sides[0], MANY - 1, SLIM) == SHELUGVAR_DONE, "send");
    for (unsigned k = 1; k < WIDE; k++)
        go_out(SHELUGVAR_FRAME_ROOM(SLIM));
    begin_out(SHELUGVAR_FRAME_ROOM(SLIM));
}

/* The same, and in a tick the numbers before it end: the sender is Failing. */
static void before_failing_report(void)
{
    before_data_report();
    must(tick(&sides[0]) == 0 && entry_state(&sides[0], MANY - 1) == SHELUGVAR_DONE && state == SHELUGVAR_FAILING,
         "the sender fails");
}

static void before_reset_report(void)
{
    before_open();
    must(do_open() == SHELUGVAR_DONE, "open");
    begin_out(SHELUGVAR_FRAME_OVERHEAD);
}

static unsigned do_report(void)
{
    return report(&sides[0]);
}

/* The check byte is worked out first, over as much as the length bytes say. */
static void before_noise(void)
{
    open_all(SHELUGVAR_RECEIVES, 1, 1, LONGEST);
    write_for(SHELUGVAR_DATA, 0, 1, SHELUGVAR_PROTOCOL_PAYLOAD_MOST);
    frame[4] = frame[5] = 255;
    frame_length = sizeof frame;
}

static void before_long_data(void)
{
    open_all(SHELUGVAR_RECEIVES, 1, 1, LONGEST);
    write_for(SHELUGVAR_DATA, 0, 1, LONGEST);
}

static void before_freeing(void)
{
    open_all(SHELUGVAR_RECEIVES, 1, WIDE, BROAD);
    hold(2, WIDE, BROAD, 1);
    write_for(SHELUGVAR_DATA, 0, 1, 1);
}

static void before_reset(void)
{
    before_close_receiver();
    go_out(SHELUGVAR_FRAME_OVERHEAD); /* with all places taken it would be refused */
    write_for(SHELUGVAR_RESET, 0, 0, 0);
}

static void before_acknowledgement(void)
{
    open_all(SHELUGVAR_SENDS, 1, WIDE, SLIM);
    fill(1, WIDE, SLIM, 1);
    for (unsigned s = 2; s <= WIDE; s++)
        take(SHELUGVAR_ACKNOWLEDGE, 0, s, 0);
    write_for(SHELUGVAR_ACKNOWLEDGE, 0, 1, 0);
}

static unsigned do_arrival(void)
{
    return arrival(&sides[0]);
}

static void before_tick(void)
{
    open_all(SHELUGVAR_SENDS, MANY, WIDE, SLIM);
    fill(MANY, WIDE, SLIM, 1);
}

static unsigned do_tick(void)
{
    return tick(&sides[0]);
}

static unsigned do_entry_state(void)
{
    return entry_state(&sides[0], MANY - 1);
}

static unsigned do_store_need(void)
{
    return store_need(full_table, sizeof full_table);
}

static void before_frame(void)
{
    write_for(SHELUGVAR_DATA, 0, 1, SHELUGVAR_PROTOCOL_PAYLOAD_MOST);
}

static unsigned do_frame_read(void)
{
    return frame_read();
}

static unsigned do_frame_write(void)
{
    return frame_write(SHELUGVAR_PROTOCOL_PAYLOAD_MOST);
}

static void before_nothing(void)
{
}

static unsigned do_fault_byte(void)
{
    return fault_byte(SHELUGVAR_TOO_SHORT);
}

static unsigned do_window_test(void)
{
    return window_test(250, 16, 9);
}

static const struct {
    const char *name;
    enum call which;
    void (*before)(void);
    unsigned (*makes)(void);
    unsigned answers;
} cases[] = {
    {"setup", SETUP, before_setup, do_setup, SHELUGVAR_DONE},
    {"open", OPEN, before_open, do_open, SHELUGVAR_DONE},
    {"close_sender", CLOSE, before_close, do_close, SHELUGVAR_DONE},
    {"close_receiver", CLOSE, before_close_receiver, do_close, SHELUGVAR_DONE},
    {"counts", COUNTS, before_counts, do_counts, SHELUGVAR_DONE},
    {"send", SEND, before_send, do_send, SHELUGVAR_DONE},
    {"urgent", URGENT, before_send, do_urgent, SHELUGVAR_DONE},
    {"plan", PLAN, before_plan, do_plan, FULL},
    {"noise", ARRIVAL, before_noise, do_arrival, SHELUGVAR_BAD_FRAME},
    {"long_data", ARRIVAL, before_long_data, do_arrival, SHELUGVAR_DONE},
    {"freeing", ARRIVAL, before_freeing, do_arrival, SHELUGVAR_DONE},
    {"reset", ARRIVAL, before_reset, do_arrival, SHELUGVAR_DONE},
    {"acknowledgement", ARRIVAL, before_acknowledgement, do_arrival, SHELUGVAR_DONE},
    {"hand_out", HAND_OUT, before_hand_out, do_hand_out, SHELUGVAR_DONE},
    {"report_acknowledge", REPORT, before_report, do_report, SHELUGVAR_DONE},
    {"report_data", REPORT, before_data_report, do_report, SHELUGVAR_DONE},
    {"report_failing", REPORT, before_failing_report, do_report, SHELUGVAR_DONE},
    {"report_reset", REPORT, before_reset_report, do_report, SHELUGVAR_DONE},
    {"report_refused", REPORT, before_open, do_report, SHELUGVAR_NONE_UNDER_WAY},
    {"tick", TICK, before_tick, do_tick, 65535},
    {"entry_state", ENTRY_STATE, before_counts, do_entry_state, SHELUGVAR_DONE},
    {"store_need", STORE_NEED, before_setup, do_store_need, SHELUGVAR_DONE},
    {"frame_read", FRAME_READ, before_noise, do_frame_read, SHELUGVAR_BAD_FRAME},
    {"fault_byte", FAULT_BYTE, before_nothing, do_fault_byte, SHELUGVAR_NO_BYTE},
    {"frame_write", FRAME_WRITE, before_frame, do_frame_write, SHELUGVAR_DONE},
    {"window_test", WINDOW_TEST, before_nothing, do_window_test, SHELUGVAR_INSIDE},
    {"version", VERSION, before_nothing, version, SHELUGVAR_VERSION_NUMBER},
};

enum {
    CASES = sizeof cases / sizeof *cases
};

/* ---- the loop: two nodes, half of whose entries send to the other's other half */

enum {
    STEPS = 40000,
    LOOP_PAYLOAD = 40
};

static unsigned below(unsigned n)
{
    static uint64_t state = 88172645463325252U;

    state ^= state << 13;
    state ^= state >> 7;
    state ^= state << 17;
    return (unsigned)((state >> 20) % n);
}

static void set_up_mirrored(unsigned own)
{
    uint8_t table[SHELUGVAR_TABLE_MOST] = {SHELUGVAR_HEAD(MANY, OWN + own, SHELUGVAR_PROTOCOL_ID)};

    for (size_t i = 0; i < MANY; i++) {
        const unsigned window = 1U << i % 6, remote = OWN + 1 - own;
        const uint8_t sender[] = {SHELUGVAR_SENDER(remote, i, i % 3, window, LOOP_PAYLOAD, 1 + i)};
        const uint8_t receiver[] = {SHELUGVAR_RECEIVER(remote, i, window, LOOP_PAYLOAD)};

        memcpy(table + SHELUGVAR_TABLE_HEAD + i * SHELUGVAR_TABLE_ENTRY, i % 2 == own ? sender : receiver,
               SHELUGVAR_TABLE_ENTRY);
    }
    must(setup(&sides[own], table, sizeof table) == SHELUGVAR_DONE, "setup in the loop");
    for (size_t i = 0; i < MANY; i++)
        open_entry(&sides[own], i);
}

/* A frame goes over, or is lost; it may come damaged, or twice. Of eight one is under way until a later report. */
static void go_over(unsigned from)
{
    const unsigned fate = below(16);

    if (hand_out(&sides[from]) != SHELUGVAR_DONE || frame_length == 0)
        return;
    if (below(8) != 0)
        report(&sides[from]);
    if (fate < 2)
        return;
    frame_read();
    frame[below((unsigned)frame_length)] ^= fate == 2;
    arrival(&sides[1 - from]);
    if (fate < 5)
        arrival(&sides[1 - from]);
}

static void loop(void)
{
    set_up_mirrored(0);
    set_up_mirrored(1);
    for (unsigned k = 0; k < STEPS; k++) {
        const unsigned side = below(2), index = below(MANY), what = below(100), length = 1 + below(LOOP_PAYLOAD);

        if (what < 27)
            send(&sides[side], index, length);
        else if (what < 30)
            plan(&sides[side], index, write_plan(below(FULL + 2), length));
        else if (what < 33)
            urgent(&sides[side], index, length);
        else if (what < 80)
            go_over(side);
        else if (what < 85)
            report(&sides[side]);
        else if (what < 97)
            tick(&sides[side]);
        else if (what < 98) {
            tell_counts(&sides[side], index);
            entry_state(&sides[side], index);
        } else {
            close_entry(&sides[side], index);
            open_entry(&sides[side], index);
        }
    }
}

/* ---- the three uses */

static int measure_stack(void)
{
    painting = 1;
    for (size_t k = 0; k < CASES; k++) {
        cases[k].before();
        memset_calls = memset_bytes = 0;
        must(cases[k].makes() == cases[k].answers, cases[k].name);
        if (cases[k].which == SETUP)
            printf("memset %lu %lu\n", (unsigned long)(MEMSET_CALL * memset_calls + MEMSET_BYTE * memset_bytes),
                   (unsigned long)memset_bytes);
    }
    loop();
    for (size_t k = 0; k < CALLS; k++)
        printf("%s %zu %u\n", calls[k].name, deepest[k], calls[k].arguments);
    return 0;
}

static int list_cases(void)
{
    for (size_t k = 0; k < CASES; k++)
        printf("%s %s\n", cases[k].name, calls[cases[k].which].name);
    return 0;
}

int main(int argc, char **argv)
{
    for (size_t k = 0; k < sizeof payload; k++)
        payload[k] = (uint8_t)(k * 7);
    if (argc == 2 && strcmp(argv[1], "stack") == 0)
        return measure_stack();
    if (argc == 2 && strcmp(argv[1], "cases") == 0)
        return list_cases();
    for (size_t k = 0; argc == 3 && k < CASES; k++)
        if (strcmp(argv[1], cases[k].name) == 0) {
            cases[k].before();
            instead = *argv[2] == '0';
            cases[k].makes();
            return 0;
        }
    must(0, "usage: costs stack | cases | CASE 0|1");
    return 1;
}
