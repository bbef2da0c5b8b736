/* Shelugvar: the reliable delivery end of a SpaceWire link (GOES-R protocol), for C (99 and later) and C++ (11 and
 * later).
 *
 * A node has one SpaceWire port and up to 16 end points, which send or receive. The caller owns all memory and lends it
 * for one call at a time: the node, its store, and a block or a frame buffer. Nothing is allocated, no pointer is
 * kept and there are no globals; one node must not be in two calls at once. docs/C.md says more.
 *
 * Every function takes any input and comes back; a refused call answers one number of the list below and alters
 * nothing, the places for its answers included. What is lent to one call must not overlap. A pointer may be null where
 * the length that goes with it is 0.
 * Link with libshelugvar.a, which `./install PREFIX` builds and installs.
 */
#ifndef SHELUGVAR_H
#define SHELUGVAR_H

#include <stddef.h>
#include <stdint.h>

#if SIZE_MAX != UINT64_MAX
#error "shelugvar: libshelugvar.a is for x86-64 programs of 64 bits, in which size_t has 8 bytes"
#endif

/* The version of this header and of the archive that it declares, as in CHANGELOG.md. */
#define SHELUGVAR_VERSION "0.4.1"
#define SHELUGVAR_VERSION_MAJOR 0
#define SHELUGVAR_VERSION_MINOR 4
#define SHELUGVAR_VERSION_PATCH 1
/* The same as one number, which grows with the version: a byte for each part after the first. */
#define SHELUGVAR_VERSION_NUMBER \
    (SHELUGVAR_VERSION_MAJOR * 65536 + SHELUGVAR_VERSION_MINOR * 256 + SHELUGVAR_VERSION_PATCH)

/* For this header alone: a number as another type, by the cast that C or C++ has for it. */
#ifdef __cplusplus
#define SHELUGVAR_AS_(type, number) static_cast<type>(number)
#else
#define SHELUGVAR_AS_(type, number) ((type)(number))
#endif

#ifdef __cplusplus
extern "C" {
#endif

/* ---- Lists. The tags are types of their own, so that a compiler sees where one list is taken for another. */

/* Types of frame. */
enum shelugvar_frame_type {
    SHELUGVAR_DATA = 0,
    SHELUGVAR_ACKNOWLEDGE = 1,
    SHELUGVAR_RESET = 2,
    SHELUGVAR_URGENT = 3
};

/* Kinds of entry in a channel table. */
enum shelugvar_kind {
    SHELUGVAR_SENDS = 0,
    SHELUGVAR_RECEIVES = 1
};

/* The states of an end point. */
enum shelugvar_state {
    SHELUGVAR_CLOSED = 0,  /* hands nothing out and takes nothing in */
    SHELUGVAR_ENABLED = 1, /* opened by the host, not yet by the other end */
    SHELUGVAR_OPEN = 2,    /* payloads can go */
    SHELUGVAR_FAILING = 3  /* a payload of the sender has spent its retries; Enabled once none of its timers runs and
                            * none of its frames is under way */
};

/* Refusals: each is given exactly when its test is the first to fit, in the order that the call names. 0 is none; 12,
 * which stood for 15 to 18 up to version 0.1, is given no more; 21 is the program replay's. */
enum shelugvar_refusal {
    SHELUGVAR_DONE = 0,
    SHELUGVAR_BAD_TABLE = 1,            /* the table breaks a rule */
    SHELUGVAR_NO_ENTRY = 2,             /* entry index not below the count */
    SHELUGVAR_OTHER_KIND = 3,           /* entry of the other kind */
    SHELUGVAR_WRONG_STATE = 4,          /* open when not Closed, close when Closed, send or Urgent when not Open */
    SHELUGVAR_PAYLOAD_LENGTH = 5,       /* payload 0 or above P; frame writer: above 65,520, or not fitting its type */
    SHELUGVAR_TOO_SHORT = 6,            /* store, block or frame buffer too short */
    SHELUGVAR_WINDOW_FULL = 7,          /* W numbers taken from the start */
    SHELUGVAR_RUN_FULL = 8,             /* 4,294,967,295 payloads accepted in this run */
    SHELUGVAR_URGENT_WAITS = 9,         /* an Urgent already waits */
    SHELUGVAR_BAD_FRAME = 10,           /* frame under 9 bytes, length not matching, or bad check byte */
    SHELUGVAR_NOT_OURS = 11,            /* destination or protocol ID not ours */
    SHELUGVAR_NO_END_POINT = 13,        /* no entry fits, or it is Closed, or Data or Urgent at Enabled */
    SHELUGVAR_ACKS_FULL = 14,           /* Data or Reset while 32 acknowledgements wait */
    SHELUGVAR_UNKNOWN_TYPE = 15,        /* type none of the four */
    SHELUGVAR_USER_BITS = 16,           /* user bits not zero */
    SHELUGVAR_LENGTH_AGAINST_TYPE = 17, /* length that the frame says not fitting its type */
    SHELUGVAR_WRONG_SEQUENCE = 18,      /* a Reset's sequence not 0; frame writer: an Urgent's too */
    SHELUGVAR_UNDER_WAY = 19,           /* handing out while a frame is under way */
    SHELUGVAR_NONE_UNDER_WAY = 20,      /* a frame's end reported with none under way */
    SHELUGVAR_BAD_BLOCK = 22            /* a plan's block malformed, or of more than 64 payloads */
};

/* What shelugvar_byte_at_fault answers for a refusal that is for no byte of the frame's header. */
#define SHELUGVAR_NO_BYTE 255

/* What an arrival was. */
enum shelugvar_what {
    SHELUGVAR_WAS_IGNORED = 0,
    SHELUGVAR_WAS_ACKNOWLEDGED = 1, /* value: how many numbers the start passed */
    SHELUGVAR_WAS_OPENED = 2,       /* a sender is Open */
    SHELUGVAR_WAS_RESET = 3,        /* value: how many payloads were held */
    SHELUGVAR_WAS_DATA = 4,         /* value: the block's length */
    SHELUGVAR_WAS_URGENT = 5        /* value: the block's length */
};

/* What the window test answers. */
enum shelugvar_window_answer {
    SHELUGVAR_OUTSIDE = 0,
    SHELUGVAR_INSIDE = 1,
    SHELUGVAR_NO_WINDOW = 2 /* the size is no window's */
};

/* ---- The channel table: a head and up to 16 entries. Numbers of two bytes have the high byte first. */

#define SHELUGVAR_ENTRIES_MOST 16    /* entries of a table, and so end points of a node */
#define SHELUGVAR_TABLE_HEAD 8       /* bytes before the first entry; the head itself names this number */
#define SHELUGVAR_TABLE_ENTRY 12     /* bytes of an entry */
#define SHELUGVAR_TABLE_MOST 200     /* bytes of a table with 16 entries */
#define SHELUGVAR_ADDRESS_LEAST 32   /* of logical addresses, own and remote */
#define SHELUGVAR_ADDRESS_MOST 254   /* the same */
#define SHELUGVAR_PROTOCOL_ID 238    /* what our stations' tables have; a table may have any but 0 */
#define SHELUGVAR_RETRIES_MOST 255   /* M of a sender: how often a frame goes out again before the sender fails */
#define SHELUGVAR_WINDOW_DEFAULT 8   /* W where the table has 0; up to version 0.3 it was 16 */
#define SHELUGVAR_WINDOW_MOST 128    /* W is a number with one bit set, 1 to 128 */
#define SHELUGVAR_PAYLOAD_MOST 32768 /* P of an entry, in bytes, as far as the store goes */
#define SHELUGVAR_TIMEOUT_MOST 65535 /* T of a sender, in ticks; at least 1 */

/* A table's bytes, for an array's braces: the head, then an entry by SHELUGVAR_SENDER or SHELUGVAR_RECEIVER for each of
 * `count`. Setup tests them all; a constant that is too large for its bytes the compiler sees. */
#define SHELUGVAR_HEAD(count, own, protocol) \
    SHELUGVAR_TWO_BYTES_(count), SHELUGVAR_TWO_BYTES_(SHELUGVAR_TABLE_HEAD), own, protocol, 0, 0
#define SHELUGVAR_SENDER(remote, channel, retries, window, payload, timeout)                                \
    SHELUGVAR_SENDS, remote, channel, retries, SHELUGVAR_TWO_BYTES_(window), SHELUGVAR_TWO_BYTES_(payload), \
        SHELUGVAR_TWO_BYTES_(timeout), 0, 0
#define SHELUGVAR_RECEIVER(remote, channel, window, payload) \
    SHELUGVAR_RECEIVES, remote, channel, 0, SHELUGVAR_TWO_BYTES_(window), SHELUGVAR_TWO_BYTES_(payload), 0, 0, 0, 0
#define SHELUGVAR_TWO_BYTES_(number) (number) >> 8, (number) % 256

/* ---- Lengths in bytes, and counts. W is a window in force (so not 0), P a largest payload. */

#define SHELUGVAR_FRAME_OVERHEAD 9            /* a frame's bytes around its payload: 8 of header, and the check byte */
#define SHELUGVAR_PAYLOAD_OFFSET 8            /* where a frame's payload begins */
#define SHELUGVAR_PROTOCOL_PAYLOAD_MOST 65520 /* payload that a frame can have, for the frame reader and writer */
#define SHELUGVAR_PROTOCOL_FRAME_MOST 65529   /* frame that can come over the wire; a longer one is refused */

#define SHELUGVAR_SENDER_STORE(w, p) (((w) + 1) * (p))           /* a sender's area of the store */
#define SHELUGVAR_RECEIVER_STORE(w, p) ((w) * (p))               /* a receiver's */
#define SHELUGVAR_BLOCK_ROOM(w, p) (6 + (w) * (4 + (p)))         /* block for such a receiver */
#define SHELUGVAR_FRAME_ROOM(p) ((p) + SHELUGVAR_FRAME_OVERHEAD) /* frame buffer for entries of such a P */
#define SHELUGVAR_PLAN_LENGTH(k, bytes) (6 + 4 * (k) + (bytes))  /* plan of k payloads with so many bytes in all */

#define SHELUGVAR_STORE_MOST 32768 /* store that a table can need */
#define SHELUGVAR_BLOCK_MOST 33286 /* block: W 128, and W x P 32,768 */
#define SHELUGVAR_FRAME_MOST 32777 /* frame buffer: P 32,768 */
#define SHELUGVAR_NODE_WORDS 832
#define SHELUGVAR_BOOK_WORDS 10368

#define SHELUGVAR_PLAN_MOST 64                  /* payloads of a plan */
#define SHELUGVAR_ACKS_MOST 32                  /* acknowledgements that can wait in a node */
#define SHELUGVAR_RUN_MOST UINT32_C(4294967295) /* payloads that a sender accepts in a run */

/* ---- What the caller lends and gets. */

/* A node. All zeros is a new node, with no entries. It may be copied or moved between calls. */
struct shelugvar_node {
    uint64_t node[SHELUGVAR_NODE_WORDS];
    uint16_t book[SHELUGVAR_BOOK_WORDS];
};

/* A sender's counts in its run. */
struct shelugvar_sender_counts {
    uint32_t accepted;
    uint32_t confirmed;
};

/* What a plan came to: how many of its payloads were accepted, and what the next was refused with
 * (shelugvar_planned_stop), or SHELUGVAR_DONE. */
struct shelugvar_planned {
    uint8_t accepted;
    uint8_t stop; /* a number of enum shelugvar_refusal */
};

/* What an arrival was (shelugvar_arrived_what), the index of the entry that it was for, and its value: 0 where the list
 * above names none. */
struct shelugvar_arrived {
    size_t what; /* a number of enum shelugvar_what */
    size_t entry;
    size_t value;
};

/* The header of a frame, a byte a field. The length is not among them: a frame has 9 bytes more than its payload. */
struct shelugvar_fields {
    uint8_t destination; /* logical address */
    uint8_t protocol;    /* protocol ID */
    uint8_t source;      /* logical address */
    uint8_t type;        /* a number of enum shelugvar_frame_type */
    uint8_t user;        /* user bits: 0 */
    uint8_t channel;
    uint8_t sequence; /* 0 for a Reset and an Urgent */
};

/* The sizes that the archive counts on. Where one does not hold, the array of that name has no length. */
typedef char shelugvar_a_node_has_27392_bytes[sizeof(struct shelugvar_node) == 27392 ? 1 : -1];
typedef char shelugvar_the_book_follows_the_words[offsetof(struct shelugvar_node, book) == 6656 ? 1 : -1];
typedef char shelugvar_counts_are_two_of_32_bits[sizeof(struct shelugvar_sender_counts) == 8 ? 1 : -1];
typedef char shelugvar_planned_is_two_bytes[sizeof(struct shelugvar_planned) == 2 ? 1 : -1];
typedef char shelugvar_arrived_is_three_of_64_bits[sizeof(struct shelugvar_arrived) == 24 ? 1 : -1];
typedef char shelugvar_fields_are_seven_bytes[sizeof(struct shelugvar_fields) == 7 ? 1 : -1];

/* ---- The functions of the archive. Here no pointer may be null, and a list's number is a plain one. Call those that
 * follow them instead, which see to both. */

uint8_t shelugvar_setup(uint64_t *node, uint16_t *book, const uint8_t *store, size_t room, const uint8_t *table,
                        size_t length);
uint8_t shelugvar_open(uint64_t *node, uint16_t *book, size_t index);
uint8_t shelugvar_close(uint64_t *node, uint16_t *book, size_t index);
uint8_t shelugvar_counts(const uint64_t *node, size_t index, struct shelugvar_sender_counts *counts);
uint8_t shelugvar_send(uint64_t *node, uint16_t *book, uint8_t *store, size_t room, size_t index,
                       const uint8_t *payload, size_t length);
uint8_t shelugvar_urgent(uint64_t *node, uint16_t *book, uint8_t *store, size_t room, size_t index,
                         const uint8_t *payload, size_t length);
uint8_t shelugvar_plan(uint64_t *node, uint16_t *book, uint8_t *store, size_t room, size_t index, const uint8_t *block,
                       size_t length, struct shelugvar_planned *planned);
uint8_t shelugvar_arrival(uint64_t *node, uint16_t *book, uint8_t *store, size_t room, uint8_t *block,
                          size_t block_room, const uint8_t *frame, size_t length, struct shelugvar_arrived *arrived);
uint8_t shelugvar_hand_out(uint64_t *node, uint16_t *book, const uint8_t *store, size_t room, uint8_t *frame,
                           size_t frame_room, size_t *length);
uint8_t shelugvar_report(uint64_t *node, uint16_t *book);
uint16_t shelugvar_tick(uint64_t *node, uint16_t *book);
uint8_t shelugvar_entry_state(const uint64_t *node, size_t index, uint8_t *state);
uint8_t shelugvar_store_need(const uint8_t *table, size_t length, size_t *need);
uint8_t shelugvar_frame_read(const uint8_t *frame, size_t length, struct shelugvar_fields *fields);
uint8_t shelugvar_frame_write(uint8_t *buffer, size_t room, const struct shelugvar_fields *fields,
                              const uint8_t *payload, size_t length);
uint8_t shelugvar_fault_byte(uint8_t refusal);
uint8_t shelugvar_window_test(uint8_t start, uint16_t size, uint8_t sequence);

/* The version of the archive that is linked, as SHELUGVAR_VERSION_NUMBER has it: where the two are not the same, the
 * header is not the archive's. */
uint32_t shelugvar_version(void);

/* For this header alone: where nothing is read or written, since the length is 0; any place but null will do. */
#ifdef __cplusplus
#define SHELUGVAR_ANY_(n) reinterpret_cast<uint8_t *>((n)->book)
#else
#define SHELUGVAR_ANY_(n) ((uint8_t *)(n)->book)
#endif

/* For this header alone: an answer of the archive as a refusal. */
#define SHELUGVAR_REFUSAL_(answer) SHELUGVAR_AS_(enum shelugvar_refusal, answer)

/* ---- The node's calls. `store` is the node's, `room` its bytes: the same store while an entry is Open or Failing. A
 * pointer may be null where its length is 0. */

/* The bytes of store that a node with this table needs. Refuses 1. */
static inline enum shelugvar_refusal shelugvar_node_store_need(const uint8_t *table, size_t length, size_t *need)
{
    const uint8_t none = 0;

    return SHELUGVAR_REFUSAL_(shelugvar_store_need(length != 0 ? table : &none, length, need));
}

/* Reads a table: every entry Closed, nothing waits, start 1, counts 0. The store is not altered; its length is tested.
 * Refuses 1, 6. */
static inline enum shelugvar_refusal shelugvar_node_setup(struct shelugvar_node *n, const uint8_t *store, size_t room,
                                                          const uint8_t *table, size_t length)
{
    return SHELUGVAR_REFUSAL_(shelugvar_setup(n->node, n->book, room != 0 ? store : SHELUGVAR_ANY_(n), room,
                                              length != 0 ? table : SHELUGVAR_ANY_(n), length));
}

/* Entry `index` becomes Enabled; a sender's Reset then waits. Refuses 2, 4. */
static inline enum shelugvar_refusal shelugvar_node_open(struct shelugvar_node *n, size_t index)
{
    return SHELUGVAR_REFUSAL_(shelugvar_open(n->node, n->book, index));
}

/* Entry `index` becomes Closed; what it held and what of it waited goes. Refuses 2, 4. */
static inline enum shelugvar_refusal shelugvar_node_close(struct shelugvar_node *n, size_t index)
{
    return SHELUGVAR_REFUSAL_(shelugvar_close(n->node, n->book, index));
}

/* A sender's counts, in every state. Refuses 2, 3. */
static inline enum shelugvar_refusal shelugvar_node_counts(const struct shelugvar_node *n, size_t index,
                                                           struct shelugvar_sender_counts *counts)
{
    return SHELUGVAR_REFUSAL_(shelugvar_counts(n->node, index, counts));
}

/* The state of an entry's end point. Refuses 2. */
static inline enum shelugvar_refusal shelugvar_node_entry_state(const struct shelugvar_node *n, size_t index,
                                                                enum shelugvar_state *state)
{
    uint8_t number = 0;
    const enum shelugvar_refusal refused = SHELUGVAR_REFUSAL_(shelugvar_entry_state(n->node, index, &number));

    if (refused == SHELUGVAR_DONE)
        *state = SHELUGVAR_AS_(enum shelugvar_state, number);
    return refused;
}

/* A payload is accepted and waits; it is copied into the store. Refuses 2, 3, 4, 5, 8, 7, 6. */
static inline enum shelugvar_refusal shelugvar_node_send(struct shelugvar_node *n, uint8_t *store, size_t room,
                                                         size_t index, const uint8_t *payload, size_t length)
{
    return SHELUGVAR_REFUSAL_(shelugvar_send(n->node, n->book, room != 0 ? store : SHELUGVAR_ANY_(n), room, index,
                                             length != 0 ? payload : SHELUGVAR_ANY_(n), length));
}

/* An Urgent waits; it is copied into the store. Refuses 2, 3, 4, 5, 9, 6. */
static inline enum shelugvar_refusal shelugvar_node_urgent(struct shelugvar_node *n, uint8_t *store, size_t room,
                                                           size_t index, const uint8_t *payload, size_t length)
{
    return SHELUGVAR_REFUSAL_(shelugvar_urgent(n->node, n->book, room != 0 ? store : SHELUGVAR_ANY_(n), room, index,
                                               length != 0 ? payload : SHELUGVAR_ANY_(n), length));
}

/* A plan: the payloads of a block, of the form that an arrival writes, are sent in order up to and including the first
 * that is refused, each as shelugvar_node_send would. The block is all `length` bytes: its offsets start right after
 * themselves, never fall and end at its end. What an arrival wrote can be handed on, with the length that it answered,
 * where it has at most 64 payloads. Refuses 22, with nothing sent. A payload that stops the rest is told in *planned,
 * and is no refusal of the call, whatever stopped it: look there too. */
static inline enum shelugvar_refusal shelugvar_node_plan(struct shelugvar_node *n, uint8_t *store, size_t room,
                                                         size_t index, const uint8_t *block, size_t length,
                                                         struct shelugvar_planned *planned)
{
    return SHELUGVAR_REFUSAL_(shelugvar_plan(n->node, n->book, room != 0 ? store : SHELUGVAR_ANY_(n), room, index,
                                             length != 0 ? block : SHELUGVAR_ANY_(n), length, planned));
}

/* What the payload was refused with that stopped a plan; SHELUGVAR_DONE where all were accepted. */
static inline enum shelugvar_refusal shelugvar_planned_stop(const struct shelugvar_planned *planned)
{
    return SHELUGVAR_REFUSAL_(planned->stop);
}

/* A frame has arrived. Data and Urgent write the block: count k (2 bytes), k + 1 offsets (4 bytes each) from the
 * block's start, the last its end, then the payloads; high bytes first. It needs room of 6 + W x (4 + P), and beyond
 * its end nothing alters. Refuses 10, 11, 15, 16, 17, 18, 13, 5, 14, 6. */
static inline enum shelugvar_refusal shelugvar_node_arrival(struct shelugvar_node *n, uint8_t *store, size_t room,
                                                            uint8_t *block, size_t block_room, const uint8_t *frame,
                                                            size_t length, struct shelugvar_arrived *arrived)
{
    return SHELUGVAR_REFUSAL_(shelugvar_arrival(n->node, n->book, room != 0 ? store : SHELUGVAR_ANY_(n), room,
                                                block_room != 0 ? block : SHELUGVAR_ANY_(n), block_room,
                                                length != 0 ? frame : SHELUGVAR_ANY_(n), length, arrived));
}

/* What an arrival that was not refused was. */
static inline enum shelugvar_what shelugvar_arrived_what(const struct shelugvar_arrived *arrived)
{
    return SHELUGVAR_AS_(enum shelugvar_what, arrived->what);
}

/* What goes out next is written into the frame buffer; bytes after it stay. *length is 0 where nothing waits. The frame
 * is under way then, and nothing else goes out until its end is reported. Refuses 19, 6. */
static inline enum shelugvar_refusal shelugvar_node_hand_out(struct shelugvar_node *n, const uint8_t *store,
                                                             size_t room, uint8_t *frame, size_t frame_room,
                                                             size_t *length)
{
    return SHELUGVAR_REFUSAL_(shelugvar_hand_out(n->node, n->book, room != 0 ? store : SHELUGVAR_ANY_(n), room,
                                                 frame_room != 0 ? frame : SHELUGVAR_ANY_(n), frame_room, length));
}

/* The port has sent the last byte of the frame under way: Data or a Reset starts its timer. Refuses 20. */
static inline enum shelugvar_refusal shelugvar_node_report(struct shelugvar_node *n)
{
    return SHELUGVAR_REFUSAL_(shelugvar_report(n->node, n->book));
}

/* Every running timer falls by one. Answers the entries that became Enabled, entry 0 in the lowest bit: their runs have
 * ended, and what was accepted and not confirmed has to be sent again by the host. Refuses nothing. */
static inline uint16_t shelugvar_node_tick(struct shelugvar_node *n)
{
    return shelugvar_tick(n->node, n->book);
}

/* ---- Frames and windows, without a node. */

/* Reads a frame of `length` bytes. 0: its fields are in *fields (an Urgent's sequence as 0), and its payload is the
 * length - 9 bytes from frame + 8 on. Else 10, 15, 16, 17 or 18, and *fields is as it was. */
static inline enum shelugvar_refusal shelugvar_read_frame(const uint8_t *frame, size_t length,
                                                          struct shelugvar_fields *fields)
{
    const uint8_t none = 0;

    return SHELUGVAR_REFUSAL_(shelugvar_frame_read(length != 0 ? frame : &none, length, fields));
}

/* Where the fault of a refused frame sits: the number of the byte, from 0, for a refusal of an arrival or of
 * shelugvar_read_frame. 3 for 15 and 16, 4 for 17 (the length is bytes 4 and 5), 7 for 18; SHELUGVAR_NO_BYTE for all
 * others, and for what is no refusal. */
static inline uint8_t shelugvar_byte_at_fault(enum shelugvar_refusal refused)
{
    return shelugvar_fault_byte(SHELUGVAR_AS_(uint8_t, refused));
}

/* The type of a frame that was read. */
static inline enum shelugvar_frame_type shelugvar_fields_type(const struct shelugvar_fields *fields)
{
    return SHELUGVAR_AS_(enum shelugvar_frame_type, fields->type);
}

/* Writes a frame into a buffer of `room` bytes. 0: its first length + 9 bytes are the frame, those after it as they
 * were. Else 15, 16, 18, 5 or 6, and the whole buffer is as it was. `payload` must not lie in the buffer. */
static inline enum shelugvar_refusal shelugvar_write_frame(uint8_t *buffer, size_t room,
                                                           const struct shelugvar_fields *fields,
                                                           const uint8_t *payload, size_t length)
{
    uint8_t none = 0;

    return SHELUGVAR_REFUSAL_(shelugvar_frame_write(room != 0 ? buffer : &none, room, fields,
                                                    length != 0 ? payload : &none, length));
}

/* Whether a sequence number lies in the window of `size` numbers from `start` on, going from 255 on to 0. `size` is a
 * number with one bit set and at most 128, or 0 for the default. */
static inline enum shelugvar_window_answer shelugvar_test_window(uint8_t start, uint16_t size, uint8_t sequence)
{
    return SHELUGVAR_AS_(enum shelugvar_window_answer, shelugvar_window_test(start, size, sequence));
}

#undef SHELUGVAR_REFUSAL_
#undef SHELUGVAR_AS_

#ifdef __cplusplus
}
#endif

#endif
