/* Shelugvar's recorder: writes what is called on a node into a trace, which the program `replay` runs again at a desk.
 *
 * A recorder is lent like all else: one beside each node, all zeros when it is new. Call the functions at the end of
 * this header in place of the node's own; they call those, answer as they do, and record. The recorder then always
 * holds a whole trace file, its first `size` bytes, to be written to disk whenever it suits. With a null recorder
 * nothing is recorded. docs/C.md says more.
 */
#ifndef SHELUGVAR_RECORDER_H
#define SHELUGVAR_RECORDER_H

#include <string.h>

#include "shelugvar.h"

/* For this header alone: a number as another type, by the cast that C or C++ has for it. */
#ifdef __cplusplus
#define SHELUGVAR_BYTE_(number) static_cast<uint8_t>(number)
#define SHELUGVAR_WORD_(number) static_cast<uint32_t>(number)
#else
#define SHELUGVAR_BYTE_(number) ((uint8_t)(number))
#define SHELUGVAR_WORD_(number) ((uint32_t)(number))
#endif

#ifdef __cplusplus
extern "C" {
#endif

/* ---- The trace file: a count of records and 1,025 offsets, 4 bytes each, then the records: kind, index, length (2
 * bytes), bytes. High bytes first. Offset k is where record k begins, the one behind the last where the file ends, and
 * the others are 0. */

#define SHELUGVAR_TRACE_RECORDS 1024 /* the most of a file */
#define SHELUGVAR_TRACE_HEADER 4104  /* bytes before the first record */
#define SHELUGVAR_TRACE_MOST 65536   /* bytes of a file */
#define SHELUGVAR_TRACE_HEAD 4       /* bytes of a record before its own */

/* The kinds of record. */
enum shelugvar_record_kind {
    SHELUGVAR_RECORD_TABLE = 1,
    SHELUGVAR_RECORD_OPEN = 2,
    SHELUGVAR_RECORD_CLOSE = 3,
    SHELUGVAR_RECORD_SEND = 4,
    SHELUGVAR_RECORD_URGENT = 5,
    SHELUGVAR_RECORD_ARRIVAL = 6,
    SHELUGVAR_RECORD_TICK = 7,
    SHELUGVAR_RECORD_HAND_OUT = 8,
    SHELUGVAR_RECORD_REPORT = 9
};

/* What a recorder holds. The trace is file[0] to file[size - 1], or none where size is 0. */
struct shelugvar_recorder {
    uint8_t file[SHELUGVAR_TRACE_MOST];
    uint32_t size;
    uint32_t count; /* records in the file */
    uint32_t left;  /* calls after the file was full, which it does not have */
};

/* For this header alone: a number of 4 bytes. */
static inline void shelugvar_recorder_put_(uint8_t *at, uint32_t number)
{
    for (int k = 3; k >= 0; k--, number >>= 8)
        at[k] = SHELUGVAR_BYTE_(number & 255);
}

/* A call and its answer: whether it is in the trace then. Left out are
 * - a call that was refused with 6: it altered nothing, and the replay's buffers are long enough for any table;
 * - a call with an index above 255 or more than 65,535 bytes: the node has refused it, and it altered nothing;
 * - what comes before the first table: a new node has no entries, and all that it does ends with the setup;
 * - all that comes once the file is full, in `left`: what it has is then the beginning of what was called.
 * A setup begins the file anew; one that was refused does not, unless it is the first. */
static inline int shelugvar_record(struct shelugvar_recorder *r, enum shelugvar_record_kind kind, size_t index,
                                   const uint8_t *bytes, size_t length, enum shelugvar_refusal refused)
{
    if (r == NULL || refused == SHELUGVAR_TOO_SHORT || index > 255 || length > 65535)
        return 0;
    if (kind == SHELUGVAR_RECORD_TABLE) {
        if (r->count != 0 && refused != SHELUGVAR_DONE)
            return 0;
        memset(r->file, 0, SHELUGVAR_TRACE_HEADER);
        shelugvar_recorder_put_(r->file + 4, SHELUGVAR_TRACE_HEADER);
        r->size = SHELUGVAR_TRACE_HEADER;
        r->count = r->left = 0;
    } else if (r->count == 0) {
        return 0;
    }
    if (r->left != 0 || r->count == SHELUGVAR_TRACE_RECORDS ||
        length + SHELUGVAR_TRACE_HEAD > SHELUGVAR_TRACE_MOST - r->size) {
        r->left++;
        return 0;
    }
    r->file[r->size] = SHELUGVAR_BYTE_(kind);
    r->file[r->size + 1] = SHELUGVAR_BYTE_(index);
    r->file[r->size + 2] = SHELUGVAR_BYTE_(length >> 8);
    r->file[r->size + 3] = SHELUGVAR_BYTE_(length & 255);
    if (length != 0)
        memcpy(r->file + r->size + SHELUGVAR_TRACE_HEAD, bytes, length);
    r->size += SHELUGVAR_WORD_(SHELUGVAR_TRACE_HEAD + length);
    r->count++;
    shelugvar_recorder_put_(r->file + 4 + 4 * r->count, r->size);
    shelugvar_recorder_put_(r->file, r->count);
    return 1;
}

/* ---- The node's calls, recorded. What alters nothing, counts and an entry's state, is no call of a trace. */

static inline enum shelugvar_refusal shelugvar_recorded_setup(struct shelugvar_recorder *r, struct shelugvar_node *n,
                                                              const uint8_t *store, size_t room, const uint8_t *table,
                                                              size_t length)
{
    const enum shelugvar_refusal refused = shelugvar_node_setup(n, store, room, table, length);

    shelugvar_record(r, SHELUGVAR_RECORD_TABLE, 0, table, length, refused);
    return refused;
}

static inline enum shelugvar_refusal shelugvar_recorded_open(struct shelugvar_recorder *r, struct shelugvar_node *n,
                                                             size_t index)
{
    const enum shelugvar_refusal refused = shelugvar_node_open(n, index);

    shelugvar_record(r, SHELUGVAR_RECORD_OPEN, index, NULL, 0, refused);
    return refused;
}

static inline enum shelugvar_refusal shelugvar_recorded_close(struct shelugvar_recorder *r, struct shelugvar_node *n,
                                                              size_t index)
{
    const enum shelugvar_refusal refused = shelugvar_node_close(n, index);

    shelugvar_record(r, SHELUGVAR_RECORD_CLOSE, index, NULL, 0, refused);
    return refused;
}

static inline enum shelugvar_refusal shelugvar_recorded_send(struct shelugvar_recorder *r, struct shelugvar_node *n,
                                                             uint8_t *store, size_t room, size_t index,
                                                             const uint8_t *payload, size_t length)
{
    const enum shelugvar_refusal refused = shelugvar_node_send(n, store, room, index, payload, length);

    shelugvar_record(r, SHELUGVAR_RECORD_SEND, index, payload, length, refused);
    return refused;
}

/* For this header alone: where payload k of a plan's block begins. */
static inline size_t shelugvar_recorder_offset_(const uint8_t *block, size_t k)
{
    size_t number = 0;

    for (size_t b = 2 + 4 * k; b < 6 + 4 * k; b++)
        number = number * 256 + block[b];
    return number;
}

/* A plan stands in the trace as its sends, the refused one among them: they leave the node as the plan does. */
static inline enum shelugvar_refusal shelugvar_recorded_plan(struct shelugvar_recorder *r, struct shelugvar_node *n,
                                                             uint8_t *store, size_t room, size_t index,
                                                             const uint8_t *block, size_t length,
                                                             struct shelugvar_planned *planned)
{
    const enum shelugvar_refusal refused = shelugvar_node_plan(n, store, room, index, block, length, planned);
    const size_t sends = refused == SHELUGVAR_DONE ? planned->accepted + SHELUGVAR_WORD_(planned->stop != 0) : 0;

    for (size_t k = 0; k < sends; k++) {
        const size_t begin = shelugvar_recorder_offset_(block, k);

        shelugvar_record(r, SHELUGVAR_RECORD_SEND, index, block + begin,
                         shelugvar_recorder_offset_(block, k + 1) - begin,
                         k < planned->accepted ? SHELUGVAR_DONE : shelugvar_planned_stop(planned));
    }
    return refused;
}

static inline enum shelugvar_refusal shelugvar_recorded_urgent(struct shelugvar_recorder *r, struct shelugvar_node *n,
                                                               uint8_t *store, size_t room, size_t index,
                                                               const uint8_t *payload, size_t length)
{
    const enum shelugvar_refusal refused = shelugvar_node_urgent(n, store, room, index, payload, length);

    shelugvar_record(r, SHELUGVAR_RECORD_URGENT, index, payload, length, refused);
    return refused;
}

static inline enum shelugvar_refusal shelugvar_recorded_arrival(struct shelugvar_recorder *r, struct shelugvar_node *n,
                                                                uint8_t *store, size_t room, uint8_t *block,
                                                                size_t block_room, const uint8_t *frame, size_t length,
                                                                struct shelugvar_arrived *arrived)
{
    const enum shelugvar_refusal refused =
        shelugvar_node_arrival(n, store, room, block, block_room, frame, length, arrived);

    shelugvar_record(r, SHELUGVAR_RECORD_ARRIVAL, 0, frame, length, refused);
    return refused;
}

static inline enum shelugvar_refusal shelugvar_recorded_hand_out(struct shelugvar_recorder *r, struct shelugvar_node *n,
                                                                 const uint8_t *store, size_t room, uint8_t *frame,
                                                                 size_t frame_room, size_t *length)
{
    const enum shelugvar_refusal refused = shelugvar_node_hand_out(n, store, room, frame, frame_room, length);

    shelugvar_record(r, SHELUGVAR_RECORD_HAND_OUT, 0, NULL, 0, refused);
    return refused;
}

static inline enum shelugvar_refusal shelugvar_recorded_report(struct shelugvar_recorder *r, struct shelugvar_node *n)
{
    const enum shelugvar_refusal refused = shelugvar_node_report(n);

    shelugvar_record(r, SHELUGVAR_RECORD_REPORT, 0, NULL, 0, refused);
    return refused;
}

static inline uint16_t shelugvar_recorded_tick(struct shelugvar_recorder *r, struct shelugvar_node *n)
{
    const uint16_t enabled = shelugvar_node_tick(n);

    shelugvar_record(r, SHELUGVAR_RECORD_TICK, 0, NULL, 0, SHELUGVAR_DONE);
    return enabled;
}

#undef SHELUGVAR_BYTE_
#undef SHELUGVAR_WORD_

#ifdef __cplusplus
}
#endif

#endif
