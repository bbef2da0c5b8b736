/* Every number of the protocol: papers 01, 02 (K1 to K6) and 002. */
#ifndef PEER_NUMBERS_H
#define PEER_NUMBERS_H

/* Frame types: the low nibble of the control byte (002, 5.1.4.2). */
enum frame_type {
    TYPE_DATA = 0,
    TYPE_ACKNOWLEDGE = 1,
    TYPE_RESET = 2,
    TYPE_URGENT = 3
};

/* The control byte's nibbles: user bits high, type low. */
enum {
    CONTROL_TYPE = 0x0F
};

/* Where a frame has its bytes (01, "The frame"). */
enum {
    FRAME_DESTINATION = 0,
    FRAME_PROTOCOL = 1,
    FRAME_SOURCE = 2,
    FRAME_CONTROL = 3,
    FRAME_LENGTH = 4,
    FRAME_CHANNEL = 6,
    FRAME_SEQUENCE = 7,
    FRAME_PAYLOAD = 8,
    FRAME_OVERHEAD = 9, /* header and check byte */
    FRAME_PAYLOAD_MOST = 65520
};

/* In place of a byte number, of a refusal that has none (02, K1). */
enum {
    FAULT_BYTE_NONE = -1
};

/* The check byte (01, "The frame"; 02, K4). */
enum {
    CHECK_POLYNOMIAL = 0x07, /* x^2 + x + 1; x^8 is the bit that leaves */
    CHECK_START = 0xFF
};

/* The channel table (01, "The channel table"). */
enum {
    TABLE_COUNT = 0,
    TABLE_OFFSET = 2,
    TABLE_OWN = 4,
    TABLE_PROTOCOL = 5,
    TABLE_ZEROS = 6,
    TABLE_HEADER = 8,
    TABLE_ENTRY = 12,
    TABLE_COUNT_MOST = 16,
    TABLE_MOST = TABLE_HEADER + TABLE_ENTRY * TABLE_COUNT_MOST
};

/* Where a table's entry has its bytes. */
enum {
    ENTRY_KIND = 0,
    ENTRY_REMOTE = 1,
    ENTRY_CHANNEL = 2,
    ENTRY_RETRIES = 3,
    ENTRY_WINDOW = 4,
    ENTRY_PAYLOAD = 6,
    ENTRY_TIMEOUT = 8,
    ENTRY_ZEROS = 10
};

enum entry_kind {
    KIND_SENDS = 0,
    KIND_RECEIVES = 1
};

enum {
    ADDRESS_LEAST = 32,
    ADDRESS_MOST = 254,
    WINDOW_DEFAULT = 8, /* a 0 in the table; fits small stores (02, K5) */
    WINDOW_MOST = 128,
    PAYLOAD_MOST = 32768,
    STORE_MOST = 32768,
    SEQUENCES = 256
};

/* End points and what waits (01, "End points"). */
enum {
    RESET_SEQUENCE = 0,
    URGENT_SEQUENCE = 0,
    WINDOW_START = 1,
    ACKS_MOST = 32
};

/* The host's block: a count, then one offset more than the count. */
enum {
    BLOCK_COUNT = 2,
    BLOCK_OFFSET = 4,
    BLOCK_EMPTY = BLOCK_COUNT + BLOCK_OFFSET,
    BLOCK_MOST = BLOCK_EMPTY + WINDOW_MOST * BLOCK_OFFSET + STORE_MOST
};

/* Payloads of the block that is a plan (02, K6). */
enum {
    PLAN_MOST = 64
};

/* A trace of a node's calls (02, K2); records follow its 4,104 bytes. */
enum {
    TRACE_COUNT = 0,
    TRACE_FIRST_OFFSET = 4,
    TRACE_OFFSET = 4,      /* bytes of each */
    TRACE_COUNT_LEAST = 1, /* the table */
    TRACE_COUNT_MOST = 1024,
    TRACE_OFFSETS = TRACE_COUNT_MOST + 1, /* the last used is the end */
    TRACE_HEADER = TRACE_FIRST_OFFSET + TRACE_OFFSET * TRACE_OFFSETS,
    TRACE_MOST = 65536
};

/* Where a trace's record has its bytes. */
enum {
    RECORD_KIND = 0,
    RECORD_INDEX = 1,
    RECORD_LENGTH = 2,
    RECORD_BYTES = 4
};

/* The call that a record is of: its kind byte (02, K2; K3: 9). */
enum call_kind {
    CALL_TABLE = 1,
    CALL_OPEN = 2,
    CALL_CLOSE = 3,
    CALL_SEND = 4,
    CALL_URGENT = 5,
    CALL_ARRIVAL = 6,
    CALL_TICK = 7,
    CALL_HAND_OUT = 8,
    CALL_FRAME_END = 9
};

/*
 * Refusal numbers (01, "Refusal numbers"; 02, K1: 15 to 18 are given where 12
 * stood, and 12 no longer; K2: 21, of a trace; K3: 19 and 20; K6: 22, of a
 * plan's block); 0 is no refusal.
 */
enum refusal {
    NOT_REFUSED = 0,
    REFUSED_TABLE = 1,
    REFUSED_INDEX = 2,
    REFUSED_KIND = 3,
    REFUSED_STATE = 4,
    REFUSED_PAYLOAD = 5,
    REFUSED_ROOM = 6,
    REFUSED_WINDOW = 7,
    REFUSED_COUNT = 8,
    REFUSED_URGENT = 9,
    REFUSED_FRAME = 10,
    REFUSED_ADDRESS = 11,
    REFUSED_ENTRY = 13,
    REFUSED_ACKS = 14,
    REFUSED_TYPE = 15,
    REFUSED_USER = 16,
    REFUSED_LENGTH = 17,
    REFUSED_SEQUENCE = 18,
    REFUSED_UNDER_WAY = 19,
    REFUSED_NONE_UNDER_WAY = 20,
    REFUSED_TRACE = 21,
    REFUSED_BLOCK = 22
};

#endif
