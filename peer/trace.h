/* The trace of a node's calls: a file of records (02, K2). */
#ifndef PEER_TRACE_H
#define PEER_TRACE_H

#include <stdbool.h>
#include <stddef.h>
#include <stdint.h>

/* A call and what it is given. */
struct record {
    uint8_t kind; /* enum call_kind */
    uint8_t index;
    uint16_t length;
    const uint8_t *bytes;
};

/*
 * Reads the record at the front of the bytes, whatever its kind and index. It
 * answers how many bytes the record is, at least 4. If the bytes end inside
 * the record it answers 0 and writes nothing. A record that was read lends
 * its bytes from those it was read from.
 */
size_t record_read(const uint8_t *bytes, size_t length,
                   struct record *record);

/* Whether a kind is one of the calls that a trace has, 1 to 9. */
bool kind_is_known(uint8_t kind);

/*
 * Answers 0 of a file that keeps every rule of K2, and refusal 21 of any
 * other, of whatever length. Nothing is written. A file that is answered 0
 * has from byte TRACE_HEADER to its end whole records, as many as its count.
 */
int trace_refused(const uint8_t *file, size_t length);

#endif
