#include "trace.h"

#include "bytes.h"
#include "numbers.h"

size_t record_read(const uint8_t *bytes, size_t length,
                   struct record *record)
{
    if (length < RECORD_BYTES) {
        return 0;
    }
    uint16_t given = get16(bytes + RECORD_LENGTH);

    if (length - RECORD_BYTES < given) {
        return 0;
    }
    record->kind = bytes[RECORD_KIND];
    record->index = bytes[RECORD_INDEX];
    record->length = given;
    record->bytes = bytes + RECORD_BYTES;
    return RECORD_BYTES + (size_t)given;
}

bool kind_is_known(uint8_t kind)
{
    return kind >= CALL_TABLE && kind <= CALL_FRAME_END;
}

static bool takes_index(uint8_t kind)
{
    switch (kind) {
    case CALL_OPEN:
    case CALL_CLOSE:
    case CALL_SEND:
    case CALL_URGENT:
        return true;
    default:
        return false;
    }
}

static bool takes_bytes(uint8_t kind)
{
    switch (kind) {
    case CALL_TABLE:
    case CALL_SEND:
    case CALL_URGENT:
    case CALL_ARRIVAL:
        return true;
    default:
        return false;
    }
}

/* "An index or length is 0 where the call takes none." */
static bool index_fits(const struct record *record)
{
    return takes_index(record->kind) || record->index == 0;
}

static bool length_fits(const struct record *record)
{
    return takes_bytes(record->kind) || record->length == 0;
}

/* "The first record is a table and no other is." */
static bool place_fits(const struct record *record, uint32_t place)
{
    return (record->kind == CALL_TABLE) == (place == 0);
}

static bool record_fits(const struct record *record, uint32_t place)
{
    return kind_is_known(record->kind) && index_fits(record) &&
           length_fits(record) && place_fits(record, place);
}

static uint32_t offset_at(const uint8_t *file, uint32_t place)
{
    return get32(file + TRACE_FIRST_OFFSET + TRACE_OFFSET * place);
}

/* At most 65,536 bytes; its fixed header is there. */
static bool whole_fits(size_t length)
{
    return length >= TRACE_HEADER && length <= TRACE_MOST;
}

/* At most 1,024; a first record, the table, there must be. */
static bool count_fits(uint32_t count)
{
    return count >= TRACE_COUNT_LEAST && count <= TRACE_COUNT_MOST;
}

static bool first_offset_fits(const uint8_t *file)
{
    return offset_at(file, 0) == TRACE_HEADER;
}

/* One more than the count is used. */
static bool unused_are_zero(const uint8_t *file, uint32_t count)
{
    for (uint32_t place = count + 1; place < TRACE_OFFSETS; place++) {
        if (offset_at(file, place) != 0) {
            return false;
        }
    }
    return true;
}

/*
 * Each record fits and ends where the next offset says, and the last one at
 * the file's end. No offset is trusted: the records say where they end.
 */
static bool records_fit(const uint8_t *file, size_t length, uint32_t count)
{
    size_t end = TRACE_HEADER;

    for (uint32_t place = 0; place < count; place++) {
        struct record record;
        size_t size = record_read(file + end, length - end, &record);

        if (size == 0 || !record_fits(&record, place)) {
            return false;
        }
        end += size;
        if (offset_at(file, place + 1) != end) {
            return false;
        }
    }
    return end == length;
}

int trace_refused(const uint8_t *file, size_t length)
{
    if (!whole_fits(length)) {
        return REFUSED_TRACE;
    }
    uint32_t count = get32(file + TRACE_COUNT);

    if (!count_fits(count) || !first_offset_fits(file) ||
        !unused_are_zero(file, count) || !records_fit(file, length, count)) {
        return REFUSED_TRACE;
    }
    return NOT_REFUSED;
}
