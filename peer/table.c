#include "table.h"

#include <stdbool.h>

#include "bytes.h"

static bool is_address(uint8_t address)
{
    return address >= ADDRESS_LEAST && address <= ADDRESS_MOST;
}

/* Exactly one bit set and at most 128. */
static bool is_window(uint16_t window)
{
    return window != 0 && (window & (window - 1)) == 0 &&
           window <= WINDOW_MOST;
}

static bool is_timing(uint8_t kind, uint8_t retries, uint16_t timeout)
{
    if (kind == KIND_SENDS) {
        return timeout != 0;
    }
    return timeout == 0 && retries == 0;
}

static bool entry_read(const uint8_t *bytes, struct entry *entry)
{
    uint16_t window = get16(bytes + ENTRY_WINDOW);

    if (window == 0) {
        window = WINDOW_DEFAULT;
    }
    entry->kind = bytes[ENTRY_KIND];
    entry->remote = bytes[ENTRY_REMOTE];
    entry->channel = bytes[ENTRY_CHANNEL];
    entry->retries = bytes[ENTRY_RETRIES];
    entry->window = (uint8_t)window;
    entry->payload = get16(bytes + ENTRY_PAYLOAD);
    entry->timeout = get16(bytes + ENTRY_TIMEOUT);
    return entry->kind <= KIND_RECEIVES && is_address(entry->remote) &&
           is_window(window) && entry->payload >= 1 &&
           entry->payload <= PAYLOAD_MOST &&
           is_timing(entry->kind, entry->retries, entry->timeout) &&
           get16(bytes + ENTRY_ZEROS) == 0;
}

/* Whether an entry before this one has its kind, remote and channel. */
static bool is_repeated(const struct table *table, unsigned index)
{
    const struct entry *entry = &table->entry[index];

    for (unsigned i = 0; i < index; i++) {
        const struct entry *other = &table->entry[i];

        if (other->kind == entry->kind && other->remote == entry->remote &&
            other->channel == entry->channel) {
            return true;
        }
    }
    return false;
}

static bool header_read(const uint8_t *bytes, size_t length,
                        struct table *table)
{
    if (length < TABLE_HEADER) {
        return false;
    }
    uint16_t count = get16(bytes + TABLE_COUNT);

    table->count = (uint8_t)count;
    table->own = bytes[TABLE_OWN];
    table->protocol = bytes[TABLE_PROTOCOL];
    table->store = 0;
    return count <= TABLE_COUNT_MOST &&
           length == TABLE_HEADER + (size_t)TABLE_ENTRY * count &&
           get16(bytes + TABLE_OFFSET) == TABLE_HEADER &&
           is_address(table->own) && table->protocol != 0 &&
           get16(bytes + TABLE_ZEROS) == 0;
}

uint32_t entry_store(const struct entry *entry)
{
    uint32_t slots = entry->window;

    if (entry->kind == KIND_SENDS) {
        slots++; /* the last is for its Urgent */
    }
    return slots * entry->payload;
}

int table_read(const uint8_t *bytes, size_t length, struct table *table)
{
    if (!header_read(bytes, length, table)) {
        return REFUSED_TABLE;
    }
    bytes += TABLE_HEADER;
    for (unsigned i = 0; i < table->count; i++, bytes += TABLE_ENTRY) {
        if (!entry_read(bytes, &table->entry[i]) || is_repeated(table, i)) {
            return REFUSED_TABLE;
        }
        table->store += entry_store(&table->entry[i]);
    }
    return table->store <= STORE_MOST ? NOT_REFUSED : REFUSED_TABLE;
}
