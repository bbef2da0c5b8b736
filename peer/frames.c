/* Runs the frame reader, writer and check byte on records; a line each. */
#include <string.h>

#include "bytes.h"
#include "check.h"
#include "frame.h"
#include "numbers.h"
#include "stream.h"

enum {
    INPUT_MOST = 262144,
    RECORD_HEADER = 5,
    BUFFER_MOST = 70000,
    BUFFER_FILL = 165
};

enum record_kind {
    RECORD_READ = 1,
    RECORD_WRITE = 2,
    RECORD_CHECK = 3
};

/* Where a write record has its bytes. */
enum {
    WRITE_DESTINATION = 0,
    WRITE_PROTOCOL = 1,
    WRITE_SOURCE = 2,
    WRITE_TYPE = 3,
    WRITE_USER = 4,
    WRITE_CHANNEL = 5,
    WRITE_SEQUENCE = 6,
    WRITE_ROOM = 7,
    WRITE_PAYLOAD = 11
};

struct record {
    uint8_t kind;
    uint32_t length;
    const uint8_t *bytes;
};

struct bench {
    uint8_t buffer[BUFFER_MOST];
    uint8_t input[INPUT_MOST + 1]; /* one more shows an input too long */
    struct lines lines;
};

static bool record_take(struct input *input, struct record *record)
{
    const uint8_t *header;

    if (!input_take(input, RECORD_HEADER, &header)) {
        return false;
    }
    record->kind = header[0];
    record->length = get32(header + 1);
    return input_take(input, record->length, &record->bytes) &&
           (record->kind != RECORD_WRITE || record->length >= WRITE_PAYLOAD);
}

static void run_read(struct lines *lines, const struct record *record)
{
    struct frame frame;
    int refusal = frame_read(record->bytes, record->length, &frame);

    lines_frame_refusal(lines, refusal);
    if (refusal != NOT_REFUSED) {
        return;
    }
    lines_number(lines, frame.destination);
    lines_number(lines, frame.protocol);
    lines_number(lines, frame.source);
    lines_number(lines, frame.type);
    lines_number(lines, frame.channel);
    lines_number(lines, frame.sequence);
    lines_number(lines, (uint32_t)frame.length);
    lines_bytes(lines, frame.payload, frame.length);
}

static void run_write(struct bench *bench, const struct record *record)
{
    const uint8_t *bytes = record->bytes;
    struct frame frame = {
        .destination = bytes[WRITE_DESTINATION],
        .protocol = bytes[WRITE_PROTOCOL],
        .source = bytes[WRITE_SOURCE],
        .type = bytes[WRITE_TYPE],
        .user = bytes[WRITE_USER],
        .channel = bytes[WRITE_CHANNEL],
        .sequence = bytes[WRITE_SEQUENCE],
        .payload = bytes + WRITE_PAYLOAD,
        .length = record->length - WRITE_PAYLOAD,
    };
    uint32_t asked = get32(bytes + WRITE_ROOM);
    size_t room = asked > BUFFER_MOST ? BUFFER_MOST : asked;
    size_t written;

    memset(bench->buffer, BUFFER_FILL, room);
    int refusal = frame_write(&frame, bench->buffer, room, &written);

    lines_number(&bench->lines, (uint32_t)refusal);
    if (refusal == NOT_REFUSED) {
        lines_number(&bench->lines, (uint32_t)written);
    }
    lines_bytes(&bench->lines, bench->buffer, room);
}

static void run_check(struct lines *lines, const struct record *record)
{
    lines_number(lines, NOT_REFUSED);
    lines_number(lines, check_byte(record->bytes, record->length));
}

static void run_record(struct bench *bench, const struct record *record)
{
    switch (record->kind) {
    case RECORD_READ:
        run_read(&bench->lines, record);
        break;
    case RECORD_WRITE:
        run_write(bench, record);
        break;
    default:
        run_check(&bench->lines, record);
        break;
    }
}

/* The word that ends the run, or NULL at the end of a whole input. */
static const char *run_all(struct bench *bench, struct input *input,
                           uint32_t *number)
{
    struct record record;

    for (*number = 1; input->left > 0; ++*number) {
        if (!record_take(input, &record)) {
            return "torn";
        }
        if (record.kind < RECORD_READ || record.kind > RECORD_CHECK) {
            return "unknown";
        }
        lines_number(&bench->lines, *number);
        lines_number(&bench->lines, record.kind);
        run_record(bench, &record);
        lines_end(&bench->lines);
    }
    return NULL;
}

int main(void)
{
    static struct bench bench;
    struct input input = {bench.input,
                          input_read(bench.input, sizeof bench.input)};
    uint32_t number;

    if (input.left > INPUT_MOST) {
        lines_text(&bench.lines, "too long");
        lines_end(&bench.lines);
        return lines_finish(&bench.lines);
    }
    const char *word = run_all(&bench, &input, &number);

    if (word != NULL) {
        lines_text(&bench.lines, word);
        lines_number(&bench.lines, number);
        lines_end(&bench.lines);
    }
    return lines_finish(&bench.lines);
}
