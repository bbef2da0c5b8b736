#include "stream.h"

#include <stdio.h>
#include <stdlib.h>
#include <string.h>

#include "frame.h"
#include "numbers.h"

size_t input_read(uint8_t *bytes, size_t room)
{
    return fread(bytes, 1, room, stdin);
}

bool input_take(struct input *input, size_t length, const uint8_t **bytes)
{
    if (input->left < length) {
        return false;
    }
    *bytes = input->at;
    input->at += length;
    input->left -= length;
    return true;
}

static void write_out(struct lines *lines)
{
    fwrite(lines->text, 1, lines->used, stdout);
    lines->used = 0;
}

static void put(struct lines *lines, const char *text, size_t length)
{
    if (length > sizeof lines->text - lines->used) {
        write_out(lines);
    }
    memcpy(lines->text + lines->used, text, length);
    lines->used += length;
}

/* A word of a line, parted from the one before it. */
static void put_word(struct lines *lines, const char *word, size_t length)
{
    if (lines->begun) {
        put(lines, " ", 1);
    }
    lines->begun = true;
    put(lines, word, length);
}

void lines_text(struct lines *lines, const char *text)
{
    put_word(lines, text, strlen(text));
}

void lines_number(struct lines *lines, uint32_t number)
{
    char digits[10];
    size_t first = sizeof digits;

    do {
        digits[--first] = (char)('0' + number % 10);
        number /= 10;
    } while (number != 0);
    put_word(lines, digits + first, sizeof digits - first);
}

void lines_bytes(struct lines *lines, const uint8_t *bytes, size_t length)
{
    for (size_t i = 0; i < length; i++) {
        lines_number(lines, bytes[i]);
    }
}

void lines_end(struct lines *lines)
{
    put(lines, "\n", 1);
    lines->begun = false;
}

void lines_frame_refusal(struct lines *lines, int refusal)
{
    int fault = frame_fault_byte(refusal);

    lines_number(lines, (uint32_t)refusal);
    if (fault != FAULT_BYTE_NONE) {
        lines_number(lines, (uint32_t)fault);
    }
}

int lines_finish(struct lines *lines)
{
    write_out(lines);
    return fflush(stdout) == 0 && !ferror(stdout) ? EXIT_SUCCESS
                                                  : EXIT_FAILURE;
}
