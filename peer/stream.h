/* What the programs share: standard input whole, output line by line. */
#ifndef PEER_STREAM_H
#define PEER_STREAM_H

#include <stdbool.h>
#include <stddef.h>
#include <stdint.h>

/* Input bytes that are taken from front to back. */
struct input {
    const uint8_t *at;
    size_t left;
};

/* Lines of numbers parted by one space, written out as the text fills. */
struct lines {
    size_t used;
    bool begun; /* the present line has something */
    char text[65536];
};

/* Reads to the end of standard input, but no more than the room; how many. */
size_t input_read(uint8_t *bytes, size_t room);

/* Takes bytes off the front; false, and none taken, if too few are left. */
bool input_take(struct input *input, size_t length, const uint8_t **bytes);

void lines_text(struct lines *lines, const char *text);
void lines_number(struct lines *lines, uint32_t number);
void lines_bytes(struct lines *lines, const uint8_t *bytes, size_t length);
void lines_end(struct lines *lines);

/* A frame's refusal or 0, then the fault's byte if it has one (02, K1). */
void lines_frame_refusal(struct lines *lines, int refusal);

/* Writes out what is left; the program's exit status. */
int lines_finish(struct lines *lines);

#endif
