/* The check byte (01, "The frame"; 002, 5.3). */
#ifndef PEER_CHECK_H
#define PEER_CHECK_H

#include <stddef.h>
#include <stdint.h>

/* Over a whole good frame, its own check byte included, it is 0. */
uint8_t check_byte(const uint8_t *bytes, size_t length);

#endif
