#include "check.h"

#include "numbers.h"

/*
 * One bit's step of the division by the polynomial (02, K4), in which taking
 * away has no borrow: it is exclusive or. Every power of x goes up by one,
 * and the highest bit leaves as x^8. If it is 1, the polynomial is taken
 * away: its x^8 cancels that bit, its other powers change what stays.
 * Negated, the bit is all ones or all zeros, so that no jump decides this.
 */
static inline uint8_t bit_step(uint8_t check)
{
    unsigned leaving = check >> 7;

    check = (uint8_t)(check << 1);
    check ^= (uint8_t)(-leaving & CHECK_POLYNOMIAL);
    return check;
}

/*
 * A byte is added in, and its eight bits leave, the highest first. The steps
 * are written out, since a loop of eight would cost half as much again.
 */
static inline uint8_t byte_step(uint8_t check, uint8_t byte)
{
    check ^= byte;
    check = bit_step(check);
    check = bit_step(check);
    check = bit_step(check);
    check = bit_step(check);
    check = bit_step(check);
    check = bit_step(check);
    check = bit_step(check);
    check = bit_step(check);
    return check;
}

/* What the division of all the bytes leaves over. */
uint8_t check_byte(const uint8_t *bytes, size_t length)
{
    uint8_t check = CHECK_START;

    for (size_t i = 0; i < length; i++) {
        check = byte_step(check, bytes[i]);
    }
    return check;
}
