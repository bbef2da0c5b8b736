/* The check byte by a table, as both programs had it before K4. The peer is measured with it as well: it stands in the
 * place of the peer's own check_byte, whose file is then left in the archive. */
#include "check.h"
#include "numbers.h"

static uint8_t after_eight_steps[256];

__attribute__((constructor)) static void fill(void)
{
    for (unsigned value = 0; value < 256; value++) {
        uint8_t check = (uint8_t)value;

        for (unsigned k = 0; k < 8; k++)
            check = (uint8_t)(check << 1 ^ (check >> 7) * CHECK_POLYNOMIAL);
        after_eight_steps[value] = check;
    }
}

uint8_t check_byte(const uint8_t *bytes, size_t length)
{
    uint8_t check = CHECK_START;

    for (size_t i = 0; i < length; i++)
        check = after_eight_steps[check ^ bytes[i]];
    return check;
}
