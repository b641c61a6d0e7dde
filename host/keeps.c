/*
 * The library itself but for one entry, linked with -Wl,--wrap=uplink_ask: an Ask that is refused leaves the answer's bytes as they
 * were in place of zeros. sanitized.c has to fail on it.
 */
#include <string.h>

#include "uplink.h"

uint32_t __real_uplink_ask(const uint8_t *state, size_t state_length, uint32_t slot, uint32_t ticket, uint8_t *answer, size_t answer_length);
uint32_t __wrap_uplink_ask(const uint8_t *state, size_t state_length, uint32_t slot, uint32_t ticket, uint8_t *answer, size_t answer_length);

uint32_t __wrap_uplink_ask(const uint8_t *state, size_t state_length, uint32_t slot, uint32_t ticket, uint8_t *answer, size_t answer_length)
{
    uint8_t before[UPLINK_ASK_LENGTH];
    if (answer_length != sizeof before)
        return UPLINK_UNSOUND;
    memcpy(before, answer, sizeof before);
    uint32_t number = __real_uplink_ask(state, state_length, slot, ticket, answer, answer_length);
    if (number != UPLINK_ACCEPTED)
        memcpy(answer, before, sizeof before);
    return number;
}
