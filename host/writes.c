/*
 * The library itself but for one entry, linked with -Wl,--wrap=uplink_unpark: bytes that are no image are refused, but the state is fresh
 * by then. sanitized.c has to fail on it.
 */
#include "uplink.h"

uint32_t __real_uplink_unpark(uint8_t *state, size_t state_length, const uint8_t *image, size_t image_length);
uint32_t __wrap_uplink_unpark(uint8_t *state, size_t state_length, const uint8_t *image, size_t image_length);

uint32_t __wrap_uplink_unpark(uint8_t *state, size_t state_length, const uint8_t *image, size_t image_length)
{
    uint32_t number = __real_uplink_unpark(state, state_length, image, image_length);
    if (number == UPLINK_BAD_IMAGE)
        uplink_start(state, state_length, UPLINK_FALLING);
    return number;
}
