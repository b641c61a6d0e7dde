/*
 * The library itself but for one entry, linked with -Wl,--wrap=uplink_unframe: before it reads a frame it looks at all ten bytes of a head, which
 * a frame that is cut short does not have. sanitized.c has to fail on it.
 */
#include "uplink.h"

uint32_t __real_uplink_unframe(const uint8_t *frame, size_t frame_length, uint8_t *answer, size_t answer_length);
uint32_t __wrap_uplink_unframe(const uint8_t *frame, size_t frame_length, uint8_t *answer, size_t answer_length);

uint32_t __wrap_uplink_unframe(const uint8_t *frame, size_t frame_length, uint8_t *answer, size_t answer_length)
{
    const volatile uint8_t *last = frame + UPLINK_FRAMING - 1;
    (void)*last;
    return __real_uplink_unframe(frame, frame_length, answer, answer_length);
}
