/*
 * The library itself but for one entry, linked with -Wl,--wrap=uplink_sheet: before it checks a sheet it looks at the number behind the list's
 * last, which nobody lent. sanitized.c has to fail on it.
 */
#include "uplink.h"

uint32_t __real_uplink_sheet(const uint32_t *weights, size_t weights_length, const uint32_t *rows, size_t rows_length, uint8_t *answer,
                             size_t answer_length);
uint32_t __wrap_uplink_sheet(const uint32_t *weights, size_t weights_length, const uint32_t *rows, size_t rows_length, uint8_t *answer,
                             size_t answer_length);

uint32_t __wrap_uplink_sheet(const uint32_t *weights, size_t weights_length, const uint32_t *rows, size_t rows_length, uint8_t *answer,
                             size_t answer_length)
{
    const volatile uint32_t *behind = rows + rows_length;
    (void)*behind;
    return __real_uplink_sheet(weights, weights_length, rows, rows_length, answer, answer_length);
}
