/* A library that refuses every call with 10, as a true refusal would look: sanitized.c has to fail on it. */
#include <string.h>

#include "uplink.h"

#pragma GCC diagnostic ignored "-Wunused-parameter"

static uint32_t refused(uint8_t *answer, size_t length, size_t right)
{
    if (length == right)
        memset(answer, 0, length);
    return UPLINK_UNSOUND;
}

#define REFUSES(call, right, ...) \
    uint32_t call(__VA_ARGS__, uint8_t *answer, size_t length) \
    { \
        return refused(answer, length, right); \
    }

uint32_t uplink_start(uint8_t *s, size_t n, uint32_t e)
{
    return UPLINK_UNSOUND;
}

uint32_t uplink_unpark(uint8_t *s, size_t n, const uint8_t *i, size_t m)
{
    return UPLINK_UNSOUND;
}

REFUSES(uplink_open, UPLINK_OPEN_LENGTH, uint8_t *s, size_t n, uint32_t w)
REFUSES(uplink_put, UPLINK_PUT_LENGTH, uint8_t *s, size_t n, uint32_t i, uint32_t t, uint32_t l, uint32_t r)
REFUSES(uplink_close, UPLINK_CLOSE_LENGTH, uint8_t *s, size_t n, uint32_t i, uint32_t t)
REFUSES(uplink_next, UPLINK_NEXT_LENGTH, uint8_t *s, size_t n)
REFUSES(uplink_ask, UPLINK_ASK_LENGTH, const uint8_t *s, size_t n, uint32_t i, uint32_t t)
REFUSES(uplink_fullest, UPLINK_FULLEST_LENGTH, const uint8_t *s, size_t n)
REFUSES(uplink_park, UPLINK_PARK_LENGTH, uint8_t *s, size_t n, uint8_t *i, size_t m)
REFUSES(uplink_lead, UPLINK_LEAD_LENGTH, uint32_t w1, uint32_t v1, uint32_t w2, uint32_t v2)
REFUSES(uplink_term, UPLINK_TERM_LENGTH, uint32_t k, uint32_t p)
REFUSES(uplink_sheet, UPLINK_SHEET_LENGTH, const uint32_t *w, size_t n, const uint32_t *r, size_t m)
