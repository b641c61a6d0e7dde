/*
 * plain.h - support's engine: uplink_put and uplink_next worked out by the matrix, as they are on paper.
 *
 * For support, to work an odd order of records out; no adapter needs it, and the adapter's archive does not hold it. A
 * call fills a matrix from the state: UPLINK_COLUMNS columns over UPLINK_SLOTS rows, row r is the r-th in joining order,
 * and each column has one bit of every row's weight. The terms are taken one at a time from the table of the longest
 * spread sequence, and the order is that of the highest column that is not empty.
 *
 * What comes back is the uplink's own: on every memory, sound or not, of any length, and for any numbers, each call here
 * gives the number, the bytes of the answer and the bytes of the state that the call of the same name in uplink.h gives.
 * So all that uplink.h says of state, answer, numbers, interrupts and threads holds here, and both kinds of calls may be
 * mixed on one state. The other calls, uplink_start and uplink_open among them, are the uplink's.
 *
 * To link: cc program.c target/staticlib/libsupport.a target/staticlib/libdriver.a. The archive, written by
 * `bin/archive support`, is for x86-64 Linux and has no data that can be written; beside memcpy and memset it needs
 * nothing.
 *
 * Work: plain_next fills the matrix and takes its terms one by one, up to 2^order - 1 in edition 2, so it takes longer
 * than uplink_next; every loop still has a bound, whatever bytes are lent. Stack: 8,192 bytes are enough for either call.
 */
#ifndef PLAIN_H
#define PLAIN_H

#include "uplink.h"

#ifdef __cplusplus
extern "C" {
#endif

/* uplink_put by the matrix. Answer: UPLINK_PUT_LENGTH bytes, serial, number now waiting. */
uint32_t plain_put(uint8_t *state, size_t state_length, uint32_t slot, uint32_t ticket, uint32_t length,
                   uint32_t reference, uint8_t *answer, size_t answer_length);

/*
 * uplink_next by the matrix. Answer: UPLINK_NEXT_LENGTH bytes, slot, ticket, length, reference, serial, 1 if this send
 * started a visit else 0, terms taken.
 */
uint32_t plain_next(uint8_t *state, size_t state_length, uint8_t *answer, size_t answer_length);

#ifdef __cplusplus
}
#endif

#endif
