/*
 * office.h - the office at the other end of the radio: which records the radio dropped.
 *
 * The adapter sends each record as a frame (uplink_frame in uplink.h) with its slot, ticket and serial. The office keeps
 * for each slot the highest ticket that it has heard and the serial that it expects under it, and tells of each frame that
 * arrives how many were lost before it. It keeps nothing of its own: every call is lent the whole office, OFFICE_LENGTH
 * bytes, which office_start makes one that has heard nothing, and which is checked before a frame is taken. It needs no
 * scheduler and no state. Numbers, answers and buffers are as uplink.h has them: UPLINK_ACCEPTED or a refusal's number; a
 * refusal keeps every byte of the office and writes 0 to the answer's fields; an answer of another length gives
 * UPLINK_UNSOUND before all else, and no buffer is touched. Office, frame and answer must not overlap, and may stand
 * anywhere.
 *
 * What it tells: the serial received minus the expected one, modulo 65,536, is the gap. Below 32,768 that many were lost,
 * and the next expected is one after the received. Otherwise the frame is a late repeat and changes nothing. A ticket above
 * the one held begins at serial 0; a lower one is a late repeat.
 *
 * What is promised, and proved: from a fresh scheduler and a fresh office to the next uplink_start or uplink_unpark, if
 * under a ticket fewer than 32,768 in a row are lost before one is received, and of its slot none arrives out of order or
 * twice, the numbers lost that are told under that ticket add up to the records lost before the last one received. Slots
 * may be mixed in any way. What is lost behind the last one received is not told: nothing came that could tell it. After
 * uplink_start tickets begin at 1 again, and an office that goes on cannot tell new frames from late repeats: start it
 * too. docs/PROMISES.md says what is promised across uplink_unpark, and what is not.
 *
 * Work: a call reads the office once and ten bytes of the frame, and writes six bytes. No call allocates, blocks, recurses
 * or keeps a pointer; 512 bytes of stack are enough. Calls on different offices may run at the same time; on one office
 * only one call may be under way.
 *
 * The entries are in the archive of uplink.h, target/staticlib/libdriver.a, for x86-64 Linux.
 */
#ifndef OFFICE_H
#define OFFICE_H

#include "uplink.h"

#ifdef __cplusplus
extern "C" {
#endif

/* Lengths in bytes of the lent office and of the answer of office_take. */
#define OFFICE_LENGTH 384
#define OFFICE_TAKE_LENGTH 24

/* From this gap on a frame is a late repeat: so many lost in a row are no longer told. */
#define OFFICE_LATE_FROM 32768

/* Makes the lent memory an office that has heard nothing. Refused for its length alone; there is no answer. */
uint32_t office_start(uint8_t *office, size_t office_length);

/*
 * The office takes a frame of frame_length bytes, of whatever kind. Refused with UPLINK_UNSOUND for an office of another
 * length or that is no office's, then with UPLINK_BAD_FRAME for bytes that are no frame (uplink_unframe says which); the
 * office keeps each byte then. Answer: slot, ticket, serial, the record's length, the number lost before it, 1 if it is a
 * late repeat else 0. A late repeat has 0 lost and changes nothing. The record stands in the frame from byte
 * UPLINK_FRAMING on.
 */
uint32_t office_take(uint8_t *office, size_t office_length, const uint8_t *frame, size_t frame_length, uint8_t *answer,
                     size_t answer_length);

#ifdef __cplusplus
}
#endif

#endif
