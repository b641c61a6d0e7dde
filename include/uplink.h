/*
 * uplink.h - the scheduler of a lift adapter's uplink, for its driver in C.
 *
 * The scheduler keeps nothing of its own: every call is lent the whole state, UPLINK_STATE_LENGTH bytes, which
 * uplink_start makes fresh (memory of zeros is no state). Each call checks that memory whole before it acts. The
 * result of a call is its number: 0 if it was accepted, else one of enum uplink_refusal, and then the state keeps
 * every byte and the answer's fields are 0. An answer is a lent buffer of an exact length; its fields are 4 bytes
 * each, lowest byte first, and uplink_field reads one (uplink_lead: one field of 8 bytes, two's complement, read by
 * uplink_signed). A buffer of another length gives UPLINK_UNSOUND before all else, and no buffer is touched. State,
 * image, lists and answer must not overlap. No alignment is asked for but that of uint32_t, for the lists of
 * uplink_sheet. docs/ANSWERS.md has every byte.
 *
 * For a change of the firmware uplink_park writes the state to an image that any later firmware reads by uplink_unpark.
 * The state is then parked: but for uplink_start and uplink_unpark, every call on it gives UPLINK_PARKED.
 *
 * Work: a call reads the state about once; uplink_put and uplink_next then move up to 3,066 bytes of it by one place;
 * uplink_park writes the image once, and uplink_unpark reads it, writes it again to compare, and writes the state;
 * uplink_sheet takes a step for each visit that is right and for each of up to 4,095 positions. Every loop has a bound,
 * whatever is lent; no call allocates, blocks, recurses or keeps a pointer. Stack: 2,048 bytes are enough for any call
 * but uplink_unpark, for which 10,240 are: it builds the state aside before it writes.
 *
 * Interrupts and threads: there is no static data, so calls on different states may interrupt each other or run at the
 * same time. On one state only one call may be under way: whoever makes a call from an interrupt has to be sure that it
 * interrupts none on the same state. A call that is interrupted by another on the same state is the caller's fault, and
 * nothing here finds it.
 *
 * The archive, target/staticlib/libdriver.a, is for x86-64 Linux and needs memcpy and memset, and nothing else.
 */
#ifndef UPLINK_H
#define UPLINK_H

#include <stddef.h>
#include <stdint.h>

#ifdef __cplusplus
extern "C" {
#endif

/* Version of this interface: major * 10000 + minor * 100 + patch. */
#define UPLINK_VERSION 40100

/* Lengths in bytes of the lent state, of the longest image and of each call's answer. */
#define UPLINK_STATE_LENGTH 4102
#define UPLINK_IMAGE_LENGTH 3924
#define UPLINK_OPEN_LENGTH 8
#define UPLINK_PUT_LENGTH 8
#define UPLINK_CLOSE_LENGTH 4
#define UPLINK_NEXT_LENGTH 28
#define UPLINK_ASK_LENGTH 20
#define UPLINK_FULLEST_LENGTH 44
#define UPLINK_PARK_LENGTH 4
#define UPLINK_LEAD_LENGTH 8
#define UPLINK_TERM_LENGTH 4
#define UPLINK_SHEET_LENGTH 8

/* Slots are 0 to UPLINK_SLOTS - 1. Tickets are 1 to UPLINK_LAST_TICKET, so that 0 is nobody's. */
#define UPLINK_SLOTS 64
#define UPLINK_LAST_TICKET 4294967295

/* Weights are 1 to UPLINK_HEAVIEST, and orders 1 to UPLINK_COLUMNS: a column for each bit of a weight. */
#define UPLINK_HEAVIEST 4095
#define UPLINK_COLUMNS 12

/* A round sheet has up to UPLINK_ROWS_MOST weights of 1 to UPLINK_HEAVIEST_ON_SHEET, whatever a channel's may be. */
#define UPLINK_ROWS_MOST 64
#define UPLINK_HEAVIEST_ON_SHEET 4095

/*
 * Lengths of records are 1 to UPLINK_LONGEST bytes, without framing. A record costs its channel its length and
 * UPLINK_FRAMING, which is what it takes on the link.
 */
#define UPLINK_LONGEST 1014
#define UPLINK_FRAMING 10

/*
 * At most UPLINK_ROOM records wait in a channel. UPLINK_KEPT cells are kept for every slot, so a channel with fewer
 * records is never refused for room; beyond that all channels share UPLINK_SHARED cells.
 */
#define UPLINK_ROOM 64
#define UPLINK_KEPT 2
#define UPLINK_SHARED 384

/* Of the fullest channels so many are listed at the most. */
#define UPLINK_LISTED 5

/* References are 0 to UPLINK_REFERENCES - 1. Serials are 0 to UPLINK_SERIALS - 1, and then 0 again. */
#define UPLINK_REFERENCES 4294967296
#define UPLINK_SERIALS 65536

/* Bytes that a visit grants, and the largest deficit in an open visit and at rest. */
#define UPLINK_GRANTED 1024
#define UPLINK_VISIT_LIMIT 2046
#define UPLINK_REST_LIMIT 1023

/*
 * The editions, one for each state. In edition 1 the order falls as soon as the heaviest row leaves, and one uplink_next
 * takes at most UPLINK_MOST_TERMS terms. In edition 2 it is held until the round ends, and one uplink_next takes up to
 * 2^order - 1 terms, in one step: it takes no longer. The README says which one to choose.
 */
#define UPLINK_FALLING 1
#define UPLINK_HOLDING 2
#define UPLINK_MOST_TERMS 2

/* The numbers sent back. uplink_text has them in words. 9 is not used. */
enum uplink_refusal {
    UPLINK_ACCEPTED = 0,
    UPLINK_NO_SLOT = 1,       /* slot above 63 */
    UPLINK_NOT_PRESENT = 2,   /* slot free, or ticket not its present one */
    UPLINK_AT_CLOSING = 3,    /* channel is closing */
    UPLINK_BAD_LENGTH = 4,    /* length 0 or above 1,014 */
    UPLINK_FULL = 5,          /* 64 records wait already */
    UPLINK_BAD_WEIGHT = 6,    /* weight 0 or above 4,095 */
    UPLINK_NONE_FREE = 7,     /* no slot can be opened */
    UPLINK_NONE_WAITS = 8,    /* no record waits */
    UPLINK_UNSOUND = 10,      /* lent state unsound or of wrong length; answer buffer of wrong length */
    UPLINK_NO_TERM = 11,      /* order not 1 to 12, or position not 1 to 2^order - 1 */
    UPLINK_BAD_EDITION = 12,  /* edition not 1 or 2 */
    UPLINK_NO_SHARED = 13,    /* two records or more wait, and no shared cell is free */
    UPLINK_PARKED = 14,       /* state is parked: it takes only uplink_start and uplink_unpark */
    UPLINK_BAD_IMAGE = 15,    /* not exactly the image of one sound state */
    UPLINK_SHORT_BUFFER = 16, /* buffer too short for the image */
    UPLINK_TOO_MANY = 17      /* more than 64 weights */
};

/*
 * Makes the lent memory the fresh state of an edition, UPLINK_FALLING or UPLINK_HOLDING: all slots free, all zeros but
 * the edition. Refused for its length, then for another edition, whatever else stands there.
 */
uint32_t uplink_start(uint8_t *state, size_t state_length, uint32_t edition);

/* Opens a channel of a weight. Answer: slot, ticket, which together name it from now on. */
uint32_t uplink_open(uint8_t *state, size_t state_length, uint32_t weight, uint8_t *answer, size_t answer_length);

/*
 * Adds a record of a length, which does not count its framing. The reference is any number by which the driver finds
 * the record's bytes again; they stay with the driver. Answer: serial, number now waiting.
 */
uint32_t uplink_put(uint8_t *state, size_t state_length, uint32_t slot, uint32_t ticket, uint32_t length,
                    uint32_t reference, uint8_t *answer, size_t answer_length);

/* Closes a channel. Answer: 1 if its slot is free at once, 0 if its records are sent first, by uplink_next as ever. */
uint32_t uplink_close(uint8_t *state, size_t state_length, uint32_t slot, uint32_t ticket, uint8_t *answer,
                      size_t answer_length);

/*
 * Takes the next record to send off its queue, for good. Answer: slot, ticket, length, reference, serial, 1 if this
 * send started a visit else 0, terms taken.
 */
uint32_t uplink_next(uint8_t *state, size_t state_length, uint8_t *answer, size_t answer_length);

/*
 * Tells of a channel, and changes nothing. Answer: 1 for open or 2 for closing, weight, deficit, number waiting, bytes
 * waiting: the lengths of its records together, without framing.
 */
uint32_t uplink_ask(const uint8_t *state, size_t state_length, uint32_t slot, uint32_t ticket, uint8_t *answer,
                    size_t answer_length);

/*
 * Tells who is filling up, and changes nothing. Answer: how many channels are listed, 0 to UPLINK_LISTED; then their
 * slots and bytes waiting, slot, bytes, slot, bytes, and 0 behind the last, so that there are always eleven fields. The
 * channel with most bytes comes first, on a tie the one in the lower slot; channels with none are left out.
 */
uint32_t uplink_fullest(const uint8_t *state, size_t state_length, uint8_t *answer, size_t answer_length);

/*
 * Parks the state: its image is written to the beginning of a lent buffer of image_length bytes, whose other bytes are
 * kept. UPLINK_IMAGE_LENGTH bytes hold any image. With a buffer that is too short nothing is written or parked. Answer:
 * the image's length.
 */
uint32_t uplink_park(uint8_t *state, size_t state_length, uint8_t *image, size_t image_length, uint8_t *answer,
                     size_t answer_length);

/*
 * Makes the lent memory the state of an image, not parked: it goes on where it was parked. image_length is the image's
 * own, as uplink_park answered it. Refused for the state's length, then for bytes that are not an image, whatever else
 * stands in the memory; there is no answer.
 */
uint32_t uplink_unpark(uint8_t *state, size_t state_length, const uint8_t *image, size_t image_length);

/*
 * The lead of the second channel over the first, w1 * v2 - w2 * v1, of their weights w1, w2 and visit counts v1, v2.
 * Positive: the second is ahead, with more visits for its weight, and the first is behind. Negative: the first is ahead
 * and the second is behind. 0: they are level. So 1, 1, 1, 0 (one visit of the first, none of the second) gives -1.
 * Answer: the lead, 8 bytes.
 */
uint32_t uplink_lead(uint32_t w1, uint32_t v1, uint32_t w2, uint32_t v2, uint8_t *answer, size_t answer_length);

/* The term at a position, 1 to 2^order - 1, of the spread sequence of an order. Answer: the term. */
uint32_t uplink_term(uint32_t order, uint32_t position, uint8_t *answer, size_t answer_length);

/*
 * Checks a round sheet, say of another maker's adapter: the weights of rows in joining order and a list of row numbers.
 * It is accepted exactly if the list is the visits of one round with every row always waiting, which this scheduler makes
 * in both editions. Rows and places are counted from 0; the two lengths count numbers, not bytes, and may be any. Answer:
 * 1 if the sheet is accepted, else 0; the first wrong place, 0 if accepted. Of a list that is too short that is the place
 * after its last, of one that is too long the first place too many; a number that is no row's is wrong where it stands.
 * Refused with UPLINK_TOO_MANY for more than UPLINK_ROWS_MOST weights, then with UPLINK_BAD_WEIGHT for one that is not 1
 * to UPLINK_HEAVIEST_ON_SHEET. A sheet that is found wrong is no refusal: its number is UPLINK_ACCEPTED.
 */
uint32_t uplink_sheet(const uint32_t *weights, size_t weights_length, const uint32_t *rows, size_t rows_length,
                      uint8_t *answer, size_t answer_length);

/* Field i of an answer, the first is 0: 4 bytes, lowest first. The answer has to have that field. */
static inline uint32_t uplink_field(const uint8_t *answer, size_t i)
{
    const uint8_t *b = answer + 4 * i;
    return (uint32_t)b[0] | (uint32_t)b[1] << 8 | (uint32_t)b[2] << 16 | (uint32_t)b[3] << 24;
}

/* The lead in the answer of uplink_lead. */
static inline int64_t uplink_signed(const uint8_t *answer)
{
    uint64_t bits = (uint64_t)uplink_field(answer, 1) << 32 | uplink_field(answer, 0);
    return bits <= INT64_MAX ? (int64_t)bits : -1 - (int64_t)(UINT64_MAX - bits);
}

/* A short text for the number of a call. */
static inline const char *uplink_text(uint32_t number)
{
    switch (number) {
    case UPLINK_ACCEPTED: return "accepted";
    case UPLINK_NO_SLOT: return "no such slot";
    case UPLINK_NOT_PRESENT: return "slot free, or ticket not its present one";
    case UPLINK_AT_CLOSING: return "channel is closing";
    case UPLINK_BAD_LENGTH: return "length out of range";
    case UPLINK_FULL: return "no room for one more record";
    case UPLINK_BAD_WEIGHT: return "weight out of range";
    case UPLINK_NONE_FREE: return "no slot can be opened";
    case UPLINK_NONE_WAITS: return "no record waits";
    case UPLINK_UNSOUND: return "state unsound, or state or answer of wrong length";
    case UPLINK_NO_TERM: return "no such term";
    case UPLINK_BAD_EDITION: return "no such edition";
    case UPLINK_NO_SHARED: return "no shared cell left";
    case UPLINK_PARKED: return "state is parked";
    case UPLINK_BAD_IMAGE: return "not the image of a state";
    case UPLINK_SHORT_BUFFER: return "buffer too short for the image";
    case UPLINK_TOO_MANY: return "more than 64 weights";
    default: return "not a number of these calls";
    }
}

#ifdef __cplusplus
}
#endif

#endif
