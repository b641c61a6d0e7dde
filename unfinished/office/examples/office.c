/*
 * An adapter, a lossy radio and an office. The scheduler picks the next record, uplink_frame puts its slot, ticket and
 * serial before it, and the radio drops some frames. The office tells for each channel how many were lost; beside
 * that stands what the radio knows. One board is pulled and pushed back, so that two tickets of one slot follow each
 * other: what is lost behind the last one received under the first is told by nobody.
 */
#include <inttypes.h>
#include <stdio.h>
#include <string.h>

#include "office.h"

enum { BOARDS = 3, TICKETS = 3 };

static const char *const boards[BOARDS] = {"door", "drive", "display"};
static const uint32_t weights[BOARDS] = {1, 6, 3};

static uint8_t state[UPLINK_STATE_LENGTH], office[OFFICE_LENGTH];

/* What the radio did with the frames of each slot and ticket; what the office told of them. */
static struct count {
    uint32_t sent, dropped, dropped_before_last, received, lost;
} counts[BOARDS][TICKETS];

static void stop(const char *what, uint32_t number)
{
    printf("%s: refused with %" PRIu32 " (%s)\n", what, number, uplink_text(number));
}

/* The office takes what arrives. Returns whether it was a frame. */
static int heard(const uint8_t *frame, size_t length)
{
    uint8_t a[OFFICE_TAKE_LENGTH];
    uint32_t number = office_take(office, sizeof office, frame, length, a, sizeof a);
    if (number != UPLINK_ACCEPTED) {
        stop("office", number);
        return 0;
    }
    uint32_t slot = uplink_field(a, 0), ticket = uplink_field(a, 1), serial = uplink_field(a, 2);
    if (uplink_field(a, 5))
        printf("%s, ticket %" PRIu32 ": serial %" PRIu32 " is a late repeat\n", boards[slot], ticket, serial);
    else
        counts[slot][ticket].lost += uplink_field(a, 4);
    return 1;
}

/* The radio drops some three in ten frames. The first that it lets through is kept, to come again. */
static uint8_t kept[UPLINK_LONGEST_FRAME];
static size_t kept_length;

static void radio(const uint8_t *frame, size_t length, struct count *count)
{
    static uint32_t number = 3;
    number = number * 1103515245 + 12345;
    count->sent++;
    if (number >> 16 & 1 && number >> 20 & 1) {
        count->dropped++;
        return;
    }
    count->received++;
    count->dropped_before_last = count->dropped;
    if (kept_length == 0)
        memcpy(kept, frame, length), kept_length = length;
    heard(frame, length);
}

static int put(uint32_t slot, uint32_t ticket, uint32_t records)
{
    uint8_t a[UPLINK_PUT_LENGTH];
    uint32_t number = UPLINK_ACCEPTED;
    for (uint32_t record = 0; record < records && number == UPLINK_ACCEPTED; record++)
        number = uplink_put(state, sizeof state, slot, ticket, (uint32_t)strlen(boards[slot]) + 20, slot, a, sizeof a);
    return number == UPLINK_ACCEPTED;
}

/* Sends all that waits. The record's bytes are the driver's: here the board's name and dots. */
static int send_all(void)
{
    uint8_t a[UPLINK_NEXT_LENGTH], length[UPLINK_FRAME_LENGTH];
    uint8_t record[UPLINK_LONGEST], frame[UPLINK_LONGEST_FRAME];
    while (uplink_next(state, sizeof state, a, sizeof a) == UPLINK_ACCEPTED) {
        uint32_t slot = uplink_field(a, 0), ticket = uplink_field(a, 1), size = uplink_field(a, 2);
        const char *board = boards[uplink_field(a, 3)];
        uint16_t serial = (uint16_t)uplink_field(a, 4);
        memset(record, '.', size);
        memcpy(record, board, strlen(board));
        uint32_t number =
            uplink_frame(slot, ticket, serial, record, size, frame, sizeof frame, length, sizeof length);
        if (number != UPLINK_ACCEPTED) {
            stop("frame", number);
            return 0;
        }
        radio(frame, uplink_field(length, 0), &counts[slot][ticket]);
    }
    return 1;
}

int main(void)
{
    uint8_t a[UPLINK_OPEN_LENGTH];
    int right = 1;
    if (uplink_start(state, sizeof state, UPLINK_HOLDING) != UPLINK_ACCEPTED ||
        office_start(office, sizeof office) != UPLINK_ACCEPTED)
        return 1;
    for (uint32_t slot = 0; slot < BOARDS; slot++)
        if (uplink_open(state, sizeof state, weights[slot], a, sizeof a) != UPLINK_ACCEPTED ||
            !put(slot, 1, slot == 1 ? 60 : 20))
            return 1;
    if (!send_all())
        return 1;
    /* The drive board is pulled and pushed back: the same slot, the next ticket, serials from 0 on. */
    if (uplink_close(state, sizeof state, 1, 1, a, UPLINK_CLOSE_LENGTH) != UPLINK_ACCEPTED ||
        uplink_open(state, sizeof state, weights[1], a, sizeof a) != UPLINK_ACCEPTED || !put(1, 2, 30) ||
        !put(0, 1, 10) || !send_all())
        return 1;
    /* A frame that comes again, and one that the air has cut: neither changes anything. */
    if (!heard(kept, kept_length) || heard(kept, kept_length - 1))
        return 1;
    for (uint32_t slot = 0; slot < BOARDS; slot++)
        for (uint32_t ticket = 1; ticket < TICKETS; ticket++) {
            const struct count *c = &counts[slot][ticket];
            if (c->sent == 0)
                continue;
            printf("%s, ticket %" PRIu32 ": %" PRIu32 " sent, %" PRIu32 " received, ", boards[slot], ticket, c->sent,
                   c->received);
            printf("%" PRIu32 " lost before the last of these\n", c->lost);
            right &= c->lost == c->dropped_before_last;
        }
    printf("%s\n", right ? "as the radio knows it" : "the radio knows otherwise");
    return !right;
}
