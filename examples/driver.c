/*
 * A driver's loop, small: boards open channels and hand in records, the radio sends what the scheduler picks, and a board
 * is pulled and pushed back while its old disconnect is still on the way.
 */
#include <inttypes.h>
#include <stdio.h>

#include "uplink.h"

static uint8_t state[UPLINK_STATE_LENGTH];

/* What a driver keeps of a channel. Ticket 0 is nobody's: a call with it is refused. */
struct channel {
    uint32_t slot, ticket;
};

static void refused(const char *board, const char *what, uint32_t number)
{
    printf("%s: %s refused with %" PRIu32 " (%s)\n", board, what, number, uplink_text(number));
}

static struct channel open_channel(const char *board, uint32_t weight)
{
    uint8_t answer[UPLINK_OPEN_LENGTH];
    uint32_t number = uplink_open(state, sizeof state, weight, answer, sizeof answer);
    /* The fields of a refusal are 0. */
    struct channel c = {uplink_field(answer, 0), uplink_field(answer, 1)};
    if (number == UPLINK_ACCEPTED)
        printf("%s: slot %" PRIu32 ", ticket %" PRIu32 ", weight %" PRIu32 "\n", board, c.slot, c.ticket, weight);
    else
        refused(board, "channel", number);
    return c;
}

static void put_record(const char *board, struct channel c, uint32_t length, uint32_t reference)
{
    uint8_t answer[UPLINK_PUT_LENGTH];
    uint32_t number = uplink_put(state, sizeof state, c.slot, c.ticket, length, reference, answer, sizeof answer);
    if (number == UPLINK_ACCEPTED)
        printf("%s: record %" PRIu32 " taken, serial %" PRIu32 ", %" PRIu32 " waiting\n", board, reference,
               uplink_field(answer, 0), uplink_field(answer, 1));
    else
        refused(board, "record", number);
}

static void close_channel(const char *board, struct channel c)
{
    uint8_t answer[UPLINK_CLOSE_LENGTH];
    uint32_t number = uplink_close(state, sizeof state, c.slot, c.ticket, answer, sizeof answer);
    if (number == UPLINK_ACCEPTED)
        printf("%s: ticket %" PRIu32 " closed, %s\n", board, c.ticket,
               uplink_field(answer, 0) ? "slot free" : "its records are sent first");
    else
        refused(board, "close", number);
}

/* Who is filling up, the fullest first, for the dispatcher's panel. */
static void show_fullest(void)
{
    uint8_t a[UPLINK_FULLEST_LENGTH];
    if (uplink_fullest(state, sizeof state, a, sizeof a) == UPLINK_ACCEPTED)
        for (uint32_t i = 0; i < uplink_field(a, 0); i++)
            printf("panel: %" PRIu32 " bytes wait in slot %" PRIu32 "\n", uplink_field(a, 2 * i + 2), uplink_field(a, 2 * i + 1));
}

/* Sends until nothing waits; the radio here only prints. */
static void send_all(void)
{
    uint8_t a[UPLINK_NEXT_LENGTH];
    uint32_t number;
    while ((number = uplink_next(state, sizeof state, a, sizeof a)) == UPLINK_ACCEPTED)
        printf("radio: slot %" PRIu32 " ticket %" PRIu32 " serial %" PRIu32 ", record %" PRIu32 " of %" PRIu32 " bytes\n",
               uplink_field(a, 0), uplink_field(a, 1), uplink_field(a, 4), uplink_field(a, 3), uplink_field(a, 2));
    if (number != UPLINK_NONE_WAITS)
        refused("radio", "next", number);
}

int main(void)
{
    struct channel door, drive, old_door;

    if (uplink_start(state, sizeof state, UPLINK_HOLDING) != UPLINK_ACCEPTED)
        return 1;
    door = open_channel("door", 1);
    drive = open_channel("drive", 8);
    put_record("door", door, 120, 1);
    for (uint32_t i = 0; i < 4; i++)
        put_record("drive", drive, UPLINK_LONGEST, 100 + i);
    put_record("drive", drive, UPLINK_LONGEST + 1, 104);
    show_fullest();
    send_all();

    /* The door board is pulled: its driver closes the channel, and the disconnect is still on the way. */
    old_door = door;
    close_channel("door", door);
    door = open_channel("door, pushed back", 1);
    put_record("door", door, 200, 2);
    put_record("door", door, 300, 3);

    /* Now the old disconnect arrives, late: it names the old ticket and changes nothing. */
    close_channel("door, late disconnect", old_door);
    send_all();
    return 0;
}
