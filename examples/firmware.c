/*
 * A change of the firmware: boards fill their queues, the old firmware parks the scheduler and keeps its image, all
 * memory is lost, the new firmware reads the image, and every record comes out, in the order in which it would have.
 */
#include <inttypes.h>
#include <stdio.h>
#include <string.h>

#include "uplink.h"

static uint8_t state[UPLINK_STATE_LENGTH];

/* What outlives the change: the image and how long it is. */
static struct {
    uint8_t image[UPLINK_IMAGE_LENGTH];
    uint32_t length;
} flash;

/* What a board keeps of its channel. It outlives the change too: slot and ticket are the same after it. */
struct board {
    const char *name;
    uint32_t slot, ticket;
};

/* Says what became of a call; whether it was accepted. */
static int done(const char *who, const char *what, uint32_t number)
{
    if (number != UPLINK_ACCEPTED)
        printf("%s: %s refused with %" PRIu32 " (%s)\n", who, what, number, uplink_text(number));
    return number == UPLINK_ACCEPTED;
}

static struct board plugged(const char *name, uint32_t weight)
{
    uint8_t answer[UPLINK_OPEN_LENGTH];
    done(name, "channel", uplink_open(state, sizeof state, weight, answer, sizeof answer));
    printf("%s: slot %" PRIu32 ", weight %" PRIu32 "\n", name, uplink_field(answer, 0), weight);
    return (struct board){name, uplink_field(answer, 0), uplink_field(answer, 1)};
}

static void put(struct board b, uint32_t length, uint32_t reference)
{
    uint8_t answer[UPLINK_PUT_LENGTH];
    uint32_t number = uplink_put(state, sizeof state, b.slot, b.ticket, length, reference, answer, sizeof answer);
    if (done(b.name, "record", number))
        printf("%s: record %" PRIu32 ", serial %" PRIu32 "\n", b.name, reference, uplink_field(answer, 0));
}

/* Sends up to so many records, as long as one waits; the radio here only prints. */
static void sent(int most)
{
    uint8_t a[UPLINK_NEXT_LENGTH];
    while (most-- > 0) {
        uint32_t number = uplink_next(state, sizeof state, a, sizeof a);
        if (number == UPLINK_NONE_WAITS || !done("radio", "next", number))
            return;
        printf("radio: slot %" PRIu32 " serial %" PRIu32 ", record %" PRIu32 " of %" PRIu32 " bytes\n",
               uplink_field(a, 0), uplink_field(a, 4), uplink_field(a, 3), uplink_field(a, 2));
    }
}

/* The old firmware's last act. */
static void park(void)
{
    uint8_t answer[UPLINK_PARK_LENGTH];
    uint32_t number = uplink_park(state, sizeof state, flash.image, sizeof flash.image, answer, sizeof answer);
    if (done("adapter", "park", number)) {
        flash.length = uplink_field(answer, 0);
        printf("adapter: parked in %" PRIu32 " bytes\n", flash.length);
    }
}

/* The new firmware's first. */
static void unpark(void)
{
    if (done("adapter", "image", uplink_unpark(state, sizeof state, flash.image, flash.length)))
        printf("adapter: read from %" PRIu32 " bytes\n", flash.length);
}

int main(void)
{
    struct board door, drive, display;

    if (uplink_start(state, sizeof state, UPLINK_HOLDING) != UPLINK_ACCEPTED)
        return 1;
    door = plugged("door", 1);
    drive = plugged("drive", 6);
    display = plugged("display", 3);
    for (uint32_t i = 0; i < 2; i++)
        put(door, 120, 10 + i);
    for (uint32_t i = 0; i < 5; i++)
        put(drive, 600, 20 + i);
    for (uint32_t i = 0; i < 3; i++)
        put(display, 400, 30 + i);
    sent(3);

    /* The firmware changes. A record that comes now is the board's to keep. */
    park();
    put(drive, 600, 25);
    printf("adapter: all memory is lost\n");
    memset(state, 0xff, sizeof state);
    sent(1);

    /* An image that was damaged on its way is refused whole, so it can be fetched again. */
    flash.image[flash.length - 1] ^= 1;
    unpark();
    flash.image[flash.length - 1] ^= 1;
    unpark();

    /* The drive goes on with its next serial. */
    put(drive, 600, 25);
    sent(100);
    return 0;
}
