/*
 * Other adapters claim the same method. Their makers hand in sheets: which row is visited when, in one round with every
 * row always waiting. Some are checked here, true and wrong; then the sheet of this scheduler itself, in both editions.
 */
#include <inttypes.h>
#include <stdio.h>

#include "uplink.h"

#define LENGTH(list) (sizeof(list) / sizeof *(list))

/* A door, a drive and a display: rows 0, 1 and 2, in joining order. */
static const uint32_t weights[] = {1, 6, 3};

/* In binary 001, 110 and 011; the columns come as 2, 1, 2, 0, 2, 1, 2. Ten visits, as the weights add up to. */
static const uint32_t smooth[] = {1, 1, 2, 1, 0, 2, 1, 1, 2, 1};
/* Each row all its visits in one go. */
static const uint32_t one_go[] = {0, 1, 1, 1, 1, 1, 1, 2, 2, 2};
/* Right up to the column that rows 0 and 2 share: the one that joined first comes first. */
static const uint32_t late_first[] = {1, 1, 2, 1, 2, 0, 1, 1, 2, 1};
/* Rows are counted from 0. */
static const uint32_t from_one[] = {2, 2, 3, 2, 1, 3, 2, 2, 3, 2};

/* Says what a sheet of these weights is; whether it is accepted. */
static int checked(const char *maker, const uint32_t *of, size_t count, const uint32_t *rows, size_t length)
{
    uint8_t a[UPLINK_SHEET_LENGTH];
    uint32_t number = uplink_sheet(of, count, rows, length, a, sizeof a), place = uplink_field(a, 1);
    if (number != UPLINK_ACCEPTED)
        printf("%s: refused with %" PRIu32 " (%s)\n", maker, number, uplink_text(number));
    else if (uplink_field(a, 0))
        printf("%s: accepted, a round of %zu visits\n", maker, length);
    else if (place < length)
        printf("%s: wrong at place %" PRIu32 ", with row %" PRIu32 "\n", maker, place, rows[place]);
    else
        printf("%s: wrong at place %" PRIu32 ", behind its last\n", maker, place);
    return number == UPLINK_ACCEPTED && uplink_field(a, 0);
}

/* The visits of one round of this scheduler: each send that starts one, with a record put for each that is sent. */
static int own_round(uint32_t edition, uint32_t *rows, size_t length)
{
    static uint8_t state[UPLINK_STATE_LENGTH];
    uint8_t a[UPLINK_NEXT_LENGTH];
    size_t visits = 0;
    if (uplink_start(state, sizeof state, edition) != UPLINK_ACCEPTED)
        return 0;
    for (uint32_t row = 0; row < LENGTH(weights); row++) {
        /* Slots and rows are the same here: the first channel has slot 0, and joins first. */
        if (uplink_open(state, sizeof state, weights[row], a, UPLINK_OPEN_LENGTH) != UPLINK_ACCEPTED)
            return 0;
        for (int record = 0; record < 2; record++)
            if (uplink_put(state, sizeof state, row, 1, 600, 0, a, UPLINK_PUT_LENGTH) != UPLINK_ACCEPTED)
                return 0;
    }
    while (visits < length) {
        if (uplink_next(state, sizeof state, a, UPLINK_NEXT_LENGTH) != UPLINK_ACCEPTED)
            return 0;
        uint32_t slot = uplink_field(a, 0), ticket = uplink_field(a, 1), started = uplink_field(a, 5);
        if (started)
            rows[visits++] = slot;
        if (uplink_put(state, sizeof state, slot, ticket, 600, 0, a, UPLINK_PUT_LENGTH) != UPLINK_ACCEPTED)
            return 0;
    }
    return 1;
}

int main(void)
{
    static const uint32_t many[UPLINK_ROWS_MOST + 1] = {0}, heavy[] = {UPLINK_HEAVIEST_ON_SHEET + 1};
    uint32_t rows[LENGTH(smooth)];

    checked("maker A", weights, LENGTH(weights), smooth, LENGTH(smooth));
    checked("maker B", weights, LENGTH(weights), one_go, LENGTH(one_go));
    checked("maker C", weights, LENGTH(weights), late_first, LENGTH(late_first));
    checked("maker D", weights, LENGTH(weights), from_one, LENGTH(from_one));
    checked("maker E", weights, LENGTH(weights), smooth, LENGTH(smooth) - 1);
    checked("maker F", heavy, LENGTH(heavy), rows, 0);
    checked("maker G", many, LENGTH(many), rows, 0);
    for (uint32_t edition = UPLINK_FALLING; edition <= UPLINK_HOLDING; edition++)
        if (!own_round(edition, rows, LENGTH(rows)) || !checked("this one", weights, LENGTH(weights), rows, LENGTH(rows)))
            return 1;
    return 0;
}
