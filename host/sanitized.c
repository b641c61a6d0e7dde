/*
 * The C entries on memory that ends where nobody may touch the next byte: each call is made three times, on buffers that end at a
 * forbidden page, on buffers that begin behind one, and on buffers of just their length from malloc, and must do the same each time.
 * First comes a script whose answers are known, field by field; then calls at random in each edition, of which enough must be accepted. They begin
 * where every cell is taken. A refusal must be one that the call can give, keep the state and a lent image and write 0 to every field. Last come round
 * sheets, known and at random, in lists of just their length. Run as "sanitized [calls] [seed]"; host/README.md has the commands. Exits with 1 for a
 * library that does anything else: refuses.c, keeps.c, writes.c and reads.c are four.
 */
#define _DEFAULT_SOURCE
#include <inttypes.h>
#include <stdio.h>
#include <stdlib.h>
#include <string.h>
#include <sys/mman.h>

#include "uplink.h"

enum { PAGE = 4096, SPACE = 2 * PAGE, PLACES = 3, WIDEST = 64, PAINT = 0xa5 };
/* The cells for records, which take six bytes each, the notes behind them (two bytes a slot, a number and the slots listed), the state ahead of them, and where its
   edition and its mark stand. */
enum {
    CELLS = UPLINK_SLOTS * UPLINK_KEPT + UPLINK_SHARED,
    NOTES = 2 * UPLINK_SLOTS + 1 + UPLINK_LISTED,
    HEADS = UPLINK_STATE_LENGTH - NOTES - 6 * CELLS,
    EDITION = HEADS - 50,
    MARK = EDITION + 1
};
/* Those up to UNPARK take a state. */
enum kind { START, OPEN, PUT, CLOSE, NEXT, ASK, FULLEST, PARK, UNPARK, LEAD, TERM, KINDS };

static const char *const names[KINDS] = {"start", "open", "put", "close", "next", "ask", "fullest", "park", "unpark", "lead", "term"};
static const size_t right[KINDS] = {0, UPLINK_OPEN_LENGTH, UPLINK_PUT_LENGTH, UPLINK_CLOSE_LENGTH, UPLINK_NEXT_LENGTH, UPLINK_ASK_LENGTH,
                                    UPLINK_FULLEST_LENGTH, UPLINK_PARK_LENGTH, 0, UPLINK_LEAD_LENGTH, UPLINK_TERM_LENGTH};

struct call {
    enum kind kind;
    uint32_t numbers[4];
    size_t state_length, answer_length;
    /* Of park and unpark: the lent buffer and what stands in it before the call. */
    size_t image_length;
    const uint8_t *image;
};

/* What a call leaves. */
struct left {
    uint32_t number;
    uint8_t state[SPACE], answer[WIDEST], image[SPACE];
};

/* ---- The places that buffers are lent from: 0 ends at a forbidden page, 1 begins behind one, 2 is from malloc. */

static uint8_t *rooms[2][3];

static uint8_t *forbidden(void)
{
    uint8_t *all = mmap(NULL, SPACE + 2 * PAGE, PROT_NONE, MAP_PRIVATE | MAP_ANONYMOUS, -1, 0);
    if (all == MAP_FAILED || mprotect(all + PAGE, SPACE, PROT_READ | PROT_WRITE) != 0)
        exit(2);
    return all + PAGE;
}

static uint8_t *lent(int which, int place, size_t length)
{
    return place == 0 ? rooms[0][which] + SPACE - length : place == 1 ? rooms[1][which] : malloc(length);
}

static void given_back(uint8_t *bytes, int place)
{
    if (place == 2)
        free(bytes);
}

/* ---- A call, and what every call keeps to. */

static uint32_t made(const struct call *c, uint8_t *state, uint8_t *image, uint8_t *answer)
{
    const uint32_t *n = c->numbers;
    size_t s = c->state_length, a = c->answer_length;
    switch (c->kind) {
    case START: return uplink_start(state, s, n[0]);
    case OPEN: return uplink_open(state, s, n[0], answer, a);
    case PUT: return uplink_put(state, s, n[0], n[1], n[2], n[3], answer, a);
    case CLOSE: return uplink_close(state, s, n[0], n[1], answer, a);
    case NEXT: return uplink_next(state, s, answer, a);
    case ASK: return uplink_ask(state, s, n[0], n[1], answer, a);
    case FULLEST: return uplink_fullest(state, s, answer, a);
    case PARK: return uplink_park(state, s, image, c->image_length, answer, a);
    case UNPARK: return uplink_unpark(state, s, image, c->image_length);
    case LEAD: return uplink_lead(n[0], n[1], n[2], n[3], answer, a);
    default: return uplink_term(n[0], n[1], answer, a);
    }
}

static void made_at(int place, const struct call *c, const uint8_t *before, struct left *left)
{
    uint8_t *state = lent(0, place, c->state_length), *answer = lent(1, place, c->answer_length), *image = lent(2, place, c->image_length);
    memcpy(state, before, c->state_length);
    memset(answer, PAINT, c->answer_length);
    if (c->image_length > 0)
        memcpy(image, c->image, c->image_length);
    left->number = made(c, state, image, answer);
    memcpy(left->state, state, c->state_length);
    memcpy(left->answer, answer, c->answer_length);
    memcpy(left->image, image, c->image_length);
    given_back(state, place);
    given_back(answer, place);
    given_back(image, place);
}

/* The numbers that each call can give, by docs/ANSWERS.md, and 0 behind them. 9 is not used. */
static int can_give(enum kind kind, uint32_t number)
{
    static const uint32_t numbers[KINDS][9] = {{10, 12}, {10, 14, 6, 7}, {10, 14, 1, 2, 3, 4, 5, 13}, {10, 14, 1, 2, 3}, {10, 14, 8},
                                               {10, 14, 1, 2}, {10, 14}, {10, 14, 16}, {10, 15}, {10, 6}, {10, 11}};
    for (int i = 0; i < 9; i++)
        if (numbers[kind][i] == number)
            return 1;
    return 0;
}

static int all_are(uint8_t byte, const uint8_t *bytes, size_t length)
{
    for (size_t i = 0; i < length; i++)
        if (bytes[i] != byte)
            return 0;
    return 1;
}

/* What is wrong with a Start, or NULL: another length gives 10, then an edition that is not 1 or 2 gives 12. */
static const char *start_fault(const struct call *c, const struct left *left)
{
    uint32_t edition = c->numbers[0];
    uint32_t right_number = c->state_length != UPLINK_STATE_LENGTH ? UPLINK_UNSOUND : edition == 1 || edition == 2 ? UPLINK_ACCEPTED : UPLINK_BAD_EDITION;
    if (left->number != right_number)
        return "another number than the edition and the length give";
    if (right_number == UPLINK_ACCEPTED && (left->state[EDITION] != edition || !all_are(0, left->state, EDITION) ||
                                            !all_are(0, left->state + EDITION + 1, UPLINK_STATE_LENGTH - EDITION - 1)))
        return "the fresh state is not its edition and zeros";
    return NULL;
}

/* What is wrong with a park that was accepted, or NULL: the state is marked and else kept, the image is as long as it says, and the bytes behind it are kept. */
static const char *park_fault(const struct call *c, const uint8_t *before, const struct left *left)
{
    const uint8_t *image = left->image;
    uint32_t length = uplink_field(left->answer, 0);
    if (before[MARK] != 0 || left->state[MARK] != 1 || memcmp(before, left->state, MARK) != 0 ||
        memcmp(before + MARK + 1, left->state + MARK + 1, UPLINK_STATE_LENGTH - MARK - 1) != 0)
        return "a park changes more than the mark, or not the mark";
    if (length > c->image_length || length > UPLINK_IMAGE_LENGTH || length < 5)
        return "no image has that length";
    if (image[0] != 1 || ((uint32_t)image[1] << 24 | (uint32_t)image[2] << 16 | (uint32_t)image[3] << 8 | image[4]) != length - 5)
        return "the image begins otherwise than with its version and length";
    if (memcmp(image + length, c->image + length, c->image_length - length) != 0)
        return "a byte behind the image is changed";
    return NULL;
}

/* What is wrong with a Fullest that was accepted, or NULL: at most five are listed, each with bytes and in turn, and zeros stand behind them. */
static const char *fullest_fault(const uint8_t *answer)
{
    uint32_t count = uplink_field(answer, 0), slot, bytes, slot_before = 0, bytes_before = UINT32_MAX;
    if (count > UPLINK_LISTED)
        return "more are listed than can be";
    for (uint32_t i = 0; i < UPLINK_LISTED; i++) {
        slot = uplink_field(answer, 1 + 2 * i), bytes = uplink_field(answer, 2 + 2 * i);
        if (i >= count) {
            if (slot != 0 || bytes != 0)
                return "a field behind the last listed is not 0";
            continue;
        }
        if (slot >= UPLINK_SLOTS || bytes == 0 || bytes > UPLINK_ROOM * UPLINK_LONGEST)
            return "a listed channel has no such slot or bytes";
        if (bytes > bytes_before || (bytes == bytes_before && slot <= slot_before))
            return "the list is out of turn";
        slot_before = slot, bytes_before = bytes;
    }
    return NULL;
}

/* What is wrong with a call, or NULL. */
static const char *fault(const struct call *c, const uint8_t *before, const struct left *left)
{
    int kept = memcmp(left->state, before, c->state_length) == 0, refused = left->number != UPLINK_ACCEPTED;
    int image_kept = c->image_length == 0 || memcmp(left->image, c->image, c->image_length) == 0;
    if (!can_give(c->kind, left->number))
        return "a number that this call never gives";
    if (c->answer_length != right[c->kind])
        return left->number != UPLINK_UNSOUND ? "an answer of wrong length is taken"
               : !kept || !image_kept || !all_are(PAINT, left->answer, c->answer_length) ? "an answer of wrong length, and a buffer is touched"
                                                                         : NULL;
    if (c->kind <= UNPARK && c->state_length != UPLINK_STATE_LENGTH && left->number != UPLINK_UNSOUND)
        return "a state of wrong length is taken";
    if (!kept && (refused || c->kind == ASK || c->kind == FULLEST || c->kind > UNPARK))
        return "the state is changed";
    if (!image_kept && (refused || c->kind != PARK))
        return "the image is changed";
    if (refused && !all_are(0, left->answer, c->answer_length))
        return "a refusal leaves a field that is not 0";
    if (c->kind == START)
        return start_fault(c, left);
    if (c->kind == FULLEST && !refused)
        return fullest_fault(left->answer);
    if (c->kind == PARK && !refused)
        return park_fault(c, before, left);
    if (c->kind == UNPARK && !refused && left->state[MARK] != 0)
        return "a state that was read is parked";
    if (left->number == UPLINK_PARKED && before[MARK] != 1)
        return "a state that is not parked is refused as parked";
    return NULL;
}

static void stop(const char *why, const struct call *c, uint32_t number, int place)
{
    const uint32_t *n = c->numbers;
    printf("%s: %s(%" PRIu32 ", %" PRIu32 ", %" PRIu32 ", %" PRIu32 ") on a state of %zu bytes, an image of %zu and an answer of %zu gave %" PRIu32
           " at place %d\n",
           why, names[c->kind], n[0], n[1], n[2], n[3], c->state_length, c->image_length, c->answer_length, number, place);
    exit(1);
}

/* A call at every place. */
static void everywhere(const struct call *c, const uint8_t *before, struct left *first)
{
    static struct left left;
    for (int place = 0; place < PLACES; place++) {
        made_at(place, c, before, &left);
        if (place == 0)
            *first = left;
        const char *why = fault(c, before, &left);
        if (!why && (left.number != first->number || memcmp(left.answer, first->answer, c->answer_length) != 0 ||
                     memcmp(left.state, first->state, c->state_length) != 0 || memcmp(left.image, first->image, c->image_length) != 0))
            why = "another outcome than at place 0";
        if (why)
            stop(why, c, left.number, place);
    }
}

/* ---- The script: the listing of document 01, a board pulled and pushed back, what records cost, and the edges of the numbers. */

struct step {
    enum kind kind;
    uint32_t numbers[4], number, fields[1 + 2 * UPLINK_LISTED];
};

/* The length of a record that costs half a grant. */
enum { HALF = UPLINK_GRANTED / 2 - UPLINK_FRAMING };

static const struct step script[] = {
    {START, {1}, 0, {0}},
    {OPEN, {1}, 0, {0, 1}},
    {OPEN, {2}, 0, {1, 1}},
    {PUT, {0, 1, 1014, 7}, 0, {0, 1}},
    {PUT, {1, 1, 600, 8}, 0, {0, 1}},
    {PUT, {1, 1, 500, 9}, 0, {1, 2}},
    {NEXT, {0}, 0, {1, 1, 600, 8, 0, 1, 1}},
    {ASK, {1, 1}, 0, {1, 2, UPLINK_GRANTED - 600 - UPLINK_FRAMING, 1, 500}},
    {FULLEST, {0}, 0, {2, 0, 1014, 1, 500}},
    {NEXT, {0}, 0, {0, 1, 1014, 7, 0, 1, 1}},
    {CLOSE, {0, 1}, 0, {1}},
    {NEXT, {0}, 0, {1, 1, 500, 9, 1, 1, 1}},
    {NEXT, {0}, UPLINK_NONE_WAITS, {0}},
    {FULLEST, {0}, 0, {0}},
    {CLOSE, {0, 1}, UPLINK_NOT_PRESENT, {0}},
    {OPEN, {3}, 0, {0, 2}},
    {START, {0}, UPLINK_BAD_EDITION, {0}},
    {START, {3}, UPLINK_BAD_EDITION, {0}},
    {START, {257}, UPLINK_BAD_EDITION, {0}},
    {START, {UINT32_MAX}, UPLINK_BAD_EDITION, {0}},
    {ASK, {0, 2}, 0, {1, 3, 0, 0, 0}},

    {START, {2}, 0, {0}},
    {OPEN, {3}, 0, {0, 1}},
    {PUT, {0, 1, 200, 1}, 0, {0, 1}},
    {PUT, {0, 1, 300, 0xfedcba98}, 0, {1, 2}},
    {CLOSE, {0, 1}, 0, {0}},
    {CLOSE, {0, 1}, UPLINK_AT_CLOSING, {0}},
    {PUT, {0, 1, 100, 3}, UPLINK_AT_CLOSING, {0}},
    {ASK, {0, 1}, 0, {2, 3, 0, 2, 500}},
    {FULLEST, {0}, 0, {1, 0, 500}},
    {NEXT, {0}, 0, {0, 1, 200, 1, 0, 1, 1}},
    {NEXT, {0}, 0, {0, 1, 300, 0xfedcba98, 1, 0, 0}},
    {OPEN, {3}, 0, {0, 2}},
    {PUT, {0, 2, 400, 3}, 0, {0, 1}},
    {CLOSE, {0, 1}, UPLINK_NOT_PRESENT, {0}},
    {ASK, {0, 2}, 0, {1, 3, 0, 1, 400}},
    {ASK, {0, 1}, UPLINK_NOT_PRESENT, {0}},
    {NEXT, {0}, 0, {0, 2, 400, 3, 0, 1, 1}},

    /* Two records that cost a grant are sent in one visit; with one byte more they are not. */
    {PUT, {0, 2, HALF, 4}, 0, {1, 1}},
    {PUT, {0, 2, HALF, 5}, 0, {2, 2}},
    {NEXT, {0}, 0, {0, 2, HALF, 4, 1, 1, 1}},
    {ASK, {0, 2}, 0, {1, 3, UPLINK_GRANTED / 2, 1, HALF}},
    {NEXT, {0}, 0, {0, 2, HALF, 5, 2, 0, 0}},
    {PUT, {0, 2, HALF, 6}, 0, {3, 1}},
    {PUT, {0, 2, HALF + 1, 7}, 0, {4, 2}},
    {NEXT, {0}, 0, {0, 2, HALF, 6, 3, 1, 1}},
    {NEXT, {0}, 0, {0, 2, HALF + 1, 7, 4, 1, 1}},

    {OPEN, {0}, UPLINK_BAD_WEIGHT, {0}},
    {OPEN, {UPLINK_HEAVIEST + 1}, UPLINK_BAD_WEIGHT, {0}},
    {OPEN, {UPLINK_HEAVIEST}, 0, {1, 1}},
    {PUT, {1, 1, 0, 7}, UPLINK_BAD_LENGTH, {0}},
    {PUT, {1, 1, UPLINK_LONGEST + 1, 7}, UPLINK_BAD_LENGTH, {0}},
    {PUT, {1, 1, UPLINK_LONGEST, 7}, 0, {0, 1}},
    {PUT, {UPLINK_SLOTS - 1, 1, 1, 7}, UPLINK_NOT_PRESENT, {0}},
    {PUT, {UPLINK_SLOTS, 1, 1, 7}, UPLINK_NO_SLOT, {0}},
    {CLOSE, {UPLINK_SLOTS, 1}, UPLINK_NO_SLOT, {0}},
    {ASK, {UPLINK_SLOTS, 1}, UPLINK_NO_SLOT, {0}},

    /* Who is filling up: six channels, two of them level, the last one left out until one of the five has sent what it had. */
    {START, {2}, 0, {0}},
    {OPEN, {1}, 0, {0, 1}},
    {OPEN, {1}, 0, {1, 1}},
    {OPEN, {1}, 0, {2, 1}},
    {OPEN, {1}, 0, {3, 1}},
    {OPEN, {1}, 0, {4, 1}},
    {OPEN, {1}, 0, {5, 1}},
    {OPEN, {1}, 0, {6, 1}},
    {FULLEST, {0}, 0, {0}},
    {PUT, {6, 1, 1000, 1}, 0, {0, 1}},
    {PUT, {5, 1, 300, 2}, 0, {0, 1}},
    {PUT, {3, 1, 100, 3}, 0, {0, 1}},
    {PUT, {3, 1, 200, 4}, 0, {1, 2}},
    {PUT, {4, 1, 299, 5}, 0, {0, 1}},
    {FULLEST, {0}, 0, {4, 6, 1000, 3, 300, 5, 300, 4, 299}},
    {PUT, {0, 1, 1, 6}, 0, {0, 1}},
    {PUT, {1, 1, 1, 7}, 0, {0, 1}},
    {FULLEST, {0}, 0, {5, 6, 1000, 3, 300, 5, 300, 4, 299, 0, 1}},
    {CLOSE, {6, 1}, 0, {0}},
    {FULLEST, {0}, 0, {5, 6, 1000, 3, 300, 5, 300, 4, 299, 0, 1}},
    {NEXT, {0}, 0, {6, 1, 1000, 1, 0, 1, 1}},
    {FULLEST, {0}, 0, {5, 3, 300, 5, 300, 4, 299, 0, 1, 1, 1}},
    {NEXT, {0}, 0, {5, 1, 300, 2, 0, 1, 0}},
    {FULLEST, {0}, 0, {4, 3, 300, 4, 299, 0, 1, 1, 1}},
    {PUT, {2, 1, UPLINK_LONGEST, 8}, 0, {0, 1}},
    {FULLEST, {0}, 0, {5, 2, UPLINK_LONGEST, 3, 300, 4, 299, 0, 1, 1, 1}},

    {TERM, {4, 8}, 0, {4}},
    {TERM, {UPLINK_COLUMNS, UPLINK_HEAVIEST}, 0, {1}},
    {TERM, {UPLINK_COLUMNS, 2048}, 0, {12}},
    {TERM, {UPLINK_COLUMNS + 1, 1}, UPLINK_NO_TERM, {0}},
    {TERM, {3, 8}, UPLINK_NO_TERM, {0}},
    {TERM, {3, 0}, UPLINK_NO_TERM, {0}},
    {TERM, {0, 1}, UPLINK_NO_TERM, {0}},
    {LEAD, {1, 5, 4095, 0}, 0, {UINT32_MAX - 20474, UINT32_MAX}},
    {LEAD, {1, 1, 1, 0}, 0, {UINT32_MAX, UINT32_MAX}},
    {LEAD, {3, 2, 2, 3}, 0, {5, 0}},
    {LEAD, {UPLINK_HEAVIEST, 0, 1, UINT32_MAX}, 0, {UINT32_MAX - 4094, 4094}},
    {LEAD, {0, 1, 1, 1}, UPLINK_BAD_WEIGHT, {0}},
    {LEAD, {1, 1, UPLINK_HEAVIEST + 1, 1}, UPLINK_BAD_WEIGHT, {0}},

    /* A heavy row leaves at position 1. Edition 1 falls to order 1: one term each. Edition 2 holds order 12: position 2,048 is 2,047 terms on, and from there
       the rest of the round is 2,047 terms and the next one's first is one more. */
    {START, {1}, 0, {0}},
    {OPEN, {UPLINK_HEAVIEST}, 0, {0, 1}},
    {OPEN, {1}, 0, {1, 1}},
    {PUT, {0, 1, 1014, 1}, 0, {0, 1}},
    {PUT, {1, 1, 1014, 2}, 0, {0, 1}},
    {PUT, {1, 1, 1014, 3}, 0, {1, 2}},
    {NEXT, {0}, 0, {0, 1, 1014, 1, 0, 1, 1}},
    {NEXT, {0}, 0, {1, 1, 1014, 2, 0, 1, 1}},
    {NEXT, {0}, 0, {1, 1, 1014, 3, 1, 1, 1}},
    {START, {2}, 0, {0}},
    {OPEN, {UPLINK_HEAVIEST}, 0, {0, 1}},
    {OPEN, {1}, 0, {1, 1}},
    {PUT, {0, 1, 1014, 1}, 0, {0, 1}},
    {PUT, {1, 1, 1014, 2}, 0, {0, 1}},
    {PUT, {1, 1, 1014, 3}, 0, {1, 2}},
    {PUT, {1, 1, 1014, 4}, 0, {2, 3}},
    {NEXT, {0}, 0, {0, 1, 1014, 1, 0, 1, 1}},
    {NEXT, {0}, 0, {1, 1, 1014, 2, 0, 1, 2047}},
    {NEXT, {0}, 0, {1, 1, 1014, 3, 1, 1, 2048}},
    {NEXT, {0}, 0, {1, 1, 1014, 4, 2, 1, 1}},
    {NEXT, {0}, UPLINK_NONE_WAITS, {0}},
};

/* Parked queues: a channel with one record, in an image of 20 bytes, a row, 64 entries of 12 and a record of 6. The number of park and unpark is the length of
   the buffer; what unpark is lent is the image written last, with the bytes behind it. */
enum { ONE = 20 + 1 + UPLINK_SLOTS * 12 + 6 };

static const struct step parked[] = {
    {START, {2}, 0, {0}},
    {OPEN, {5}, 0, {0, 1}},
    {PUT, {0, 1, 600, 8}, 0, {0, 1}},
    {PARK, {ONE - 1}, UPLINK_SHORT_BUFFER, {0}},
    {PARK, {0}, UPLINK_SHORT_BUFFER, {0}},
    {PARK, {ONE}, 0, {ONE}},
    {PARK, {ONE}, UPLINK_PARKED, {0}},
    {PARK, {0}, UPLINK_PARKED, {0}},
    {OPEN, {0}, UPLINK_PARKED, {0}},
    {PUT, {0, 1, 600, 9}, UPLINK_PARKED, {0}},
    {CLOSE, {0, 1}, UPLINK_PARKED, {0}},
    {NEXT, {0}, UPLINK_PARKED, {0}},
    {ASK, {UPLINK_SLOTS, 1}, UPLINK_PARKED, {0}},
    {FULLEST, {0}, UPLINK_PARKED, {0}},
    {TERM, {4, 8}, 0, {4}},
    {LEAD, {3, 2, 2, 3}, 0, {5, 0}},
    {UNPARK, {0}, UPLINK_BAD_IMAGE, {0}},
    {UNPARK, {ONE - 1}, UPLINK_BAD_IMAGE, {0}},
    {UNPARK, {ONE + 1}, UPLINK_BAD_IMAGE, {0}},
    {NEXT, {0}, UPLINK_PARKED, {0}},
    {UNPARK, {ONE}, 0, {0}},
    {FULLEST, {0}, 0, {1, 0, 600}},
    {PUT, {0, 1, 100, 9}, 0, {1, 2}},
    {FULLEST, {0}, 0, {1, 0, 700}},
    {NEXT, {0}, 0, {0, 1, 600, 8, 0, 1, 1}},
    /* Over a state that goes on: what it had is lost. */
    {UNPARK, {ONE}, 0, {0}},
    {NEXT, {0}, 0, {0, 1, 600, 8, 0, 1, 1}},
    {NEXT, {0}, UPLINK_NONE_WAITS, {0}},
    {PARK, {UPLINK_IMAGE_LENGTH}, 0, {ONE - 7}},
    {START, {3}, UPLINK_BAD_EDITION, {0}},
    {ASK, {0, 1}, UPLINK_PARKED, {0}},
    {START, {1}, 0, {0}},
    {ASK, {0, 1}, UPLINK_NOT_PRESENT, {0}},
};

static uint8_t kept[SPACE]; /* the state that the calls go on from */
static uint8_t written[SPACE], painted[SPACE]; /* the image that was written last, in its buffer, and what such a buffer holds before */
static size_t written_length;
static unsigned long steps;

static void known(struct step step)
{
    static struct left left;
    struct call c = {step.kind, {0}, UPLINK_STATE_LENGTH, right[step.kind], 0, NULL};
    if (step.kind == PARK || step.kind == UNPARK)
        c.image_length = step.numbers[0], c.image = step.kind == PARK ? painted : written;
    memcpy(c.numbers, step.numbers, sizeof c.numbers);
    everywhere(&c, kept, &left);
    if (left.number != step.number)
        stop("another number than the script's", &c, left.number, 0);
    for (size_t i = 0; i < c.answer_length / 4; i++)
        if (uplink_field(left.answer, i) != step.fields[i])
            stop("another field than the script's", &c, left.number, 0);
    memcpy(kept, left.state, UPLINK_STATE_LENGTH);
    if (step.kind == PARK && left.number == UPLINK_ACCEPTED)
        memcpy(written, left.image, c.image_length), written_length = uplink_field(left.answer, 0);
    steps++;
}

/* So many records, a visit each, for a channel that has had none. */
static void given(uint32_t slot, uint32_t records)
{
    for (uint32_t serial = 0; serial < records; serial++)
        known((struct step){PUT, {slot, 1, UPLINK_LONGEST, serial}, 0, {serial, serial + 1}});
}

/* Every cell is taken: full channels and one that has what is left share the cells, and every other slot has those kept for it and takes no more. A send of a
   full channel frees one for another, which takes a third record. */
static void run_full(uint32_t edition)
{
    enum { BEYOND = UPLINK_ROOM - UPLINK_KEPT, FULL = UPLINK_SHARED / BEYOND, REST = UPLINK_SHARED % BEYOND + UPLINK_KEPT, MOST = UPLINK_ROOM * UPLINK_LONGEST };
    known((struct step){START, {edition}, 0, {0}});
    for (uint32_t slot = 0; slot < UPLINK_SLOTS; slot++) {
        known((struct step){OPEN, {1}, 0, {slot, 1}});
        given(slot, slot < FULL ? UPLINK_ROOM : slot == FULL ? REST : UPLINK_KEPT);
    }
    for (uint32_t slot = 0; slot < UPLINK_SLOTS; slot++)
        known((struct step){PUT, {slot, 1, 1, 7}, slot < FULL ? UPLINK_FULL : UPLINK_NO_SHARED, {0}});
    known((struct step){PUT, {FULL, 1, UPLINK_LONGEST + 1, 7}, UPLINK_BAD_LENGTH, {0}});
    known((struct step){NEXT, {0}, 0, {0, 1, UPLINK_LONGEST, 0, 0, 1, 1}});
    known((struct step){PUT, {UPLINK_SLOTS - 1, 1, 1, 7}, 0, {UPLINK_KEPT, UPLINK_KEPT + 1}});
    known((struct step){PUT, {0, 1, 1, 7}, UPLINK_NO_SHARED, {0}});
    /* Every cell is taken again: the image is as long as any, and the memory that it is read into is lost before. */
    known((struct step){PARK, {UPLINK_IMAGE_LENGTH - 1}, UPLINK_SHORT_BUFFER, {0}});
    known((struct step){PARK, {UPLINK_IMAGE_LENGTH}, 0, {UPLINK_IMAGE_LENGTH}});
    memset(kept, PAINT, UPLINK_STATE_LENGTH);
    known((struct step){UNPARK, {UPLINK_IMAGE_LENGTH - 1}, UPLINK_BAD_IMAGE, {0}});
    known((struct step){UNPARK, {UPLINK_IMAGE_LENGTH}, 0, {0}});
    known((struct step){FULLEST, {0}, 0, {5, 1, MOST, 2, MOST, 3, MOST, 4, MOST, 5, MOST}});
    known((struct step){ASK, {1, 1}, 0, {1, 1, 0, UPLINK_ROOM, MOST}});
    known((struct step){PUT, {0, 1, 1, 7}, UPLINK_NO_SHARED, {0}});
}

static void run_script(void)
{
    memset(kept, 0, sizeof kept);
    known((struct step){NEXT, {0}, UPLINK_UNSOUND, {0}});
    memset(kept, PAINT, sizeof kept);
    known((struct step){NEXT, {0}, UPLINK_UNSOUND, {0}});
    known((struct step){START, {0}, UPLINK_BAD_EDITION, {0}});
    for (size_t i = 0; i < sizeof script / sizeof *script; i++)
        known(script[i]);
    for (size_t i = 0; i < sizeof parked / sizeof *parked; i++)
        known(parked[i]);
    known((struct step){START, {2}, 0, {0}});
    for (uint32_t slot = 0; slot < UPLINK_SLOTS; slot++)
        known((struct step){OPEN, {1}, 0, {slot, 1}});
    known((struct step){OPEN, {1}, UPLINK_NONE_FREE, {0}});
    for (uint32_t serial = 0; serial < UPLINK_ROOM; serial++)
        known((struct step){PUT, {63, 1, 1, serial}, 0, {serial, serial + 1}});
    known((struct step){PUT, {63, 1, 1, 0}, UPLINK_FULL, {0}});
    known((struct step){NEXT, {0}, 0, {63, 1, 1, 0, 0, 1, 1}});
}

/* ---- Calls at random. */

static uint64_t seed;

static uint32_t below(uint32_t end)
{
    seed ^= seed << 13, seed ^= seed >> 7, seed ^= seed << 17;
    return (uint32_t)(seed >> 32) % end;
}

/* Mostly 1 or 2. */
static uint32_t any_edition(void)
{
    static const uint32_t others[] = {0, 3, 257, 0x10002, UINT32_MAX};
    return below(8) ? 1 + below(2) : others[below(5)];
}

/* The call becomes a park, or an unpark of the image written last: in a buffer that is mostly just long enough or as long as any, and mostly whole. */
static void to_parking(struct call *c)
{
    static uint8_t image[SPACE];
    c->kind = kept[MARK] == 1 || below(2) ? UNPARK : PARK;
    c->image_length = c->kind == PARK ? UPLINK_IMAGE_LENGTH : written_length;
    c->image = painted;
    if (below(4) == 0)
        c->image_length = below(4) ? written_length - 1 + 2 * below(2) : below(SPACE);
    if (c->kind == PARK)
        return;
    memcpy(image, written, sizeof image);
    if (below(4) == 0)
        image[below(2) ? below(written_length) : below(32)] ^= (uint8_t)(1 << below(8));
    c->image = image;
}

/* Most calls can be accepted; one in sixteen has another length of state or answer, one in 2,000 is Start. */
static struct call any_call(void)
{
    static const enum kind kinds[17] = {OPEN, OPEN, PUT, PUT, PUT, PUT, PUT, PUT, CLOSE, NEXT, NEXT, NEXT, NEXT, ASK, FULLEST, LEAD, TERM};
    struct call c = {below(2000) == 0 ? START : kinds[below(17)], {0}, UPLINK_STATE_LENGTH, 0, 0, NULL};
    if (below(kept[MARK] == 1 ? 4 : 100) == 0)
        to_parking(&c);
    c.answer_length = right[c.kind];
    c.numbers[0] = c.kind == START ? any_edition() : c.kind == OPEN || c.kind == LEAD ? below(4097) : c.kind == TERM ? below(14) : below(65);
    c.numbers[1] = c.kind == TERM ? below(4097) : 1 + below(below(8) ? 2 : 6);
    c.numbers[2] = c.kind == LEAD ? below(4097) : below(8) ? 1 + below(UPLINK_LONGEST) : below(UPLINK_LONGEST + 2);
    c.numbers[3] = below(UINT32_MAX);
    if (c.kind != START && c.kind != UNPARK && below(32) == 0)
        c.answer_length = below(WIDEST);
    if (below(32) == 0)
        c.state_length = below(4) ? UPLINK_STATE_LENGTH - 1 + 2 * below(2) : below(SPACE);
    return c;
}

/* Of each kind at least one call in so many of all must be accepted; with the library it is twice as many. */
static const unsigned long one_in[KINDS] = {6000, 75, 20, 120, 20, 120, 40, 600, 320, 40, 250};

/* They begin in an edition with every cell taken, and go on from there again after one Start in three, so that some meet no shared cell; a Start among them may
   take the other edition. */
static void run_at_random(unsigned long calls, uint32_t edition)
{
    static struct left left;
    static uint8_t before[SPACE], full[UPLINK_STATE_LENGTH];
    unsigned long accepted[KINDS] = {0}, none_shared = 0;
    run_full(edition);
    memcpy(full, kept, sizeof full);
    for (unsigned long i = 0; i < calls; i++) {
        struct call c = any_call();
        memcpy(before, kept, sizeof kept);
        /* One call in 64 meets a changed byte. */
        if (below(64) == 0)
            before[below(4) ? below(HEADS) : below(2) ? below(UPLINK_STATE_LENGTH) : UPLINK_STATE_LENGTH - 1 - below(NOTES)] ^= (uint8_t)(1 << below(8));
        everywhere(&c, before, &left);
        none_shared += left.number == UPLINK_NO_SHARED;
        if (left.number == UPLINK_ACCEPTED) {
            accepted[c.kind]++;
            if (c.kind == PARK)
                memcpy(written, left.image, c.image_length), written_length = uplink_field(left.answer, 0);
            if (c.kind <= UNPARK)
                memcpy(kept, c.kind == START && below(3) == 0 ? full : left.state, UPLINK_STATE_LENGTH);
        }
    }
    for (int kind = 0; kind < KINDS; kind++)
        if (accepted[kind] < calls / one_in[kind]) {
            printf("%lu accepted calls of %s are too few\n", accepted[kind], names[kind]);
            exit(1);
        }
    if (none_shared == 0) {
        printf("no call met the limit of the shared cells\n");
        exit(1);
    }
}

/* ---- Round sheets: two lists of just their length, each beside nobody's byte, and an answer. */

enum { NUMBERS = SPACE / 4 };

struct sheet {
    uint32_t weights[NUMBERS], rows[NUMBERS];
    size_t weights_length, rows_length, answer_length;
};

/* What is wrong with what a sheet's check left, or NULL. */
static const char *sheet_fault(const struct sheet *s, uint32_t number, const uint32_t *weights, const uint32_t *rows, const uint8_t *answer)
{
    if (memcmp(weights, s->weights, 4 * s->weights_length) != 0 || memcmp(rows, s->rows, 4 * s->rows_length) != 0)
        return "a list is changed";
    if (s->answer_length != UPLINK_SHEET_LENGTH)
        return number != UPLINK_UNSOUND ? "an answer of wrong length is taken"
               : !all_are(PAINT, answer, s->answer_length) ? "an answer of wrong length is touched"
                                                           : NULL;
    if (number != UPLINK_ACCEPTED && number != UPLINK_TOO_MANY && number != UPLINK_BAD_WEIGHT)
        return "a number that this call never gives";
    if (number != UPLINK_ACCEPTED && !all_are(0, answer, s->answer_length))
        return "a refusal leaves a field that is not 0";
    if (number == UPLINK_ACCEPTED && (uplink_field(answer, 0) > 1 || (uplink_field(answer, 0) == 1 && uplink_field(answer, 1) != 0) ||
                                      uplink_field(answer, 1) > s->rows_length))
        return "no answer has those fields";
    return NULL;
}

/* The check at every place. It has to give this number and, with an answer of the right length, these fields. */
static void checked(const struct sheet *s, uint32_t number, uint32_t accepted, uint32_t wrong)
{
    for (int place = 0; place < PLACES; place++) {
        uint32_t *weights = (uint32_t *)(void *)lent(0, place, 4 * s->weights_length), *rows = (uint32_t *)(void *)lent(2, place, 4 * s->rows_length);
        uint8_t *answer = lent(1, place, s->answer_length);
        memcpy(weights, s->weights, 4 * s->weights_length);
        memcpy(rows, s->rows, 4 * s->rows_length);
        memset(answer, PAINT, s->answer_length);
        uint32_t given_number = uplink_sheet(weights, s->weights_length, rows, s->rows_length, answer, s->answer_length);
        const char *why = sheet_fault(s, given_number, weights, rows, answer);
        if (!why && given_number != number)
            why = "another number than the sheet's";
        if (!why && s->answer_length == UPLINK_SHEET_LENGTH && (uplink_field(answer, 0) != accepted || uplink_field(answer, 1) != wrong))
            why = "another answer than the sheet's";
        if (why) {
            printf("%s: a sheet of %zu weights and %zu rows, the first %" PRIu32 " and %" PRIu32 ", with an answer of %zu, gave %" PRIu32 " at place %d\n", why,
                   s->weights_length, s->rows_length, s->weights_length ? s->weights[0] : 0, s->rows_length ? s->rows[0] : 0, s->answer_length,
                   given_number, place);
            exit(1);
        }
        given_back((uint8_t *)weights, place);
        given_back(answer, place);
        given_back((uint8_t *)rows, place);
    }
    steps++;
}

/* Appends the visits of S(term) where the whole sequence is S(order): half, the rows of the term's column, half. */
static void append_visits(struct sheet *s, uint32_t term, uint32_t order)
{
    if (term == 0)
        return;
    append_visits(s, term - 1, order);
    for (uint32_t row = 0; row < s->weights_length; row++)
        if (s->weights[row] >> (order - term) & 1)
            s->rows[s->rows_length++] = row;
    append_visits(s, term - 1, order);
}

/* The true sheet of the weights that it has. */
static void to_round(struct sheet *s)
{
    uint32_t order = 0;
    for (size_t row = 0; row < s->weights_length; row++)
        while (s->weights[row] >> order != 0)
            order++;
    s->rows_length = 0, s->answer_length = UPLINK_SHEET_LENGTH;
    append_visits(s, order, order);
}

/* A true sheet, each beginning of it, each place with a number that is no row's, and one number too many. */
static void run_sheet(struct sheet *s)
{
    to_round(s);
    size_t whole = s->rows_length;
    checked(s, UPLINK_ACCEPTED, 1, 0);
    for (size_t place = 0; place < whole; place++) {
        s->rows_length = place;
        checked(s, UPLINK_ACCEPTED, 0, (uint32_t)place);
        s->rows_length = whole, s->rows[place] ^= 0x100;
        checked(s, UPLINK_ACCEPTED, 0, (uint32_t)place);
        s->rows[place] ^= 0x100;
    }
    s->rows[s->rows_length++] = 0;
    checked(s, UPLINK_ACCEPTED, 0, (uint32_t)whole);
    s->rows_length--;
    for (size_t length = 0; length <= WIDEST; length++)
        if (length != UPLINK_SHEET_LENGTH)
            s->answer_length = length, checked(s, UPLINK_UNSOUND, 0, 0);
    s->answer_length = UPLINK_SHEET_LENGTH;
}

/* Where a list is not the round of its weights first; NUMBERS where it is that round. */
static size_t first_wrong(const struct sheet *s)
{
    static struct sheet right_one;
    size_t place = 0;
    right_one = *s;
    to_round(&right_one);
    while (place < s->rows_length && place < right_one.rows_length && s->rows[place] == right_one.rows[place])
        place++;
    return place < s->rows_length || place < right_one.rows_length ? place : NUMBERS;
}

static struct sheet *any_weights(struct sheet *s)
{
    uint32_t most = 1 + below(12);
    s->weights_length = below(8) ? below(8) : UPLINK_ROWS_MOST - below(2);
    for (size_t row = 0; row < s->weights_length; row++)
        s->weights[row] = 1 + below(most);
    return s;
}

/* A true sheet, or one that is cut, has a number more or another one; of some, a weight is out of range. */
static void run_any_sheet(struct sheet *s)
{
    to_round(s);
    size_t place = below((uint32_t)s->rows_length + 1), row = below((uint32_t)s->weights_length + 1);
    switch (below(4)) {
    case 0: s->rows_length = place; break;
    case 1: s->rows[s->rows_length++] = below(65); break;
    case 2: s->rows[place] = below(2) ? below(65) : UINT32_MAX - below(65), s->rows_length += place == s->rows_length; break;
    default: break;
    }
    if (below(4) == 0 && row < s->weights_length) {
        s->weights[row] = below(2) ? 0 : UPLINK_HEAVIEST_ON_SHEET + 1 + below(UINT32_MAX - UPLINK_HEAVIEST_ON_SHEET);
        checked(s, UPLINK_BAD_WEIGHT, 0, 0);
        return;
    }
    place = first_wrong(s);
    checked(s, UPLINK_ACCEPTED, place == NUMBERS, place == NUMBERS ? 0 : (uint32_t)place);
}

static void run_sheets(unsigned long times)
{
    /* Document 01's check 5. */
    static struct sheet s = {{1, 4, 8, 3}, {2, 1, 2, 3, 2, 1, 2, 0, 3, 2, 1, 2, 3, 2, 1, 2}, 4, 16, UPLINK_SHEET_LENGTH};
    checked(&s, UPLINK_ACCEPTED, 1, 0);
    run_sheet(&s);
    s.weights_length = 0;
    run_sheet(&s);
    s.weights[0] = 2047, s.weights_length = 1;
    to_round(&s), checked(&s, UPLINK_ACCEPTED, 1, 0);
    s.weights[0] = UPLINK_HEAVIEST_ON_SHEET;
    checked(&s, UPLINK_ACCEPTED, 0, 2047);
    s.weights[0] = UPLINK_HEAVIEST_ON_SHEET + 1;
    checked(&s, UPLINK_BAD_WEIGHT, 0, 0);
    for (size_t row = 0; row < NUMBERS; row++)
        s.weights[row] = 1;
    s.weights_length = UPLINK_ROWS_MOST;
    run_sheet(&s);
    s.weights_length++;
    checked(&s, UPLINK_TOO_MANY, 0, 0);
    s.weights[0] = 0;
    checked(&s, UPLINK_TOO_MANY, 0, 0);
    s.weights_length = NUMBERS;
    checked(&s, UPLINK_TOO_MANY, 0, 0);
    for (unsigned long i = 0; i < times; i++)
        i % 64 == 0 ? run_sheet(any_weights(&s)) : run_any_sheet(any_weights(&s));
}

int main(int count, char **words)
{
    unsigned long calls = count > 1 ? strtoul(words[1], NULL, 10) : 1000000;
    seed = (count > 2 ? strtoul(words[2], NULL, 10) : 1) * 0x9e3779b97f4a7c15u + 1;
    for (int place = 0; place < 2; place++)
        for (int which = 0; which < 3; which++)
            rooms[place][which] = forbidden();
    memset(painted, PAINT, sizeof painted);
    run_script();
    run_at_random(calls / 2, 1);
    run_at_random(calls - calls / 2, 2);
    run_sheets(calls / 50);
    printf("%lu known answers and %lu calls at random, each at %d places: no fault\n", steps, calls, PLACES);
    return 0;
}
