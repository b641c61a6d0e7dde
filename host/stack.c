/*
 * How much stack each C entry takes: a call is made on a painted stack, and the paint that is left is counted. Prints one line an entry, in bytes, and ends with
 * 1 where an entry takes more than its header says is enough. host/README.md has the command, which binds memcpy and memset before the first call: looking them up
 * takes stack of its own. docs/ANSWERS.md has what it said once.
 */
#define _GNU_SOURCE
#include <stdio.h>
#include <string.h>
#include <ucontext.h>

#include "plain.h"

enum { ROOM = 1 << 16, PAINT = 0xA5, ENOUGH = 2048, UNPARK_ENOUGH = 10240, PLAIN_ENOUGH = 8192 };
enum kind { NONE, START, OPEN, PUT, CLOSE, NEXT, ASK, FULLEST, LEAD, TERM, SHEET, PARK, UNPARK, PLAIN_PUT, PLAIN_NEXT, KINDS };

static const char *const names[KINDS] = {"", "start", "open", "put", "close", "next", "ask", "fullest", "lead", "term", "sheet",
                                        "park", "unpark", "plain_put", "plain_next"};
static unsigned char stack[ROOM];
static uint8_t state[UPLINK_STATE_LENGTH], image[UPLINK_IMAGE_LENGTH], answer[64];
static uint32_t image_length;
/* Rows of weight 4,095 to 4,032 and a list that is right up to its end, in the round's first column. */
static uint32_t weights[UPLINK_ROWS_MOST], rows[UPLINK_ROWS_MOST];
static uint32_t slot, ticket, edition;
static enum kind asked;
static ucontext_t here, there;

static void call(void)
{
    switch (asked) {
    case START: uplink_start(state, sizeof state, edition); break;
    case OPEN: uplink_open(state, sizeof state, 5, answer, UPLINK_OPEN_LENGTH); break;
    case PUT: uplink_put(state, sizeof state, slot, ticket, 100, 7, answer, UPLINK_PUT_LENGTH); break;
    case CLOSE: uplink_close(state, sizeof state, slot, ticket, answer, UPLINK_CLOSE_LENGTH); break;
    case NEXT: uplink_next(state, sizeof state, answer, UPLINK_NEXT_LENGTH); break;
    case ASK: uplink_ask(state, sizeof state, slot, ticket, answer, UPLINK_ASK_LENGTH); break;
    case FULLEST: uplink_fullest(state, sizeof state, answer, UPLINK_FULLEST_LENGTH); break;
    case LEAD: uplink_lead(1, 2, 3, 4, answer, UPLINK_LEAD_LENGTH); break;
    case TERM: uplink_term(4, 8, answer, UPLINK_TERM_LENGTH); break;
    case SHEET: uplink_sheet(weights, UPLINK_ROWS_MOST, rows, sizeof rows / sizeof *rows, answer, UPLINK_SHEET_LENGTH); break;
    case PARK:
        uplink_park(state, sizeof state, image, sizeof image, answer, UPLINK_PARK_LENGTH);
        image_length = uplink_field(answer, 0);
        break;
    case UNPARK: uplink_unpark(state, sizeof state, image, image_length); break;
    case PLAIN_PUT: plain_put(state, sizeof state, slot, ticket, 100, 7, answer, UPLINK_PUT_LENGTH); break;
    case PLAIN_NEXT: plain_next(state, sizeof state, answer, UPLINK_NEXT_LENGTH); break;
    default: break;
    }
}

/* Bytes of the painted stack that a call touched. */
static long touched(enum kind kind)
{
    long left = 0;
    asked = kind;
    memset(stack, PAINT, ROOM);
    getcontext(&there);
    there.uc_stack.ss_sp = stack;
    there.uc_stack.ss_size = ROOM;
    there.uc_link = &here;
    makecontext(&there, call, 0);
    swapcontext(&here, &there);
    while (left < ROOM && stack[left] == PAINT)
        left++;
    return ROOM - left;
}

/* A channel of a weight with so many records; the calls go to it from now on. */
static void filled(uint32_t weight, uint32_t records)
{
    uplink_open(state, sizeof state, weight, answer, UPLINK_OPEN_LENGTH);
    slot = uplink_field(answer, 0), ticket = uplink_field(answer, 1);
    for (uint32_t record = 0; record < records; record++)
        uplink_put(state, sizeof state, slot, ticket, 1000, record, answer, UPLINK_PUT_LENGTH);
}

/* The same call of support's engine, where it has it. */
static enum kind by_matrix(enum kind kind)
{
    return kind == PUT ? PLAIN_PUT : kind == NEXT ? PLAIN_NEXT : kind;
}

int main(void)
{
    /* The first Put joins the rows. */
    const enum kind calls[] = {OPEN, ASK, PUT, PUT, FULLEST, PARK, UNPARK, NEXT, NEXT, NEXT, NEXT, NEXT, NEXT, NEXT, NEXT, CLOSE, LEAD, TERM, SHEET, START};
    long none = touched(NONE), most[KINDS] = {0};
    int wrong = 0;
    for (uint32_t row = 0; row < UPLINK_ROWS_MOST; row++)
        weights[row] = UPLINK_HEAVIEST_ON_SHEET - row, rows[row] = row;
    /* In edition 2 twice: the second time a heavy row leaves with the first Next, and the others go through a round's end. All again with support's engine. */
    for (int run = 0; run < 6; run++) {
        edition = run % 3 == 0 ? 1 : 2;
        uplink_start(state, sizeof state, edition);
        if (run % 3 == 2)
            filled(UPLINK_HEAVIEST, 1), filled(1, 12);
        for (uint32_t channel = 0; channel < 40 && run % 3 < 2; channel++)
            filled(1 + channel * 61 % 4095, 8);
        filled(5, 0);
        for (size_t i = 0; i < sizeof calls / sizeof *calls; i++) {
            enum kind kind = run < 3 ? calls[i] : by_matrix(calls[i]);
            long bytes = touched(kind) - none;
            if (bytes > most[kind])
                most[kind] = bytes;
        }
    }
    for (int kind = START; kind < KINDS; kind++) {
        printf("%s %ld\n", names[kind], most[kind]);
        wrong |= most[kind] > (kind < UNPARK ? ENOUGH : kind == UNPARK ? UNPARK_ENOUGH : PLAIN_ENOUGH);
    }
    return wrong;
}
