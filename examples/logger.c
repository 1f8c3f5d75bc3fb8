/* A logger's loop: a pattern is opened once in a static array, ticks come from an interrupt's queue, windows are printed. */
#include <inttypes.h>
#include <stdio.h>
#include <string.h>

#include "mws.h"

enum { STEP = 1u << 18, SETTLED = 1u << 15, YAW = 1u << 24 }; /* the letters S, P, Y */

static uint64_t state[64];

/* stands in for the queue that the interrupt fills */
static const struct { uint64_t tick; uint32_t events; } queue[] = {
    {10, STEP}, {120, SETTLED}, {300, STEP}, {340, YAW}, {420, SETTLED}, {500, STEP}, {510, STEP | YAW}, {640, SETTLED}, {1300, SETTLED},
};

int main(void) {
    const char *pattern = "(((S;P)@600)-Y)";
    uint8_t body[315];
    uint64_t bytes, words, answer, status;
    struct mws_tally tally = {0, 0};

    status = mws_text_read((const uint8_t *)pattern, strlen(pattern), body, sizeof body, &bytes);
    if (status) {
        printf("pattern refused: number %u at byte %" PRIu32 "\n", MWS_NUMBER(status), MWS_PLACE(status));
        return 1;
    }
    mws_watch_room(body, bytes, &words);
    printf("room: %" PRIu64 " words\n", words);
    if (mws_watch_open(body, bytes, state, sizeof state / sizeof *state)) return 1;

    for (size_t i = 0; i < sizeof queue / sizeof *queue; i++) {
        status = mws_watch_tick(state, sizeof state / sizeof *state, queue[i].tick, queue[i].events, &answer);
        if (status) {
            printf("tick refused: number %u\n", MWS_NUMBER(status));
            return 1;
        }
        if (answer) {
            printf("window %" PRIu64 " to %" PRIu64 "\n", answer - 1, queue[i].tick);
            mws_tally_add(&tally, answer - 1, queue[i].tick);
        }
    }
    printf("windows %" PRIu64 " ticks %" PRIu64 "\n", tally.windows, tally.ticks);
    return 0;
}
