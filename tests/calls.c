/* Every call of mws.h: accepted, refused, and with empty slices as null pointers; with what docs/RULES.md says of each.
 * Prints how many facts hold, and each one that does not. */
#include <stdio.h>
#include <string.h>

#include "mws.h"

enum { S = 1u << 18, P = 1u << 15, Y = 1u << 24 };

static unsigned held, failed;

static void holds(int fact, const char *what) {
    if (fact) {
        held++;
    } else {
        failed++;
        printf("does not hold: %s\n", what);
    }
}

#define HOLDS(fact) holds(fact, #fact)

/* Whether a status has this number and place. */
static int is(uint64_t status, unsigned number, uint32_t place) {
    return MWS_NUMBER(status) == number && MWS_PLACE(status) == place;
}

static const uint8_t *bytes(const char *text) {
    return (const uint8_t *)text;
}

/* (((S;P)@600)-Y) by hand: S, P, ;, @600, Y, - */
static const uint8_t steps[30] = {0, 18, 0, 0, 0, 0, 15, 0, 0, 0, 4, 0, 0, 0, 0, 5, 88, 2, 0, 0, 0, 24, 0, 0, 0, 3, 0, 0, 0, 0};
/* the letter S */
static const uint8_t step[5] = {0, 18, 0, 0, 0};

static void text_and_body(void) {
    const char *text = "(((S;P)@600)-Y)";
    uint8_t body[315], back[807];
    uint64_t n = 77;
    HOLDS(mws_text_read(bytes(text), strlen(text), body, sizeof body, &n) == 0 && n == 30 && memcmp(body, steps, 30) == 0);
    HOLDS(mws_text_print(steps, 30, back, sizeof back, &n) == 0 && n == 15 && memcmp(back, text, 15) == 0);
    HOLDS(mws_body_check(steps, 30) == 0);
    HOLDS(MWS_NUMBER(mws_body_check(steps, 29)) == MWS_SIZE);
    uint64_t status = mws_body_check(steps, 25);
    HOLDS(MWS_NUMBER(status) == MWS_BODY && MWS_PLACE(status) == 0 && MWS_ENTRY(status) == 5);
    n = 77;
    status = mws_text_read(bytes("(S;P"), 4, body, sizeof body, &n);
    HOLDS(MWS_NUMBER(status) == MWS_SYNTAX && MWS_PLACE(status) == 4 && n == 77 && memcmp(body, steps, 30) == 0);
    status = mws_text_print(steps, 30, back, 14, &n);
    HOLDS(MWS_NUMBER(status) == MWS_ROOM && MWS_PLACE(status) == 15 && n == 77);
}

static const char names[] = "SETTLED STEP    ";
static const uint8_t counts[2] = {6, 1};
static uint8_t file[64];

static void files(void) {
    uint8_t bodies[35];
    uint64_t n = 77, from = 77, length = 77;
    memcpy(bodies, steps, 30);
    memcpy(bodies + 30, step, 5);
    HOLDS(mws_file_write(bytes(names), 16, counts, 2, bodies, 35, file, sizeof file, &n) == 0 && n == 60);
    HOLDS(file[0] == 2 && file[9] == 25 && file[10] == 0 && file[11] == 6 && file[12] == 0 && file[21] == 55 && file[23] == 1);
    HOLDS(mws_file_check(file, 60) == 0);
    HOLDS(MWS_NUMBER(mws_file_check(file, 59)) == MWS_SIZE);
    HOLDS(MWS_NUMBER(mws_file_check(file, 0)) == MWS_COUNT);
    uint64_t status = mws_file_lookup(file, 60, file, 60, bytes("STEP    "), 8, &from, &length);
    HOLDS(MWS_NUMBER(status) == 0 && MWS_FILE(status) == 0 && from == 55 && length == 5);
    status = mws_file_lookup(file, 60, file, 60, bytes("YAW     "), 8, &from, &length);
    HOLDS(MWS_NUMBER(status) == MWS_ABSENT && from == 55 && length == 5);
    status = mws_file_write(bytes(names), 16, counts, 2, bodies, 35, file, 59, &n);
    HOLDS(MWS_NUMBER(status) == MWS_ROOM && MWS_PLACE(status) == 60);
}

static void plain(void) {
    static uint64_t rows[64 * 6];
    const uint32_t events[4] = {S, S, P, Y | P};
    HOLDS(mws_plain(steps, 30, events, 4, rows, 64 * 6) == 0);
    HOLDS(rows[64 * 5 + 2] == 3 && rows[64 * 5 + 3] == 0 && rows[64 * 3 + 3] == 3);
    HOLDS(mws_row_latest(3) == 2 && mws_row_latest(0) == 0 && mws_row_latest(~(uint64_t)0) == 64);
    HOLDS(mws_row_count(3) == 2 && mws_row_count(0) == 0 && mws_row_count(~(uint64_t)0) == 64);
    uint64_t status = mws_plain(steps, 30, events, 4, rows, 64 * 6 - 1);
    HOLDS(MWS_NUMBER(status) == MWS_ROOM && MWS_PLACE(status) == 64 * 6 && rows[64 * 5 + 2] == 3);
}

static void watching(void) {
    uint64_t state[12] = {0}, words = 77, answer = 77, answers[3] = {7, 7, 7};
    const uint64_t ticks[2] = {900, 1500};
    const uint32_t events[2] = {S, P};
    HOLDS(mws_watch_room(steps, 30, &words) == 0 && words == 11);
    HOLDS(MWS_NUMBER(mws_watch_open(steps, 30, state, 10)) == MWS_ROOM && MWS_PLACE(mws_watch_open(steps, 30, state, 10)) == 11);
    HOLDS(MWS_NUMBER(mws_watch_tick(state, 12, 0, S, &answer)) == MWS_STATE && answer == 77);
    HOLDS(mws_watch_open(steps, 30, state, 12) == 0);
    HOLDS(mws_watch_tick(state, 12, 0, S, &answer) == 0 && answer == 0);
    HOLDS(mws_watch_tick(state, 12, 600, P, &answer) == 0 && answer == 1);
    HOLDS(MWS_NUMBER(mws_watch_tick(state, 12, 600, P, &answer)) == MWS_LATE && answer == 1);
    HOLDS(MWS_NUMBER(mws_watch_tick(state, 12, 4294967296u, P, &answer)) == MWS_RANGE);
    HOLDS(mws_watch_feed(state, 12, ticks, 2, events, 2, answers, 3) == 0 && answers[0] == 0 && answers[1] == 901 && answers[2] == 7);
    HOLDS(MWS_NUMBER(mws_watch_feed(state, 12, ticks, 2, events, 1, answers, 3)) == MWS_RECORD);
    HOLDS(MWS_NUMBER(mws_watch_feed(state, 12, ticks, 2, events, 2, answers, 3)) == MWS_LATE && answers[1] == 901);
}

/* Of the ticks fed after 1500, the first one that is faulty decides. */
static void faulty_feeds(void) {
    uint64_t state[11] = {0}, before[11], answers[3] = {7, 7, 7};
    const uint32_t events[3] = {S, P, P};
    const uint64_t first_late[3] = {1500, 4294967296u, 1501}, last_late[3] = {1501, 1502, 1502};
    const uint64_t first_over[3] = {4294967296u, 0, 1}, last_over[3] = {1501, 1502, 4294967296u};
    HOLDS(mws_watch_open(steps, 30, state, 11) == 0 && mws_watch_tick(state, 11, 1500, S, answers) == 0);
    answers[0] = 7;
    memcpy(before, state, sizeof state);
    HOLDS(is(mws_watch_feed(state, 11, first_late, 3, events, 3, answers, 3), MWS_LATE, 0));
    HOLDS(is(mws_watch_feed(state, 11, last_late, 3, events, 3, answers, 3), MWS_LATE, 2));
    HOLDS(is(mws_watch_feed(state, 11, first_over, 3, events, 3, answers, 3), MWS_RANGE, 0));
    HOLDS(is(mws_watch_feed(state, 11, last_over, 3, events, 3, answers, 3), MWS_RANGE, 2));
    HOLDS(is(mws_watch_feed(state, 11, last_over, 3, events, 2, answers, 2), MWS_RECORD, 0));
    HOLDS(is(mws_watch_feed(state, 11, last_over, 3, events, 3, answers, 2), MWS_ROOM, 3));
    HOLDS(memcmp(before, state, sizeof state) == 0 && answers[0] == 7 && answers[1] == 7 && answers[2] == 7);
}

static void sets(void) {
    uint64_t states[14], words = 77, answers[3] = {7, 7, 7};
    HOLDS(mws_set_room(file, 60, &words) == 0 && words == 14);
    HOLDS(MWS_NUMBER(mws_set_open(file, 60, states, 13)) == MWS_ROOM);
    HOLDS(mws_set_open(file, 60, states, 14) == 0);
    HOLDS(mws_set_tick(states, 14, 2, 5, S, answers, 3) == 0 && answers[0] == 0 && answers[1] == 6 && answers[2] == 7);
    HOLDS(mws_set_tick(states, 14, 2, 9, P, answers, 3) == 0 && answers[0] == 6 && answers[1] == 0 && answers[2] == 7);
    HOLDS(MWS_NUMBER(mws_set_tick(states, 14, 2, 9, P, answers, 3)) == MWS_LATE && answers[0] == 6);
    HOLDS(MWS_NUMBER(mws_set_tick(states, 14, 17, 10, P, answers, 3)) == MWS_COUNT);
}

static void tallies(void) {
    struct mws_tally tally = {0, 0}, full = {~(uint64_t)0, 0};
    HOLDS(mws_tally_add(&tally, 10, 120) == 0 && tally.windows == 1 && tally.ticks == 111);
    HOLDS(MWS_NUMBER(mws_tally_add(&tally, 3, 2)) == MWS_RANGE && tally.windows == 1 && tally.ticks == 111);
    HOLDS(MWS_NUMBER(mws_tally_add(&full, 0, 0)) == MWS_FULL && full.windows == ~(uint64_t)0 && full.ticks == 0);
}

/* Every slice of every call as a null pointer with count 0, one by one. */
static void nulls(void) {
    static uint64_t rows[64 * 6];
    uint8_t bodies[35], out[64];
    uint64_t state[11], states[14], before[11], answers[2], n = 77, m = 77, status;
    const uint64_t ticks[1] = {900};
    const uint32_t events[1] = {S};
    memcpy(bodies, steps, 30);
    memcpy(bodies + 30, step, 5);
    HOLDS(mws_watch_open(steps, 30, state, 11) == 0 && mws_set_open(file, 60, states, 14) == 0);
    memcpy(before, state, sizeof state);

    HOLDS(is(mws_body_check(NULL, 0), MWS_SIZE, 0));
    HOLDS(is(mws_text_read(NULL, 0, out, sizeof out, &n), MWS_SYNTAX, 0));
    HOLDS(is(mws_text_read(bytes("S"), 1, NULL, 0, &n), MWS_ROOM, 5));
    HOLDS(is(mws_text_print(NULL, 0, out, sizeof out, &n), MWS_SIZE, 0));
    HOLDS(is(mws_text_print(steps, 30, NULL, 0, &n), MWS_ROOM, 15));

    HOLDS(is(mws_file_check(NULL, 0), MWS_COUNT, 0));
    HOLDS(is(mws_file_write(NULL, 0, counts, 2, bodies, 35, out, sizeof out, &n), MWS_COUNT, 0));
    HOLDS(is(mws_file_write(bytes(names), 16, NULL, 0, bodies, 35, out, sizeof out, &n), MWS_COUNT, 0));
    HOLDS(is(mws_file_write(bytes(names), 16, counts, 2, NULL, 0, out, sizeof out, &n), MWS_SIZE, 0));
    HOLDS(is(mws_file_write(bytes(names), 16, counts, 2, bodies, 35, NULL, 0, &n), MWS_ROOM, 60));
    HOLDS(is(mws_file_write(NULL, 0, NULL, 0, NULL, 0, NULL, 0, &n), MWS_COUNT, 0));
    status = mws_file_lookup(NULL, 0, file, 60, bytes("STEP    "), 8, &n, &m);
    HOLDS(is(status, MWS_COUNT, 0) && MWS_FILE(status) == 0);
    status = mws_file_lookup(file, 60, NULL, 0, bytes("STEP    "), 8, &n, &m);
    HOLDS(is(status, MWS_COUNT, 0) && MWS_FILE(status) == 1);
    HOLDS(is(mws_file_lookup(file, 60, file, 60, NULL, 0, &n, &m), MWS_ABSENT, 0));
    HOLDS(is(mws_file_lookup(NULL, 0, NULL, 0, NULL, 0, &n, &m), MWS_COUNT, 0));

    HOLDS(is(mws_plain(NULL, 0, events, 1, rows, 64 * 6), MWS_SIZE, 0));
    HOLDS(is(mws_plain(steps, 30, events, 1, NULL, 0), MWS_ROOM, 64 * 6));
    rows[0] = rows[64 * 6 - 1] = 7;
    HOLDS(mws_plain(steps, 30, NULL, 0, rows, 64 * 6) == 0 && rows[0] == 0 && rows[64 * 6 - 1] == 0);

    HOLDS(is(mws_watch_room(NULL, 0, &n), MWS_SIZE, 0));
    HOLDS(is(mws_watch_open(NULL, 0, state, 11), MWS_SIZE, 0));
    HOLDS(is(mws_watch_open(steps, 30, NULL, 0), MWS_ROOM, 11));
    HOLDS(is(mws_watch_tick(NULL, 0, 0, S, &n), MWS_STATE, 0));
    HOLDS(is(mws_watch_feed(NULL, 0, ticks, 1, events, 1, answers, 2), MWS_STATE, 0));
    HOLDS(is(mws_watch_feed(state, 11, NULL, 0, events, 1, answers, 2), MWS_RECORD, 0));
    HOLDS(is(mws_watch_feed(state, 11, ticks, 1, NULL, 0, answers, 2), MWS_RECORD, 0));
    HOLDS(is(mws_watch_feed(state, 11, ticks, 1, events, 1, NULL, 0), MWS_ROOM, 1));
    HOLDS(is(mws_watch_feed(NULL, 0, NULL, 0, NULL, 0, NULL, 0), MWS_STATE, 0));
    HOLDS(mws_watch_feed(state, 11, NULL, 0, NULL, 0, NULL, 0) == 0 && memcmp(before, state, sizeof state) == 0);

    HOLDS(is(mws_set_room(NULL, 0, &n), MWS_COUNT, 0));
    HOLDS(is(mws_set_open(NULL, 0, states, 14), MWS_COUNT, 0));
    HOLDS(is(mws_set_open(file, 60, NULL, 0), MWS_ROOM, 14));
    HOLDS(is(mws_set_tick(NULL, 0, 2, 5, S, answers, 2), MWS_STATE, 0));
    HOLDS(is(mws_set_tick(states, 14, 2, 5, S, NULL, 0), MWS_ROOM, 2));
    HOLDS(n == 77 && m == 77);
}

int main(void) {
    text_and_body();
    files();
    plain();
    watching();
    faulty_feeds();
    sets();
    tallies();
    nulls();
    printf("%u hold, %u do not\n", held, failed);
    return failed != 0;
}
