/* How much stack each call of mws.h takes, measured: every call runs on a thread whose stack was painted, and the painted
 * bytes that changed are counted. A call that takes more than the header says fails. */
#define _POSIX_C_SOURCE 200809L /* pthread_attr_setstack */
#include <pthread.h>
#include <stdio.h>
#include <stdlib.h>
#include <string.h>

#include "mws.h"

enum { STACK = 1 << 20, PAINT = 0xa5, ENTRIES = 63, BODY = 5 * ENTRIES, PATTERNS = 16, FILE_BYTES = PATTERNS * (12 + BODY) + 1 };

static uint8_t *stack, *entered;

/* What the calls are given: set up before each measurement, so that the calls' own frames are all that is measured. */
static const uint8_t *text, *body;
static size_t text_bytes, body_bytes, file_bytes, events_given;
static uint8_t made[1024], names[8 * PATTERNS], counts[PATTERNS], bodies[PATTERNS * BODY], file[FILE_BYTES];
static uint64_t number, other, state[4096], states[PATTERNS * 4096], answers[64], ticks[64], rows[64 * ENTRIES], tick;
static uint32_t events[64];
static struct mws_tally tally;

static uint64_t body_check(void) { return mws_body_check(body, body_bytes); }
static uint64_t text_read(void) { return mws_text_read(text, text_bytes, made, sizeof made, &number); }
static uint64_t text_print(void) { return mws_text_print(body, body_bytes, made, sizeof made, &number); }
static uint64_t file_check(void) { return mws_file_check(file, file_bytes); }
static uint64_t file_write(void) {
    return mws_file_write(names, sizeof names, counts, PATTERNS, bodies, PATTERNS * body_bytes, file, sizeof file, &number);
}
static uint64_t file_lookup(void) {
    return mws_file_lookup(file, file_bytes, file, file_bytes, names + 8 * (PATTERNS - 1), 8, &number, &other);
}
static uint64_t plain(void) { return mws_plain(body, body_bytes, events, events_given, rows, 64 * ENTRIES); }
static uint64_t row_latest(void) { return number = mws_row_latest(number), 0; }
static uint64_t row_count(void) { return number = mws_row_count(number), 0; }
static uint64_t watch_room(void) { return mws_watch_room(body, body_bytes, &number); }
static uint64_t watch_open(void) { return mws_watch_open(body, body_bytes, state, 4096); }
static uint64_t watch_tick(void) { return mws_watch_tick(state, 4096, tick, 1, &number); }
static uint64_t watch_feed(void) { return mws_watch_feed(state, 4096, ticks, 64, events, 64, answers, 64); }
static uint64_t set_room(void) { return mws_set_room(file, file_bytes, &number); }
static uint64_t set_open(void) { return mws_set_open(file, file_bytes, states, PATTERNS * 4096); }
static uint64_t set_tick(void) { return mws_set_tick(states, PATTERNS * 4096, PATTERNS, tick, 1, answers, PATTERNS); }
static uint64_t tally_add(void) { return mws_tally_add(&tally, 3, 5); }

static struct measured {
    const char *name;
    uint64_t (*call)(void);
    size_t bound, most;
    unsigned accepted, refused;
} calls[] = {
    {"mws_body_check", body_check, MWS_STACK, 0, 0, 0},
    {"mws_text_read", text_read, MWS_STACK_TEXT_READ, 0, 0, 0},
    {"mws_text_print", text_print, MWS_STACK_TEXT_PRINT, 0, 0, 0},
    {"mws_file_write", file_write, MWS_STACK, 0, 0, 0},
    {"mws_file_check", file_check, MWS_STACK, 0, 0, 0},
    {"mws_file_lookup", file_lookup, MWS_STACK, 0, 0, 0},
    {"mws_plain", plain, MWS_STACK, 0, 0, 0},
    {"mws_row_latest", row_latest, MWS_STACK, 0, 0, 0},
    {"mws_row_count", row_count, MWS_STACK, 0, 0, 0},
    {"mws_watch_room", watch_room, MWS_STACK, 0, 0, 0},
    {"mws_watch_open", watch_open, MWS_STACK, 0, 0, 0},
    {"mws_watch_tick", watch_tick, MWS_STACK, 0, 0, 0},
    {"mws_watch_feed", watch_feed, MWS_STACK, 0, 0, 0},
    {"mws_set_room", set_room, MWS_STACK, 0, 0, 0},
    {"mws_set_open", set_open, MWS_STACK, 0, 0, 0},
    {"mws_set_tick", set_tick, MWS_STACK, 0, 0, 0},
    {"mws_tally_add", tally_add, MWS_STACK, 0, 0, 0},
};
enum { CALLS = sizeof calls / sizeof *calls };

/* Paints the stack below this frame, and makes the call from here. */
static void *measure(void *given) {
    struct measured *measured = (struct measured *)given;
    entered = (uint8_t *)__builtin_frame_address(0);
    for (volatile uint8_t *at = stack; at < entered - 256; at++) *at = PAINT;
    if (MWS_NUMBER(measured->call())) {
        measured->refused++;
    } else {
        measured->accepted++;
    }
    return NULL;
}

/* Makes a call with what is set up, and notes how deep it went. */
static void take(struct measured *call) {
    pthread_attr_t attributes;
    pthread_t thread;
    size_t untouched = 0, used;
    if (pthread_attr_init(&attributes) || pthread_attr_setstack(&attributes, stack, STACK) ||
        pthread_create(&thread, &attributes, measure, call) || pthread_join(thread, NULL)) {
        printf("no thread\n");
        exit(1);
    }
    pthread_attr_destroy(&attributes);
    while (stack[untouched] == PAINT) untouched++;
    used = (size_t)(entered - (stack + untouched));
    if (used > call->most) call->most = used;
}

static void take_all(int rising) {
    for (size_t i = 0; i < CALLS; i++) {
        calls[i].call(); /* first on the ordinary stack, so that nothing is linked lazily on the painted one */
        if (rising) tick += 100;
        for (size_t k = 0; k < 64; k++) ticks[k] = tick + k;
        take(&calls[i]);
    }
}

/* Reads a pattern's text and gives its body to every call: alone, and 16 times in a file. Then come late ticks, and last a
 * damaged body and state. */
static void take_pattern(const char *pattern) {
    static uint8_t read[BODY];
    text = (const uint8_t *)pattern;
    text_bytes = strlen(pattern);
    if (mws_text_read(text, text_bytes, read, sizeof read, &number)) {
        printf("refused: %s\n", pattern);
        exit(1);
    }
    body = read;
    body_bytes = number;
    for (size_t i = 0; i < PATTERNS; i++) {
        memcpy(bodies + i * body_bytes, body, body_bytes);
        counts[i] = (uint8_t)(body_bytes / 5);
    }
    file_write();
    file_bytes = number;
    watch_open();
    set_open();
    events_given = 64;
    take_all(1);
    events_given = 7;
    take_all(1);
    take_all(0);
    read[body_bytes - 5] = 9;
    state[2] = 255;
    take_all(1);
}

/* n times one text, then a middle, then n times another. */
static const char *nested(const char *before, const char *middle, const char *after, size_t n) {
    static char made_text[2048];
    char *at = made_text;
    for (size_t i = 0; i < n; i++) at += sprintf(at, "%s", before);
    at += sprintf(at, "%s", middle);
    for (size_t i = 0; i < n; i++) at += sprintf(at, "%s", after);
    return made_text;
}

/* A text that is read as far as it goes. */
static void take_text(const char *long_text) {
    text = (const uint8_t *)long_text;
    text_bytes = strlen(long_text);
    take(&calls[1]);
}

int main(void) {
    int over = 0;
    stack = (uint8_t *)aligned_alloc(4096, STACK);
    if (!stack) return 1;
    for (size_t i = 0; i < PATTERNS; i++) {
        memcpy(names + 8 * i, "P       ", 8);
        names[8 * i + 1] = (uint8_t)('A' + i);
    }
    for (size_t i = 0; i < 64; i++) events[i] = i % 2 ? 2 : 1;

    take_pattern("A");
    take_pattern("(((S;P)@600)-Y)");
    take_pattern(nested("(", "A", "@4294967295)", 62));
    take_pattern(nested("(A;", "A", ")", 31));
    take_pattern(nested("(A+", "A", ")", 31));
    take_pattern(nested("(A-", "A", ")", 31));
    take_pattern(nested("(A|", "A", ")", 31));
    take_pattern(nested("(", "A", ";B)", 31));
    take_pattern(nested("(", "A", "+B)", 31));
    take_pattern(nested("((A+B);", "(A;B)", ")", 15));

    take_text(nested("(", "", "", 1024));
    take_text(nested("(", "A", "", 1023));
    take_text(nested("(A;", "A", "", 341));
    take_text(nested("((A;A);", "A", "", 145));
    take_text(nested("(((A@1)", "A", "", 145));

    for (size_t i = 0; i < CALLS; i++) {
        printf("%-16s %6zu of %6zu bytes, %u times accepted, %u times refused\n", calls[i].name, calls[i].most,
               calls[i].bound, calls[i].accepted, calls[i].refused);
        if (calls[i].most > calls[i].bound || calls[i].accepted < 10) over = 1;
    }
    return over;
}
