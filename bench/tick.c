/* Nanoseconds a tick: the watcher's call for C beside the same detector written by hand, both built for release, in one run. */
#include "by_hand.h"

static double time_of(uint64_t (*tick)(uint64_t *, size_t, uint64_t, uint32_t, uint64_t *), uint64_t *state, size_t words, unsigned ticks,
                      const uint32_t *events, uint64_t *sum) {
    uint64_t answer = 0;
    double start = now();
    for (unsigned i = 0; i < ticks; i++) {
        if (tick(state, words, i, events[i & 65535], &answer)) exit(1);
        *sum = *sum * 31 + answer;
    }
    return (now() - start) / ticks;
}

int main(void) {
    static const char *patterns[] = {
        "(((S;P)@600)-Y)",
        "((A;((B;C)+(D;E)))-(F;(A+G)))",
        "(((((G@100)+(((G;D)|(((B+B)@50);((G;(B@100));(B@100))));(((B@100)-((C@100);C))+((C|E);((((D@100)-(C@100))@50)+(A;A))))))-(C@100))+(A@100))|((D;(A;(G@100)))+((G+A)|(G;A))))",
    };
    static uint32_t events[65536];
    uint32_t seed = 12345;
    for (int i = 0; i < 65536; i++) {
        seed = seed * 1664525 + 1013904223;
        uint32_t kind = seed >> 24;
        events[i] = kind < 96 ? 1u << (kind % 7) : kind < 110 ? 1u << 18 : kind < 124 ? 1u << 15 : kind < 126 ? 1u << 24 : 0;
    }
    printf("%-8s %-6s %10s %10s %6s\n", "entries", "words", "proved ns", "by hand", "ratio");
    for (int k = 0; k < 3; k++) {
        uint8_t body[315];
        uint64_t bytes = 0, words = 0, one = 0, two = 0;
        if (mws_text_read((const uint8_t *)patterns[k], strlen(patterns[k]), body, sizeof body, &bytes)) return 1;
        mws_watch_room(body, bytes, &words);
        uint64_t *a = calloc(words, 8), *b = calloc(words, 8);
        double best_a = 1e9, best_b = 1e9;
        for (int r = 0; r < 7; r++) {
            one = two = 0;
            mws_watch_open(body, bytes, a, words);
            mws_watch_open(body, bytes, b, words);
            double ta = time_of(mws_watch_tick, a, words, 400000, events, &one);
            double tb = time_of(by_hand, b, words, 400000, events, &two);
            if (ta < best_a) best_a = ta;
            if (tb < best_b) best_b = tb;
            if (one != two || memcmp(a, b, words * 8)) { puts("the two differ"); return 1; }
        }
        printf("%-8d %-6d %10.1f %10.1f %6.2f\n", (int)(bytes / 5), (int)words, best_a, best_b, best_a / best_b);
    }
    return 0;
}
