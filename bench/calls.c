/* Nanoseconds a call beside the same written by hand, both built for release, in one run: many ticks fed, a set of 16 patterns at a tick,
   the plain evaluator, text read. */
#include "by_hand.h"

static const char *most =
    "(((((G@100)+(((G;D)|(((B+B)@50);((G;(B@100));(B@100))));(((B@100)-((C@100);C))+((C|E);((((D@100)-(C@100))@50)+(A;A))))))-(C@100))+(A@100))|((D;(A;(G@100)))+((G+A)|(G;A))))";
static uint32_t events[65536];

static uint64_t below(unsigned n) { return n >= 64 ? ~0ull : (1ull << n) - 1; }

/* the rows of one entry from those of its operands */
static void rows_of(unsigned op, uint64_t n, uint32_t word_count, const uint64_t *x, const uint64_t *y, uint64_t *out) {
    uint64_t x_before = 0, y_before = 0;
    for (unsigned e = 0; e < word_count; e++) {
        uint64_t row = 0, low = 0;
        switch (op) {
        case EITHER: row = x[e] | y[e]; break;
        case BOTH:
            x_before |= x[e], y_before |= y[e];
            row = (x[e] && y_before ? (x[e] & below(64 - __builtin_clzll(y_before))) | (y_before & below(64 - __builtin_clzll(x[e]))) : 0)
                | (y[e] && x_before ? (y[e] & below(64 - __builtin_clzll(x_before))) | (x_before & below(64 - __builtin_clzll(y[e]))) : 0);
            break;
        case WITHOUT:
            y_before |= y[e];
            row = y_before ? x[e] & ~below(64 - __builtin_clzll(y_before)) : x[e];
            break;
        case CHAIN:
            if (y[e])
                for (unsigned k = 0; k < 63u - __builtin_clzll(y[e]); k++) row |= x[k];
            break;
        case WITHIN:
            low = e > n ? below(e - n) : 0;
            row = x[e] & ~low;
            break;
        }
        out[e] = row;
    }
}

static void plain_by_hand(const uint8_t *body, unsigned entries, const uint32_t *words, uint32_t count, uint64_t *rows) {
    unsigned stack[64], d = 0;
    for (unsigned i = 0; i < entries; i++) {
        unsigned op = body[5 * i];
        uint32_t n = body[5 * i + 1] | body[5 * i + 2] << 8 | body[5 * i + 3] << 16 | (uint32_t)body[5 * i + 4] << 24;
        uint64_t *out = rows + 64 * i;
        memset(out, 0, 512);
        if (op == LETTER) {
            for (unsigned e = 0; e < count; e++) out[e] = (uint64_t)(words[e] >> n & 1) << e;
            stack[d++] = i;
        } else if (op == WITHIN) {
            rows_of(op, n, count, rows + 64 * stack[d - 1], 0, out);
            stack[d - 1] = i;
        } else {
            d--;
            rows_of(op, n, count, rows + 64 * stack[d - 1], rows + 64 * stack[d], out);
            stack[d - 1] = i;
        }
    }
}

static const char *read_by_hand(const char *text, uint8_t *body, unsigned *entries) {
    uint8_t entry[5] = {0};
    if (*text != '(') {
        if ((*text < 'A' || *text > 'Z') && (*text < 'a' || *text > 'f')) return 0;
        entry[1] = *text >= 'a' ? *text - 'a' + 26 : *text - 'A';
        memcpy(body + 5 * (*entries)++, entry, 5);
        return text + 1;
    }
    text = read_by_hand(text + 1, body, entries);
    if (!text) return 0;
    const char *ops = "|+-;@", *op = *text ? strchr(ops, *text) : 0;
    if (!op) return 0;
    entry[0] = 1 + (op - ops);
    if (*text++ == '@') {
        uint64_t n = 0;
        if (*text < '0' || *text > '9' || (*text == '0' && text[1] != ')')) return 0;
        for (; *text >= '0' && *text <= '9'; text++)
            if ((n = 10 * n + (*text - '0')) > 4294967295u) return 0;
        for (int i = 0; i < 4; i++) entry[1 + i] = n >> 8 * i;
    } else if (!(text = read_by_hand(text, body, entries))) {
        return 0;
    }
    memcpy(body + 5 * (*entries)++, entry, 5);
    return *text == ')' ? text + 1 : 0;
}

static void say(const char *what, double proved, double hand) {
    printf("%-32s %10.0f %10.0f %6.2f\n", what, proved, hand, proved / hand);
}

static void measure_text(void) {
    uint8_t one[315], two[315];
    uint64_t bytes = 0;
    unsigned entries = 0;
    double best_one = 1e9, best_two = 1e9;
    for (int r = 0; r < 7; r++) {
        double a = now();
        for (int i = 0; i < 20000; i++) mws_text_read((const uint8_t *)most, strlen(most), one, sizeof one, &bytes);
        double b = now();
        for (int i = 0; i < 20000; i++) entries = 0, read_by_hand(most, two, &entries);
        double c = now();
        if (b - a < best_one * 20000) best_one = (b - a) / 20000;
        if (c - b < best_two * 20000) best_two = (c - b) / 20000;
    }
    if (bytes != 5 * entries || memcmp(one, two, bytes)) exit(1);
    say("text read, 63 entries", best_one, best_two);
}

static void measure_plain(void) {
    static uint64_t one[63 * 64], two[63 * 64];
    uint8_t body[315];
    uint64_t bytes = 0;
    mws_text_read((const uint8_t *)most, strlen(most), body, sizeof body, &bytes);
    double best_one = 1e9, best_two = 1e9;
    for (int r = 0; r < 7; r++) {
        double a = now();
        for (int i = 0; i < 2000; i++) mws_plain(body, bytes, events + i, 64, one, 63 * 64);
        double b = now();
        for (int i = 0; i < 2000; i++) plain_by_hand(body, bytes / 5, events + i, 64, two);
        double c = now();
        if (b - a < best_one * 2000) best_one = (b - a) / 2000;
        if (c - b < best_two * 2000) best_two = (c - b) / 2000;
        if (memcmp(one, two, sizeof one)) exit(1);
    }
    say("plain, 63 entries, 64 ticks", best_one, best_two);
}

static void measure_feed(void) {
    static uint64_t ticks[50000], answers[50000];
    uint8_t body[30];
    uint64_t bytes = 0, one[11], two[11], answer = 0;
    double best_one = 1e9, best_two = 1e9;
    mws_text_read((const uint8_t *)"(((S;P)@600)-Y)", 15, body, sizeof body, &bytes);
    for (int i = 0; i < 50000; i++) ticks[i] = i;
    for (int r = 0; r < 7; r++) {
        if (mws_watch_open(body, bytes, one, 11) || mws_watch_open(body, bytes, two, 11)) exit(1);
        double a = now();
        if (mws_watch_feed(one, 11, ticks, 50000, events, 50000, answers, 50000)) exit(1);
        double b = now();
        for (int i = 0; i < 50000; i++) by_hand(two, 11, i, events[i], &answer);
        double c = now();
        if (b - a < best_one * 50000) best_one = (b - a) / 50000;
        if (c - b < best_two * 50000) best_two = (c - b) / 50000;
        if (memcmp(one, two, sizeof one) || answers[49999] != answer) exit(1);
    }
    say("feed, 6 entries, a tick", best_one, best_two);
}

static void measure_set(void) {
    uint8_t body[30], bodies[16 * 30], names[16 * 8], counts[16], file[1024];
    uint64_t bytes = 0, words = 0, one[16 * 11], two[16 * 11], three[16 * 11], answers[16], answer = 0;
    double best_one = 1e9, best_two = 1e9, best_three = 1e9;
    mws_text_read((const uint8_t *)"(((S;P)@600)-Y)", 15, body, sizeof body, &bytes);
    for (int k = 0; k < 16; k++) {
        memcpy(bodies + 30 * k, body, 30);
        memcpy(names + 8 * k, "A       ", 8);
        names[8 * k] = 'A' + k;
        counts[k] = 6;
    }
    if (mws_file_write(names, 128, counts, 16, bodies, 480, file, sizeof file, &bytes) || mws_set_room(file, bytes, &words) || words != 176) exit(1);
    for (int r = 0; r < 7; r++) {
        if (mws_set_open(file, bytes, one, words) || mws_set_open(file, bytes, two, words) || mws_set_open(file, bytes, three, words)) exit(1);
        double a = now();
        for (int i = 0; i < 50000; i++) mws_set_tick(one, words, 16, i, events[i], answers, 16);
        double b = now();
        for (int i = 0; i < 50000; i++)
            for (int k = 0; k < 16; k++) by_hand(two + 11 * k, 11, i, events[i], &answer);
        double c = now();
        for (int i = 0; i < 50000; i++)
            for (int k = 0; k < 16; k++) mws_watch_tick(three + 11 * k, 11, i, events[i], &answer);
        double d = now();
        if (b - a < best_one * 50000) best_one = (b - a) / 50000;
        if (c - b < best_two * 50000) best_two = (c - b) / 50000;
        if (d - c < best_three * 50000) best_three = (d - c) / 50000;
        if (memcmp(one, two, sizeof one) || memcmp(one, three, sizeof one) || answers[15] != answer) exit(1);
    }
    say("set of 16, a tick", best_one, best_two);
    say("the same, and 16 single ticks", best_one, best_three);
}

int main(void) {
    uint32_t seed = 12345;
    for (int i = 0; i < 65536; i++) {
        seed = seed * 1664525 + 1013904223;
        uint32_t kind = seed >> 24;
        events[i] = kind < 96 ? 1u << (kind % 7) : kind < 110 ? 1u << 18 : kind < 124 ? 1u << 15 : kind < 126 ? 1u << 24 : 0;
    }
    printf("%-32s %10s %10s %6s\n", "call", "proved ns", "by hand", "ratio");
    measure_feed();
    measure_set();
    measure_plain();
    measure_text();
    return 0;
}
