/* The watcher's detector written by hand, for the measurements: the same words, and the state judged at every tick too. */
#include <stdint.h>
#include <stdio.h>
#include <stdlib.h>
#include <string.h>
#include <time.h>

#include "../include/mws.h"

enum { LETTER, EITHER, BOTH, WITHOUT, CHAIN, WITHIN };

static uint64_t cell_words(unsigned op, unsigned p) {
    return op == BOTH ? 4 : op == WITHOUT ? 1 : op == CHAIN ? 2 * (1 + p) : 0;
}

static int pair_fits(uint64_t a, uint64_t b, uint64_t next) {
    return a == 0 ? b == 0 : a <= b && b <= next;
}

static int in_form(const uint64_t *s, size_t words) {
    if (words < 3 || s[0] < 1 || s[0] > 63 || words < 2 + s[0] || s[1] > 4294967296u) return 0;
    unsigned n = s[0], d = 0;
    uint8_t p[64];
    size_t at = 2 + n;
    for (unsigned i = 0; i < n; i++) {
        uint64_t op = s[2 + i] & 255, arg = s[2 + i] >> 8;
        if (op == LETTER) {
            if (arg >= 32) return 0;
            p[d++] = 0;
        } else if (op == WITHIN) {
            if (d < 1 || arg >= 4294967296u) return 0;
        } else if (op < WITHIN) {
            if (d < 2 || arg) return 0;
            unsigned y = p[d - 1], x = p[d - 2];
            uint64_t size = cell_words(op, y);
            if (words < at + size) return 0;
            const uint64_t *c = s + at;
            if (op == BOTH && !(pair_fits(c[0], c[1], s[1]) && pair_fits(c[2], c[3], s[1]))) return 0;
            if (op == WITHOUT && c[0] > s[1]) return 0;
            if (op == CHAIN) {
                if (!pair_fits(c[0], c[1], s[1])) return 0;
                uint64_t last = 0;
                unsigned k = 0;
                for (; k < y && c[2 + 2 * k]; k++) {
                    if (c[2 + 2 * k] <= last || !pair_fits(c[2 + 2 * k], c[3 + 2 * k], s[1])) return 0;
                    last = c[2 + 2 * k];
                }
                for (; k < y; k++) if (c[2 + 2 * k] | c[3 + 2 * k]) return 0;
            }
            p[d - 2] = op == EITHER ? x + y : op == BOTH ? x + y + 2 : op == WITHOUT ? x : x + y + 1;
            at += size;
            d--;
        } else return 0;
    }
    return d == 1;
}

static uint64_t max(uint64_t a, uint64_t b) { return a > b ? a : b; }
static uint64_t min(uint64_t a, uint64_t b) { return a < b ? a : b; }

static unsigned choose(const uint64_t *c, unsigned pairs, uint64_t start) {
    unsigned best = pairs;
    for (unsigned k = 0; k < pairs; k++)
        if (c[2 * k + 1] < start)
            if (best == pairs || c[2 * k] > c[2 * best] || (c[2 * k] == c[2 * best] && c[2 * k + 1] < c[2 * best + 1])) best = k;
    return best;
}

static uint64_t by_hand(uint64_t *s, size_t words, uint64_t t, uint32_t events, uint64_t *answer) {
    if (t > 4294967295u) return 10;
    if (!in_form(s, words)) return 9;
    if (t < s[1]) return 11;
    unsigned n = s[0], d = 0;
    uint64_t a[32], starts[64];
    unsigned base[33];
    base[0] = 0;
    size_t at = 2 + n;
    for (unsigned i = 0; i < n; i++) {
        uint64_t op = s[2 + i] & 255, arg = s[2 + i] >> 8;
        if (op == LETTER) {
            a[d] = events >> arg & 1 ? t + 1 : 0;
            base[d + 1] = base[d];
            d++;
            continue;
        }
        if (op == WITHIN) {
            a[d - 1] = t + 1 <= a[d - 1] + arg ? a[d - 1] : 0;
            continue;
        }
        d--;
        uint64_t x = a[d - 1], y = a[d];
        unsigned b = base[d], top = base[d + 1], py = top - b;
        uint64_t *c = s + at;
        at += cell_words(op, py);
        if (op == EITHER) {
            a[d - 1] = max(x, y);
            base[d] = top;
        } else if (op == BOTH) {
            if (c[0] < x) c[0] = x, c[1] = t + 1;
            if (c[2] < y) c[2] = y, c[3] = t + 1;
            a[d - 1] = max(min(x, c[2]), min(c[0], y));
            starts[top] = c[0];
            starts[top + 1] = c[2];
            base[d] = top + 2;
        } else if (op == WITHOUT) {
            c[0] = max(c[0], y);
            a[d - 1] = c[0] < x ? x : 0;
            base[d] = b;
        } else {
            unsigned pairs = 1;
            while (pairs <= py && c[2 * pairs]) pairs++;
            unsigned k = choose(c, pairs, y);
            a[d - 1] = k < pairs ? c[2 * k] : 0;
            if (py) {
                uint64_t kept[124];
                unsigned m = 0;
                for (unsigned j = b; j < top; j++) {
                    unsigned g = choose(c, pairs, starts[j]);
                    if (g == pairs || !c[2 * g]) continue;
                    unsigned q = m;
                    while (q > 0 && kept[2 * q - 2] > c[2 * g]) q--;
                    if (q > 0 && kept[2 * q - 2] == c[2 * g]) continue;
                    memmove(kept + 2 * q + 2, kept + 2 * q, 16 * (m - q));
                    kept[2 * q] = c[2 * g];
                    kept[2 * q + 1] = c[2 * g + 1];
                    m++;
                }
                memcpy(c + 2, kept, 16 * m);
                memset(c + 2 + 2 * m, 0, 16 * (py - m));
            }
            if (c[0] < x) c[0] = x, c[1] = t + 1;
            for (unsigned j = 0; j < py; j++) starts[b + j] = c[2 + 2 * j];
            starts[b + py] = c[0];
            base[d] = b + py + 1;
        }
    }
    s[1] = t + 1;
    *answer = a[0];
    return 0;
}

static double now(void) {
    struct timespec ts;
    clock_gettime(CLOCK_MONOTONIC, &ts);
    return ts.tv_sec * 1e9 + ts.tv_nsec;
}
