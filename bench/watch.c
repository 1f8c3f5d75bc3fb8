/* The pattern (((S;P)@600)-Y) by hand, for bench/watch: the same lines in and out as the watch program, without its checks of the pattern. */
#include <stdint.h>
#include <stdio.h>
#include <string.h>

static char buffer[1 << 16];
static size_t have, at;

static int next_byte(void) {
    if (at == have) {
        have = fread(buffer, 1, sizeof buffer, stdin);
        at = 0;
        if (have == 0) return EOF;
    }
    return (unsigned char)buffer[at++];
}

int main(void) {
    uint64_t windows = 0, ticks = 0, step = 0, yaw = 0, next = 0, line = 1;
    int c;
    while ((c = next_byte()) != '\n' && c != EOF) {}
    for (; (c = next_byte()) != EOF; line++) {
        uint64_t t = 0;
        uint32_t events = 0;
        if (c < '0' || c > '9') goto malformed;
        for (; c >= '0' && c <= '9'; c = next_byte()) {
            if (t >> 40) goto malformed;
            t = 10 * t + (uint64_t)(c - '0');
        }
        if (c != ' ') goto malformed;
        for (int last = 0; (c = next_byte()) != '\n' && c != EOF; last = c) {
            if (c <= last || c < 'A' || c > 'Z') goto malformed;
            events |= 1u << (c - 'A');
        }
        if (t > 4294967295u || t < next) goto malformed;
        next = t + 1;
        if (events >> ('Y' - 'A') & 1) yaw = t + 1;
        if (events >> ('P' - 'A') & 1 && step && t + 1 - step <= 600 && yaw < step) {
            printf("%llu %llu\n", (unsigned long long)(step - 1), (unsigned long long)t);
            windows++;
            ticks += t + 2 - step;
        }
        if (events >> ('S' - 'A') & 1) step = t + 1;
    }
    printf("windows %llu ticks %llu\n", (unsigned long long)windows, (unsigned long long)ticks);
    return 0;
malformed:
    printf("refused line %llu\n", (unsigned long long)(line + 1));
    return 1;
}
