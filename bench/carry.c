/* Bytes carried in symbols and read again, beside a copy: random bytes, bytes that are all alike, and words that rule out as many masks as
   they can. What is read again is compared. */
#include "balanced.h"
#include <stdio.h>
#include <stdlib.h>
#include <string.h>
#include <time.h>

enum { BYTES = 1 << 20, MOST = 2 * BYTES };
static uint8_t bytes[BYTES], symbols[MOST], back[BYTES];

/* Processor time, in microseconds. */
static double now(void) {
    struct timespec t;
    clock_gettime(CLOCK_PROCESS_CPUTIME_ID, &t);
    return t.tv_sec * 1e6 + t.tv_nsec * 1e-3;
}

static void least(double *best, double time) {
    if (time > 0 && time < *best) *best = time;
}

static void fill(unsigned sort, unsigned gap) {
    uint32_t x = 1;
    for (size_t i = 0; i < BYTES; i++) {
        size_t word = i / 2 * gap % 65536;
        x = x * 1103515245u + 12345u;
        bytes[i] = sort == 0 ? (uint8_t)(x >> 16) : sort == 1 ? 255 : (uint8_t)(i % 2 ? word : word / 256);
    }
}

static void measure(unsigned n, unsigned sort, int rounds) {
    static const char *const words[] = {"random", "all alike", "adversarial"};
    uint8_t record[BALANCED_RECORD];
    uint32_t length;
    size_t size;
    double in = 1e9, out = 1e9, copy = 1e9;
    if (balanced_choose(n, 1, record, BALANCED_RECORD, &length) || balanced_carried_len(record, length, BYTES, &size)) exit(1);
    fill(sort, 65536 - (record[1] * 256u + record[2]));
    for (int round = 0; round < rounds; round++) {
        double start = now();
        if (balanced_carry_in(record, length, bytes, BYTES, symbols, size)) exit(1);
        least(&in, now() - start);
        start = now();
        if (balanced_carry_out(record, length, symbols, size, back, BYTES)) exit(1);
        least(&out, now() - start);
        if (memcmp(bytes, back, BYTES)) exit(1);
        start = now();
        memcpy(back, bytes, BYTES);
        least(&copy, now() - start);
    }
    printf("bytes in symbols, n = %u, p = %u, %s: in %.0f MB/s, out %.0f MB/s, a copy %.0f MB/s; %zu bytes in %zu, %.4f\n", n,
           record[1] * 256u + record[2], words[sort], BYTES / in, BYTES / out, BYTES / copy, (size_t)BYTES, size, (double)size / BYTES);
}

int main(int argc, char **argv) {
    static const unsigned ns[] = {6, 47, 254, 251, 253};
    int rounds = argc > 1 ? atoi(argv[1]) : 15;
    for (size_t i = 0; i < sizeof ns / sizeof *ns; i++)
        for (unsigned sort = 0; sort < 3; sort++) measure(ns[i], sort, rounds);
    return 0;
}
