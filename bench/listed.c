/* The message of listed shares beside Recover of the first k of them and Belongs of the whole block: where nothing is wrong, where one lane in 64 has
   as many wrong symbols as can be borne, and where every lane has. The messages are compared. */
#include "balanced.h"
#include <stdio.h>
#include <stdlib.h>
#include <string.h>
#include <time.h>

enum { LANES = 4096, N = 255, MOST = N * LANES };
static uint8_t message[MOST], shares[MOST], held[MOST], first[MOST], got[MOST];
static uint32_t wrong[N];

/* Processor time, in microseconds. */
static double now(void) {
    struct timespec t;
    clock_gettime(CLOCK_PROCESS_CPUTIME_ID, &t);
    return t.tv_sec * 1e6 + t.tv_nsec * 1e-3;
}

static void least(double *best, double time) {
    if (time > 0 && time < *best) *best = time;
}

/* s of the nodes are listed; one lane in `every` has (s-k)/2 wrong symbols, none where it is 0. */
static void measure(unsigned k, unsigned s, unsigned every, int rounds) {
    uint8_t record[4] = {2, 2, N, (uint8_t)k}, nodes[N];
    uint32_t altered, first_wrong;
    unsigned most = (s - k) / 2, lanes = 0;
    for (unsigned i = 0; i < s; i++) nodes[i] = (uint8_t)(7 * i % N);
    if (balanced_encode(record, 4, LANES, message, (size_t)k * LANES, shares, MOST)) exit(1);
    for (size_t t = 0; t < LANES; t++) {
        for (unsigned i = 0; i < s; i++) held[t * s + i] = shares[t * N + nodes[i]];
        for (unsigned i = 0; i < k; i++) first[t * k + i] = held[t * s + i];
        if (every == 0 || t % every) continue;
        lanes++;
        for (unsigned i = 0; i < most; i++) held[t * s + (t + 2 * i) % s] ^= (uint8_t)(1 + i);
    }
    double recover = 1e9, belongs = 1e9, listed = 1e9;
    for (int round = 0; round < rounds; round++) {
        double start = now();
        if (balanced_recover(record, 4, LANES, nodes, k, first, (size_t)k * LANES, got, (size_t)k * LANES)) exit(1);
        least(&recover, now() - start);
        start = now();
        if (balanced_belongs(record, 4, LANES, shares, MOST, &first_wrong) || first_wrong != LANES) exit(1);
        least(&belongs, now() - start);
        memset(got, 0, (size_t)k * LANES);
        start = now();
        if (balanced_correct_listed(record, 4, LANES, nodes, s, held, (size_t)s * LANES, got, (size_t)k * LANES, wrong, s, &altered)) exit(1);
        least(&listed, now() - start);
        if (altered != lanes * most || memcmp(got, message, (size_t)k * LANES)) exit(1);
    }
    printf("listed, n = %d, k = %u, s = %u, %u of %d lanes wrong: %.1f us, recover %.1f us, belongs %.1f us, ratio to both %.3f\n", N, k, s, lanes, LANES, listed, recover, belongs, listed / (recover + belongs));
}

int main(int argc, char **argv) {
    static const unsigned rows[][3] = {{120, 120, 0}, {120, 160, 0}, {120, 200, 0}, {120, 255, 0}, {120, 200, 64}, {120, 200, 1}};
    int rounds = argc > 1 ? atoi(argv[1]) : 15;
    uint32_t x = 1;
    for (size_t i = 0; i < MOST; i++) message[i] = (uint8_t)((x = x * 1103515245u + 12345u) >> 16);
    for (size_t i = 0; i < sizeof rows / sizeof *rows; i++) measure(rows[i][0], rows[i][1], rows[i][2], rounds);
    return 0;
}
