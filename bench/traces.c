/* One node's share by traces beside Rebuild: the time of the target, of one sender and of Rebuild, and the bytes that each target reads. */
#include "balanced.h"
#include <stdio.h>
#include <stdlib.h>
#include <string.h>
#include <time.h>

enum { LANES = 4096, N = 255, MOST = N * LANES };
static uint8_t message[MOST], shares[MOST], listed[MOST], share[LANES], rebuilt[LANES], repaired[LANES], rows[4 * N * LANES / 8];

/* Processor time, in microseconds. */
static double now(void) {
    struct timespec t;
    clock_gettime(CLOCK_PROCESS_CPUTIME_ID, &t);
    return t.tv_sec * 1e6 + t.tv_nsec * 1e-3;
}

static void least(double *best, double time) {
    if (time > 0 && time < *best) *best = time;
}

/* What node j sends to node 0, into its place; the time that it took. */
static double send(const uint8_t *record, unsigned j, const uint8_t *missing, size_t left_out, uint8_t *bits, size_t size) {
    for (size_t t = 0; t < LANES; t++) share[t] = shares[t * N + j];
    double start = now();
    if (balanced_repair_bits(record, 4, LANES, j, 0, missing, left_out, share, LANES, bits, size)) exit(1);
    return now() - start;
}

/* The last nodes are left out: as many as may be, or none. */
static void measure(unsigned k, unsigned left_out, int rounds) {
    uint8_t record[4] = {2, 2, N, (uint8_t)k}, nodes[N], missing[N];
    uint32_t b, spare;
    for (unsigned i = 0; i < k; i++) nodes[i] = (uint8_t)(i + 1);
    for (unsigned i = 0; i < left_out; i++) missing[i] = (uint8_t)(N - 1 - i);
    if (balanced_repair_plan(record, 4, left_out, &b, &spare)) exit(1);
    if (balanced_encode(record, 4, LANES, message, (size_t)k * LANES, shares, MOST)) exit(1);
    for (size_t t = 0; t < LANES; t++)
        for (unsigned i = 0; i < k; i++) listed[t * k + i] = shares[t * N + nodes[i]];
    size_t size = b * (LANES / 8), read = (N - 1 - left_out) * size;
    double sender = 1e9, target = 1e9, rebuild = 1e9;
    for (int round = 0; round < rounds; round++) {
        for (unsigned j = 1; j < N - left_out; j++) least(&sender, send(record, j, missing, left_out, rows + (j - 1) * size, size));
        for (int again = 0; again < 5; again++) {
            double start = now();
            if (balanced_repair_share(record, 4, LANES, 0, missing, left_out, rows, read, repaired, LANES)) exit(1);
            least(&target, now() - start);
        }
        for (int again = 0; again < 5; again++) {
            double start = now();
            if (balanced_rebuild(record, 4, LANES, nodes, k, listed, (size_t)k * LANES, 0, rebuilt, LANES)) exit(1);
            least(&rebuild, now() - start);
        }
        if (memcmp(repaired, rebuilt, LANES)) exit(1);
    }
    printf("repair, n = %d, k = %u, b = %u, left out %u: target %.1f us, a sender %.1f us, rebuild %.1f us, ratio %.3f; reads %zu of %zu bytes, %.3f\n", N, k, (unsigned)b, left_out, target, sender, rebuild, target / rebuild, read, (size_t)k * LANES, (double)read / ((double)k * LANES));
}

int main(int argc, char **argv) {
    static const unsigned ks[][2] = {{51, 0}, {51, 76}, {85, 0}, {120, 0}, {120, 7}, {136, 0}, {171, 0}, {205, 0}};
    int rounds = argc > 1 ? atoi(argv[1]) : 15;
    uint32_t x = 1;
    for (size_t i = 0; i < MOST; i++) message[i] = (uint8_t)((x = x * 1103515245u + 12345u) >> 16);
    for (size_t i = 0; i < sizeof ks / sizeof *ks; i++) measure(ks[i][0], ks[i][1], rounds);
    return 0;
}
