/* Encode of symbols of two bytes beside symbols of one byte: the time for each symbol of the message, and the ratio. */
#include "balanced.h"
#include <stdio.h>
#include <stdlib.h>
#include <time.h>

enum { LANES = 4096, MOST = 2 * BALANCED_MAX_NODES * LANES };
static uint8_t message[MOST], shares[MOST];

struct code {
    uint8_t record[7];
    size_t length, width;
    uint32_t size;
    unsigned n, k;
};

/* Processor time. */
static double seconds(void) {
    struct timespec t;
    clock_gettime(CLOCK_PROCESS_CPUTIME_ID, &t);
    return t.tv_sec + t.tv_nsec * 1e-9;
}

static void fill(const struct code *c) {
    uint32_t x = 1;
    for (size_t i = 0; i < (size_t)c->k * LANES; i++) {
        x = x * 1103515245u + 12345u;
        uint32_t symbol = (x >> 8) % c->size;
        if (c->width == 2) message[2 * i] = (uint8_t)(symbol / 256);
        message[c->width * (i + 1) - 1] = (uint8_t)symbol;
    }
}

/* One encoding, in nanoseconds for each symbol of the message. */
static double encode(const struct code *c) {
    fill(c);
    double start = seconds();
    if (balanced_encode(c->record, c->length, LANES, message, c->k * LANES * c->width, shares, c->n * LANES * c->width)) exit(1);
    return (seconds() - start) * 1e9 / ((double)c->k * LANES);
}

int main(int argc, char **argv) {
    static const struct code codes[] = {
        { { 1, 251, 6, 250, 125 }, 5, 1, 251, 250, 125 },
        { { 3, 255, 241, 0, 40, 252, 126 }, 7, 2, 65521, 252, 126 },
        { { 3, 252, 1, 6, 145, 252, 126 }, 7, 2, 64513, 252, 126 },
    };
    enum { CODES = sizeof codes / sizeof *codes };
    double least[CODES];
    for (int round = 0, rounds = argc > 1 ? atoi(argv[1]) : 15; round < rounds; round++)
        for (size_t i = 0; i < CODES; i++) {
            double time = encode(&codes[i]);
            if (round == 0 || time < least[i]) least[i] = time;
        }
    for (size_t i = 0; i < CODES; i++)
        printf("encode, %d lanes, p = %u, n = %u, k = %u: %.1f ns a symbol, %.2f times the first\n", LANES, (unsigned)codes[i].size, codes[i].n, codes[i].k, least[i], least[i] / least[0]);
    return 0;
}
