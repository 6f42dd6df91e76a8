/* What the programs of large blocks have in common: codes with many nodes and many lanes, their symbols, and checksums. */
#include "balanced.h"
#include <stdio.h>
#include <stdlib.h>
#include <string.h>

enum { MOST = 2 * BALANCED_MAX_NODES * (BALANCED_MAX_LANES + 1) };
static uint8_t message[MOST], shares[MOST];

/* A record, the largest symbol of its field, n, k and the number of lanes. */
struct code {
    uint8_t record[7];
    size_t length;
    unsigned top, n, k;
    uint32_t lanes;
};

static inline uint64_t checksum(const uint8_t *s, size_t size) {
    uint64_t total = 0;
    for (size_t i = 0; i < size; i++) total = (total * 257 + s[i] + 1) % 4294967291u;
    return total;
}

/* The bytes of a symbol, and of a message, of all shares and of one. */
static inline size_t width(const struct code *c) { return c->top < 256 ? 1 : 2; }
static inline size_t message_size(const struct code *c) { return (size_t)c->k * c->lanes * width(c); }
static inline size_t shares_size(const struct code *c) { return (size_t)c->n * c->lanes * width(c); }
static inline size_t share_size(const struct code *c) { return c->lanes * width(c); }

/* Symbol i of a buffer, high byte first. */
static inline uint32_t symbol_at(const struct code *c, const uint8_t *s, size_t i) {
    return width(c) == 1 ? s[i] : s[2 * i] * 256u + s[2 * i + 1];
}
static inline void put_symbol(const struct code *c, uint8_t *s, size_t i, uint32_t x) {
    if (width(c) == 2) s[2 * i] = (uint8_t)(x / 256);
    s[width(c) * (i + 1) - 1] = (uint8_t)x;
}

/* Symbols from a linear congruential generator's states. */
static inline void fill(const struct code *c) {
    uint64_t x = 1, low = width(c) == 1 ? 65536 : 256;
    for (size_t i = 0; i < (size_t)c->k * c->lanes; i++) {
        x = (x * 1103515245u + 12345) % 2147483648u;
        put_symbol(c, message, i, (uint32_t)(x / low % (c->top + 1)));
    }
}

/* A message, encoded: the shares, or zeros where the code is refused. */
static inline uint8_t encode_block(const struct code *c) {
    fill(c);
    memset(shares, 0, shares_size(c));
    return balanced_encode(c->record, c->length, c->lanes, message, message_size(c), shares, shares_size(c));
}

static inline void print_code(const struct code *c) {
    printf("block");
    for (size_t i = 0; i < c->length; i++) printf(" %u", c->record[i]);
    printf(" lanes %u message sum %llu\n", (unsigned)c->lanes, (unsigned long long)checksum(message, message_size(c)));
}

/* Each code in turn. With an argument: no more lanes than that, as for a slow run under valgrind. */
static inline int each_code(int count, char **words, void (*block)(const struct code *)) {
    uint32_t most = count > 1 ? (uint32_t)atoi(words[1]) : BALANCED_MAX_LANES + 1;
    static const struct code codes[] = {
        { { 2, 2, 255, 120 }, 4, 255, 255, 120, 4096 },
        { { 1, 251, 6, 250, 125 }, 5, 250, 250, 125, 4096 },
        { { 2, 32, 51, 18 }, 4, 255, 51, 18, 1000 },
        { { 1, 251, 246, 50, 25 }, 5, 250, 50, 25, 1001 },
        { { 2, 2, 255, 119 }, 4, 255, 255, 119, 1000 },
        { { 1, 251, 250, 2, 1 }, 5, 250, 2, 1, 4097 },
        { { 3, 255, 241, 15, 41, 16, 8 }, 7, 65520, 16, 8, 4096 },
        { { 3, 252, 1, 6, 145, 252, 126 }, 7, 64512, 252, 126, 40 },
        { { 3, 1, 1, 0, 2, 16, 5 }, 7, 256, 16, 5, 4097 },
    };
    for (size_t i = 0; i < sizeof codes / sizeof *codes; i++) {
        struct code c = codes[i];
        if (c.lanes > most) c.lanes = most;
        block(&c);
    }
    return 0;
}
