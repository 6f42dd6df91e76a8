/* Many bytes on several numbers of nodes: carried in symbols, encoded in blocks, recovered from the last k nodes and read again, by
   checksums. tests/reference/large_bytes.py prints the same lines by another implementation. */
#include "large.h"

enum { BYTES = 100001 };
static uint8_t bytes[BYTES], back[BYTES], symbols[2 * BYTES], read_back[2 * BYTES];

/* Bytes of three sorts: those of a generator, bytes that are all alike, and words that rule out as many masks as they can. */
static void fill_bytes(unsigned sort, unsigned gap) {
    uint64_t x = 1;
    for (size_t i = 0; i < BYTES; i++) {
        size_t word = i / 2 * gap % 65536;
        x = (x * 1103515245u + 12345) % 2147483648u;
        bytes[i] = sort == 0 ? (uint8_t)(x / 65536) : sort == 1 ? 255 : (uint8_t)(i % 2 ? word : word / 256);
    }
}

/* The shares of the last k nodes of a block, in the order of the lanes. */
static void keep_last(const struct code *c, uint8_t *nodes, uint8_t *kept) {
    size_t w = width(c), part = c->k * w, skipped = (c->n - c->k) * w;
    for (size_t t = 0; t < c->lanes; t++) memcpy(kept + t * part, shares + t * c->n * w + skipped, part);
    for (unsigned i = 0; i < c->k; i++) nodes[i] = (uint8_t)(c->n - c->k + i);
}

/* One block of what is carried: encoded, and recovered; gives the numbers of both calls, and the checksum of the shares added to `sum`. */
static unsigned trip(struct code *c, size_t at, size_t size, uint64_t *sum) {
    static uint8_t nodes[BALANCED_MAX_NODES], kept[MOST];
    size_t whole = c->k * width(c), part = size - at < whole * BALANCED_MAX_LANES ? size - at : whole * BALANCED_MAX_LANES;
    uint8_t one, two;
    c->lanes = (uint32_t)((part + whole - 1) / whole);
    memset(message, 0, message_size(c));
    memcpy(message, symbols + at, part);
    one = balanced_encode(c->record, c->length, c->lanes, message, message_size(c), shares, shares_size(c));
    *sum = (*sum + checksum(shares, shares_size(c))) % 4294967291u;
    keep_last(c, nodes, kept);
    two = balanced_recover(c->record, c->length, c->lanes, nodes, c->k, kept, message_size(c), message, message_size(c));
    memcpy(read_back + at, message, part);
    return one + two;
}

static void carry(struct code *c, size_t count, unsigned sort) {
    size_t size = 0;
    uint64_t sum = 0;
    unsigned refused = balanced_carried_len(c->record, c->length, count, &size);
    fill_bytes(sort, c->top < 256 ? 1 : 65535 - c->top);
    refused += balanced_carry_in(c->record, c->length, bytes, count, symbols, size);
    for (size_t at = 0; at < size; at += c->k * width(c) * BALANCED_MAX_LANES) refused += trip(c, at, size, &sum);
    memset(back, 0, sizeof back);
    refused += balanced_carry_out(c->record, c->length, read_back, size, back, count);
    printf("sort %u: %lu bytes in %lu, symbols sum %llu, shares sum %llu, %s\n", sort, (unsigned long)count, (unsigned long)size,
           (unsigned long long)checksum(symbols, size), (unsigned long long)sum,
           refused ? "refused" : memcmp(back, bytes, count) ? "other bytes" : "the same bytes");
}

int main(int count, char **words) {
    static const unsigned sizes[][2] = { { 6, 5 }, { 15, 10 }, { 12, 8 }, { 255, 120 }, { 254, 127 }, { 240, 200 }, { 2, 1 } };
    size_t most = count > 1 ? (size_t)atoi(words[1]) * 1000 : BYTES;
    for (size_t i = 0; i < sizeof sizes / sizeof *sizes; i++) {
        struct code c = { { 0 }, 0, 0, sizes[i][0], sizes[i][1], 0 };
        uint32_t length = 0;
        if (balanced_choose(c.n, c.k, c.record, sizeof c.record, &length)) return 1;
        c.length = length;
        c.top = length == 4 ? 255 : c.record[1] * 256u + c.record[2] - 1;
        printf("record");
        for (size_t j = 0; j < c.length; j++) printf(" %u", c.record[j]);
        puts("");
        for (unsigned sort = 0; sort < 3; sort++) carry(&c, most - sort, sort);
    }
    return 0;
}
