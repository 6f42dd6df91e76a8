/* Large blocks through the C interface, by checksums: which k are even with n = 255; blocks with the largest n and the largest number of
   lanes, which are encoded, updated, rearranged, damaged, set right, recovered from k of their nodes and rebuilt; and a block with one lane too many.
   tests/reference/large_cases.py prints the same lines by another implementation. */
#include "large.h"

static uint8_t before[MOST], held[MOST], back[MOST], nodes[BALANCED_MAX_NODES];

static void even(void) {
    uint8_t numbers[BALANCED_PLAN_NUMBERS], shifts[BALANCED_PLAN_SHIFTS], firsts[BALANCED_PLAN_FIRSTS];
    uint16_t base[BALANCED_PLAN_BASE];
    printf("even 2 2 255:");
    for (unsigned k = 1; k <= 255; k++) {
        const uint8_t record[4] = { 2, 2, 255, (uint8_t)k };
        uint8_t number = balanced_plan(record, 4, numbers, sizeof numbers, shifts, sizeof shifts, firsts, sizeof firsts, base, BALANCED_PLAN_BASE);
        if (number != BALANCED_OK) printf(" refused %u", number);
        else if (numbers[3] == numbers[4]) printf(" k %u d %u b %u", numbers[1], numbers[2], numbers[3]);
    }
    puts("");
}

/* A refusal, and whether the shares are as they were. */
static void refused(const struct code *c, uint8_t number) {
    printf("refused %u, %s\n", number, memcmp(shares, before, shares_size(c)) ? "CHANGED" : "unchanged");
}

static void encode(const struct code *c) {
    uint8_t number = encode_block(c);
    memset(before, 0, shares_size(c));
    print_code(c);
    printf("encode: ");
    if (number != BALANCED_OK) refused(c, number);
    else printf("done, sum %llu\n", (unsigned long long)checksum(shares, shares_size(c)));
}

static void belongs(const struct code *c) {
    uint32_t wrong;
    uint8_t number = balanced_belongs(c->record, c->length, c->lanes, shares, shares_size(c), &wrong);
    if (number != BALANCED_OK) printf("belongs: refused %u\n", number);
    else if (wrong == c->lanes) puts("belongs: yes");
    else printf("belongs: no, lane %u\n", (unsigned)wrong);
}

/* A symbol of a lane moves so many symbols up. */
static void update(const struct code *c, unsigned symbol, uint32_t lane, unsigned up) {
    size_t at = (size_t)symbol * c->lanes + lane;
    int inside = at < (size_t)c->k * c->lanes;
    uint32_t old = inside ? symbol_at(c, message, at) : 0, new_symbol = (old + up) % (c->top + 1), altered;
    if (inside) put_symbol(c, message, at, new_symbol);
    memcpy(before, shares, shares_size(c));
    printf("update symbol %u lane %u old %u new %u: ", symbol, (unsigned)lane, (unsigned)old, (unsigned)new_symbol);
    uint8_t number = balanced_update(c->record, c->length, c->lanes, symbol, lane, old, new_symbol, shares, shares_size(c), &altered);
    if (number != BALANCED_OK) refused(c, number);
    else printf("altered %u, sum %llu\n", (unsigned)altered, (unsigned long long)checksum(shares, shares_size(c)));
}

/* What k nodes hold, as each keeps it by itself, one after the other; then lane after lane, as Recover and Rebuild take it. */
static void gather(const struct code *c) {
    size_t part = share_size(c);
    balanced_to_nodes(c->record, c->length, c->lanes, shares, shares_size(c), before, shares_size(c));
    for (unsigned i = 0; i < c->k; i++) memcpy(back + i * part, before + nodes[i] * part, part);
    balanced_listed_to_lanes(c->record, c->length, c->lanes, back, message_size(c), held, message_size(c));
}

/* The message from k nodes, `first` and every `step` further, and node 0 from them. */
static void restore(const struct code *c, unsigned first, unsigned step) {
    for (unsigned i = 0; i < c->k; i++) nodes[i] = (uint8_t)((first + i * step) % c->n);
    gather(c);
    uint8_t one = balanced_recover(c->record, c->length, c->lanes, nodes, c->k, held, message_size(c), back, message_size(c));
    printf("from node %u by %u: ", first, step);
    if (one != BALANCED_OK) printf("refused %u ", one);
    else printf("message sum %llu ", (unsigned long long)checksum(back, message_size(c)));
    uint8_t two = balanced_rebuild(c->record, c->length, c->lanes, nodes, c->k, held, message_size(c), 0, back, share_size(c));
    if (two != BALANCED_OK) printf("refused %u\n", two);
    else printf("node 0 sum %llu\n", (unsigned long long)checksum(back, share_size(c)));
}

/* A rearrangement into a buffer of zeros. */
static void rearranged(const struct code *c, const char *name, uint8_t number, const uint8_t *written) {
    size_t kept = 0;
    while (kept < shares_size(c) && written[kept] == 0) kept++;
    if (number != BALANCED_OK) printf("%s: refused %u, %s\n", name, number, kept < shares_size(c) ? "CHANGED" : "unchanged");
    else printf("%s: done, sum %llu\n", name, (unsigned long long)checksum(written, shares_size(c)));
}

/* The shares node after node, and those lane after lane again. */
static void rearrange(const struct code *c) {
    size_t size = shares_size(c);
    memset(held, 0, size);
    memset(back, 0, size);
    uint8_t one = balanced_to_nodes(c->record, c->length, c->lanes, shares, size, held, size);
    rearranged(c, "node after node", one, held);
    uint8_t two = balanced_to_lanes(c->record, c->length, c->lanes, one == BALANCED_OK ? held : shares, size, back, size);
    rearranged(c, "lane after lane", two, back);
}

/* A node's symbol in a lane becomes another. The smallest spoiled lane is named, whichever was spoiled first. */
static void spoil(const struct code *c, unsigned node, uint32_t lane) {
    size_t at = (size_t)lane * c->n + node;
    if (node < c->n) put_symbol(c, shares, at, symbol_at(c, shares, at) ? 0 : 1);
    printf("spoiled node %u lane %u\n", node, (unsigned)lane);
    belongs(c);
}

/* The first nodes of a lane hold other symbols. */
static void spoil_lane(const struct code *c, unsigned wrong, uint32_t lane) {
    for (unsigned j = 0; j < wrong; j++) {
        size_t at = (size_t)lane * c->n + j;
        put_symbol(c, shares, at, symbol_at(c, shares, at) ? 0 : 1);
    }
    printf("spoiled %u nodes of lane %u\n", wrong, (unsigned)lane);
}

static void correct(const struct code *c) {
    uint32_t altered;
    memcpy(before, shares, shares_size(c));
    printf("correct: ");
    uint8_t number = balanced_correct(c->record, c->length, c->lanes, shares, shares_size(c), &altered);
    if (number != BALANCED_OK) refused(c, number);
    else printf("altered %u, sum %llu\n", (unsigned)altered, (unsigned long long)checksum(shares, shares_size(c)));
}

/* The block as it was spoiled; two lanes with as many wrong symbols as can be borne; the last lane with one more. */
static void correct_lanes(const struct code *c) {
    unsigned most = (c->n - c->k) / 2;
    correct(c);
    spoil_lane(c, most, 0);
    spoil_lane(c, most, c->lanes / 2);
    correct(c);
    spoil_lane(c, most, 0);
    spoil_lane(c, most + 1, c->lanes - 1);
    correct(c);
}

static void block(const struct code *c) {
    encode(c);
    belongs(c);
    update(c, 0, 0, 1);
    update(c, 17, c->lanes - 1, 100);
    update(c, 9, 500 % c->lanes, 7);
    update(c, 9, 500 % c->lanes, 0);
    belongs(c);
    restore(c, c->n - c->k, 1);
    restore(c, 0, 7);
    rearrange(c);
    spoil(c, 1, c->lanes - 1);
    spoil(c, 49, 500 % c->lanes);
    spoil(c, 0, 17 % c->lanes);
    spoil(c, 30, 800 % c->lanes);
    correct_lanes(c);
}

int main(int count, char **words) {
    even();
    return each_code(count, words, block);
}
