/* One node of large blocks from a few bits of the others, by checksums: what they send, and its share.
   tests/reference/large_repairs.py prints the same lines by another implementation. */
#include "large.h"

static uint8_t by_node[MOST], rows[MOST], share[MOST], nodes[BALANCED_MAX_NODES];

/* A node where so many are missing besides, every second from the third after it on. */
static void repair(const struct code *c, unsigned target, unsigned missing) {
    uint32_t bits = 0, spare = 0;
    uint8_t number = balanced_repair_plan(c->record, c->length, missing, &bits, &spare);
    size_t sent = bits * ((c->lanes + 7u) / 8u), at = 0, part = share_size(c);
    printf("node %u without %u: ", target, missing);
    if (number != BALANCED_OK) {
        printf("refused %u\n", number);
        return;
    }
    for (unsigned i = 0; i < missing; i++) nodes[i] = (uint8_t)((target + 3 + 2 * i) % c->n);
    balanced_to_nodes(c->record, c->length, c->lanes, shares, shares_size(c), by_node, shares_size(c));
    for (unsigned j = 0; j < c->n; j++) {
        if (j == target || memchr(nodes, (int)j, missing)) continue;
        number |= balanced_repair_bits(c->record, c->length, c->lanes, j, target, nodes, missing, by_node + j * part, part, rows + at, sent);
        at += sent;
    }
    number |= balanced_repair_share(c->record, c->length, c->lanes, target, nodes, missing, rows, at, share, part);
    printf("%u bits, %u spare, ", (unsigned)bits, (unsigned)spare);
    if (number != BALANCED_OK) printf("refused %u\n", number);
    else printf("sent sum %llu, share sum %llu%s\n", (unsigned long long)checksum(rows, at), (unsigned long long)checksum(share, part), memcmp(share, by_node + target * part, part) ? ", ANOTHER" : "");
}

static void block(const struct code *c) {
    encode_block(c);
    print_code(c);
    repair(c, c->n - 2, 0);
    repair(c, 1, (c->n - c->k) / 20);
    repair(c, 0, (c->n - c->k) / 3);
}

int main(int count, char **words) { return each_code(count, words, block); }
