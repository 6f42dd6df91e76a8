/* One symbol of large blocks changes in every lane: what each node has to add, by checksums, and the shares where each has added it, or where Update has
   gone over all lanes at once; and in a run of lanes.
   tests/reference/large_changes.py prints the same lines by another implementation. */
#include "large.h"

static uint8_t row[MOST], added[MOST], by_node[MOST];

/* Update for a run of lanes, from what the message has to what the row has. */
static void update_run(const struct code *c, unsigned symbol, uint32_t first, uint32_t run) {
    uint8_t *old = message + ((size_t)symbol * c->lanes + first) * width(c);
    uint32_t altered = 0;
    uint8_t number = balanced_update_lanes(c->record, c->length, c->lanes, symbol, first, old, run * width(c), row + first * width(c), run * width(c), shares, shares_size(c), &altered);
    printf("lanes %u and %u more: ", (unsigned)first, (unsigned)(run - 1));
    if (number != BALANCED_OK) printf("refused %u\n", number);
    else printf("altered %u, sum %llu\n", (unsigned)altered, (unsigned long long)checksum(shares, shares_size(c)));
    if (number == BALANCED_OK) memcpy(old, row + first * width(c), run * width(c));
}

/* Row `symbol` of the message moves so many symbols up. */
static void change_row(const struct code *c, unsigned symbol, unsigned up) {
    size_t part = share_size(c), size = shares_size(c), at = (size_t)symbol * c->lanes;
    uint8_t *old = message + at * width(c), one, two = BALANCED_OK;
    for (size_t t = 0; t < c->lanes; t++) put_symbol(c, row, t, (symbol_at(c, message, at + t) + up) % (c->top + 1));
    memset(added, 0, size);
    one = balanced_differences(c->record, c->length, c->lanes, symbol, old, part, row, part, added, size);
    balanced_to_nodes(c->record, c->length, c->lanes, shares, size, by_node, size);
    for (unsigned j = 0; j < c->n; j++) two |= balanced_add_share(c->record, c->length, c->lanes, added + j * part, part, by_node + j * part, part);
    printf("row %u by %u: ", symbol, up);
    if (one != BALANCED_OK || two != BALANCED_OK) printf("refused %u and %u\n", one, two);
    else printf("differences sum %llu, added sum %llu\n", (unsigned long long)checksum(added, size), (unsigned long long)checksum(by_node, size));
    update_run(c, symbol, 0, c->lanes);
    balanced_to_nodes(c->record, c->length, c->lanes, shares, size, added, size);
    if (one == BALANCED_OK && memcmp(added, by_node, size)) puts("ANOTHER");
}

static void block(const struct code *c) {
    encode_block(c);
    print_code(c);
    change_row(c, 0, 1);
    change_row(c, c->k - 1, 3);
    for (size_t t = 0; t < c->lanes; t++) put_symbol(c, row, t, (uint32_t)(t % 2));
    update_run(c, c->k / 2, c->lanes / 3, c->lanes / 3 + 1);
}

int main(int count, char **words) { return each_code(count, words, block); }
