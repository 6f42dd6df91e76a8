/* Large blocks of which two thirds of the nodes beyond k are listed: the message where some symbols are wrong, by checksums.
   tests/reference/large_listed.py prints the same lines by another implementation. */
#include "large.h"

static uint8_t held[MOST], back[MOST], nodes[BALANCED_MAX_NODES];
static uint32_t wrong[BALANCED_MAX_NODES];

/* The symbol at a place of the list in a lane becomes another. */
static void spoil(const struct code *c, unsigned s, uint32_t lane, unsigned place) {
    size_t at = (size_t)lane * s + place;
    put_symbol(c, held, at, symbol_at(c, held, at) ? 0 : 1);
}

/* The message, and the places that were wrong with the number of lanes of each. */
static void print_message(const struct code *c, unsigned s, unsigned most) {
    uint32_t altered = 0;
    memset(back, 0, message_size(c));
    uint8_t number = balanced_correct_listed(c->record, c->length, c->lanes, nodes, s, held, (size_t)s * share_size(c), back, message_size(c), wrong, s, &altered);
    printf("from %u nodes, %u wrong: ", s, most);
    if (number != BALANCED_OK) {
        printf("refused %u, sum %llu\n", number, (unsigned long long)checksum(back, message_size(c)));
        return;
    }
    printf("altered %u, sum %llu, places", (unsigned)altered, (unsigned long long)checksum(back, message_size(c)));
    for (unsigned i = 0; i < s; i++)
        if (wrong[i]) printf(" %u:%u", i, (unsigned)wrong[i]);
    puts("");
}

/* As many wrong symbols in the first lane and in the last as can be borne, at places one apart; and one more in the last. */
static void block(const struct code *c) {
    unsigned s = c->n - (c->n - c->k) / 3, most = (s - c->k) / 2;
    encode_block(c);
    print_code(c);
    for (unsigned i = 0; i < s; i++) {
        nodes[i] = (uint8_t)(c->n - 1 - i);
        for (size_t t = 0; t < c->lanes; t++) put_symbol(c, held, t * s + i, symbol_at(c, shares, t * c->n + nodes[i]));
    }
    print_message(c, s, 0);
    for (unsigned i = 0; i < most; i++) {
        spoil(c, s, 0, 2 * i % s);
        spoil(c, s, c->lanes - 1, (2 * i + 1) % s);
    }
    print_message(c, s, most);
    spoil(c, s, c->lanes - 1, (2 * most + 1) % s);
    print_message(c, s, most + 1);
}

int main(int count, char **words) { return each_code(count, words, block); }
