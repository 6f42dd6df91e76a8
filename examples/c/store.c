/*
 * Cuts the bytes of a file into blocks, of which the last is padded with zeros, encodes each, and keeps its shares node after node, as n
 * nodes would. It drops n-k of them, recovers the message from the k that are left, and compares. Then it rebuilds every share,
 * changes a symbol in all lanes by what each node has to add, and in a run of lanes in place. A file of a whole number of blocks has no
 * padding, and an empty one no block.
 *
 *     make -C examples/c check
 */
#include <stdio.h>
#include <stdlib.h>
#include <string.h>

#include "balanced.h"

/* Bytes as symbols, 15 nodes, any 10 of which give the message back. */
static const uint8_t record[] = { 2, 11, 15, 10 };
enum { LANES = 512 };

static void fail(const char *what, unsigned number) {
    fprintf(stderr, "store: %s (%u)\n", what, number);
    exit(1);
}

static void accepted(const char *call, uint8_t number) {
    if (number == BALANCED_OK) return;
    fprintf(stderr, "store: %s: %s\n", call, balanced_text(number));
    exit(1);
}

static void *room(size_t size) {
    void *p = malloc(size);
    if (p == NULL) fail("no memory", 0);
    return p;
}

/* The whole file; *size receives its length. */
static uint8_t *read_file(const char *path, size_t *size) {
    FILE *file = fopen(path, "rb");
    long end;
    uint8_t *bytes;
    if (file == NULL || fseek(file, 0, SEEK_END) != 0 || (end = ftell(file)) < 0 || fseek(file, 0, SEEK_SET) != 0)
        fail("cannot read the file", 0);
    *size = (size_t)end;
    bytes = room(*size + 1);
    if (fread(bytes, 1, *size, file) != *size) fail("cannot read the file", 0);
    fclose(file);
    return bytes;
}

/* The shares of a message, node after node: what node j keeps stands at j * LANES. */
static void lay_out(size_t n, size_t k, const uint8_t *message, uint8_t *kept) {
    uint8_t *shares = room(n * LANES);
    uint32_t wrong;
    accepted("encode", balanced_encode(record, sizeof record, LANES, message, k * LANES, shares, n * LANES));
    accepted("belongs", balanced_belongs(record, sizeof record, LANES, shares, n * LANES, &wrong));
    if (wrong != LANES) fail("an encoded lane is no word", wrong);
    accepted("to nodes", balanced_to_nodes(record, sizeof record, LANES, shares, n * LANES, kept, n * LANES));
    free(shares);
}

/* One block: all but k nodes are dropped, and everything is got back from those. */
static void keep(size_t n, size_t k, size_t block, const uint8_t *message, const uint8_t *kept) {
    uint8_t *sent = room(k * LANES), *left = room(k * LANES), *nodes = room(k);
    uint8_t *got = room(k * LANES), *share = room(LANES);
    size_t i, j;

    /* the k nodes that are left: others in every block, in no order (7 and 15 have no common divisor) */
    for (i = 0; i < k; i++) {
        nodes[i] = (uint8_t)((block + 7 * i) % n);
        memcpy(sent + i * LANES, kept + nodes[i] * LANES, LANES);
    }
    accepted("listed to lanes", balanced_listed_to_lanes(record, sizeof record, LANES, sent, k * LANES, left, k * LANES));
    accepted("recover", balanced_recover(record, sizeof record, LANES, nodes, k, left, k * LANES, got, k * LANES));
    if (memcmp(got, message, k * LANES) != 0) fail("the recovered message differs", (unsigned)block);

    for (j = 0; j < n; j++) {
        accepted("rebuild", balanced_rebuild(record, sizeof record, LANES, nodes, k, left, k * LANES, (uint32_t)j, share, LANES));
        if (memcmp(share, kept + j * LANES, LANES) != 0) fail("a rebuilt share differs", (unsigned)j);
    }
    free(sent);
    free(left);
    free(nodes);
    free(got);
    free(share);
}

/* Symbol 3 of the message changes in every lane. Each node adds what it is told; d nodes are told something. */
static void change(size_t n, size_t k, size_t d, uint8_t *message, uint8_t *kept) {
    uint8_t *added = room(n * LANES), *anew = room(n * LANES), row[LANES], nothing[LANES] = { 0 };
    size_t j, t, told = 0;

    for (t = 0; t < LANES; t++) row[t] = (uint8_t)(message[3 * LANES + t] + 1);
    accepted("differences", balanced_differences(record, sizeof record, LANES, 3, message + 3 * LANES, LANES, row, LANES, added, n * LANES));
    for (j = 0; j < n; j++) {
        if (memcmp(added + j * LANES, nothing, LANES) == 0) continue;
        accepted("add share", balanced_add_share(record, sizeof record, LANES, added + j * LANES, LANES, kept + j * LANES, LANES));
        told++;
    }
    memcpy(message + 3 * LANES, row, LANES);
    lay_out(n, k, message, anew);
    if (memcmp(kept, anew, n * LANES) != 0) fail("the changed shares differ", 0);
    if (told != d) fail("another number of nodes was told", (unsigned)told);
    free(added);
    free(anew);
}

/* The same in lanes 100 to 199 alone, of shares that stand together, lane after lane; each lane is judged. */
static void change_run(size_t n, size_t k, size_t d, uint8_t *message, uint8_t *kept) {
    uint8_t *shares = room(n * LANES), *anew = room(n * LANES), *old = message + 3 * LANES + 100, run[100];
    uint32_t altered;

    accepted("to lanes", balanced_to_lanes(record, sizeof record, LANES, kept, n * LANES, shares, n * LANES));
    memset(run, 0xff, sizeof run);
    accepted("update lanes", balanced_update_lanes(record, sizeof record, LANES, 3, 100, old, sizeof run, run, sizeof run, shares, n * LANES, &altered));
    if (altered % d != 0) fail("another number of nodes was altered", altered);
    memcpy(old, run, sizeof run);
    lay_out(n, k, message, anew);
    accepted("to nodes", balanced_to_nodes(record, sizeof record, LANES, shares, n * LANES, kept, n * LANES));
    if (memcmp(kept, anew, n * LANES) != 0) fail("the updated shares differ", 0);
    free(shares);
    free(anew);
}

int main(int argc, char **argv) {
    uint8_t numbers[BALANCED_PLAN_NUMBERS], shifts[BALANCED_PLAN_SHIFTS], firsts[BALANCED_PLAN_FIRSTS];
    uint16_t base[BALANCED_PLAN_BASE];
    size_t n, k, d, size, blocks, i;
    uint8_t *bytes, *message, *kept;

    if (argc != 2) {
        fprintf(stderr, "usage: store FILE\n");
        return 2;
    }
    accepted("plan", balanced_plan(record, sizeof record, numbers, sizeof numbers, shifts, sizeof shifts,
                                   firsts, sizeof firsts, base, BALANCED_PLAN_BASE));
    n = numbers[0];
    k = numbers[1];
    d = numbers[2];
    bytes = read_file(argv[1], &size);
    blocks = (size + k * LANES - 1) / (k * LANES);
    message = room(k * LANES);
    kept = room(n * LANES);
    for (i = 0; i < blocks; i++) {
        size_t start = i * k * LANES, part = size - start < k * LANES ? size - start : k * LANES;
        memset(message, 0, k * LANES);
        memcpy(message, bytes + start, part);
        lay_out(n, k, message, kept);
        keep(n, k, i, message, kept);
        change(n, k, d, message, kept);
        change_run(n, k, d, message, kept);
    }
    printf("%lu bytes in %lu blocks: %lu of %lu shares dropped, every message and share got back\n", (unsigned long)size,
           (unsigned long)blocks, (unsigned long)(n - k), (unsigned long)n);
    free(bytes);
    free(message);
    free(kept);
    return 0;
}
