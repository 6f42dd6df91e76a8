/* Jerasure on our generator, with matrices and inverses made in each call, and as its users have it: systematic, inverses kept. */
#include "bench.h"

#ifdef JERASURE
#include <stdio.h>
#include <jerasure.h>

static const uint8_t zeros[MAX * MOST_LANES];

static void widen(const uint8_t *matrix, int size, int *wide) {
    for (int i = 0; i < size; i++) wide[i] = matrix[i];
}

static void product(int sources, int results, int *matrix, uint8_t **rows) {
    jerasure_matrix_encode(sources, results, 8, matrix, (char **)rows, (char **)outs, lanes);
}

static void product_anew(const uint8_t *matrix, int sources, int results, uint8_t **rows) {
    static int wide[MAX * MAX];
    widen(matrix, sources * results, wide);
    product(sources, results, wide, rows);
}

static void invert(struct layout *y, int *inverse) {
    static int part[MAX * MAX];
    widen(listed_rows(y), k * k, part);
    if (jerasure_invert_matrix(part, inverse, k, 8)) fail("Jerasure finds no inverse");
}

/* The symbol's change at the nodes from `first` on. */
static void add_change(struct layout *y, int first) {
    for (int j = first; j < n; j++) work[j * lanes + lane] ^= galois_single_multiply(y->generator[j * k + symbol], from ^ to, 8);
}

/* On our generator. */
static void encode(void) { product_anew(planned.generator, k, n, data); }
static void update(void) { add_change(&planned, 0); }
static void recover_from(uint8_t **rows) {
    static int inverse[MAX * MAX];
    invert(&planned, inverse);
    product(k, k, inverse, rows);
}
static void rebuild_from(uint8_t **rows) {
    static int inverse[MAX * MAX], row[MAX];
    invert(&planned, inverse);
    memset(row, 0, sizeof row);
    for (int r = 0; r < k; r++)
        for (int i = 0; i < k; i++) row[i] ^= galois_single_multiply(planned.generator[r], inverse[r * k + i], 8);
    product(k, 1, row, rows);
}
static void test_of(uint8_t **rows) {
    product_anew(checks, n, n - k, rows);
    belongs = !memcmp(out, zeros, (size_t)(n - k) * lanes);
}
static void recover(void) { recover_from(listed(&planned)); }
static void rebuild(void) { rebuild_from(listed(&planned)); }
static void test(void) { test_of(planned.rows); }

/* The same where shares stand lane after lane: they are turned before or after. */
static uint8_t **rows_of(const uint8_t *shares, int nodes_there) {
    turn(shares, lanes, nodes_there, turned);
    return turned_rows;
}
static void turned_encode(void) {
    encode();
    turn(out, n, lanes, turned);
}
static void turned_recover(void) { recover_from(rows_of(listed_lanes, k)); }
static void turned_rebuild(void) { rebuild_from(rows_of(listed_lanes, k)); }
static void turned_test(void) { test_of(rows_of(planned.lanes, n)); }

/* Systematic. */
static int parity[MAX * MAX], inverses[MAX * MAX];
static void keep(void) {
    widen(systematic.generator + k * k, (n - k) * k, parity);
    invert(&systematic, inverses);
}
static void kept_encode(void) { product(k, n - k, parity, data); }
static void kept_update(void) {
    add_change(&systematic, k);
    work[symbol * lanes + lane] = to;
}
static void kept_recover(void) { product(k, lost, inverses, listed(&systematic)); }
static void kept_rebuild(void) { product(k, 1, inverses, listed(&systematic)); }
static void kept_test(void) {
    product(k, n - k, parity, systematic.rows);
    belongs = !memcmp(out, systematic.rows[k], (size_t)(n - k) * lanes);
}

struct method jerasure = {"jerasure", 0, 0, &planned, NULL, {encode, update, recover, rebuild, test}, {NULL}};
struct method jerasure_turned = {"jerasure_turned", 0, 1, &planned, NULL, {turned_encode, NULL, turned_recover, turned_rebuild, turned_test}, {NULL}};
struct method jerasure_kept = {"jerasure_kept", 0, 0, &systematic, keep, {kept_encode, kept_update, kept_recover, kept_rebuild, kept_test}, {NULL}};
#else
struct method jerasure = {"jerasure", 0, 0, &planned, NULL, {NULL}, {NULL}}, jerasure_turned = {"jerasure_turned", 0, 1, &planned, NULL, {NULL}, {NULL}};
struct method jerasure_kept = {"jerasure_kept", 0, 0, &systematic, NULL, {NULL}, {NULL}};
#endif
