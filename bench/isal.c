/* ISA-L on our generator, with tables and inverses made in each call, and as its users have it: systematic, tables kept.
   Its vector code leaves the upper halves of the registers in use, which slows all that follows. */
#include "bench.h"

#ifdef ISAL
#include <isa-l.h>

static const uint8_t zeros[MAX * MOST_LANES];

static void product(int sources, int results, uint8_t *tables, uint8_t **rows) {
    ec_encode_data(lanes, sources, results, tables, rows, outs);
    if (__builtin_cpu_supports("avx")) __asm__ volatile("vzeroupper");
}

static void product_anew(const uint8_t *matrix, int sources, int results, uint8_t **rows) {
    static uint8_t tables[32 * MAX * MAX];
    ec_init_tables(sources, results, (uint8_t *)matrix, tables);
    product(sources, results, tables, rows);
}

static void invert(struct layout *y, uint8_t *inverse) {
    static uint8_t part[MAX * MAX];
    memcpy(part, listed_rows(y), k * k);
    if (gf_invert_matrix(part, inverse, k)) fail("ISA-L finds no inverse");
}

/* The symbol's change at the nodes from `first` on. */
static void add_change(struct layout *y, int first) {
    for (int j = first; j < n; j++) work[j * lanes + lane] ^= gf_mul(y->generator[j * k + symbol], from ^ to);
}

/* On our generator. */
static void encode(void) { product_anew(planned.generator, k, n, data); }
static void update(void) { add_change(&planned, 0); }
static void recover_from(uint8_t **rows) {
    static uint8_t inverse[MAX * MAX];
    invert(&planned, inverse);
    product_anew(inverse, k, k, rows);
}
static void rebuild_from(uint8_t **rows) {
    static uint8_t inverse[MAX * MAX], row[MAX];
    invert(&planned, inverse);
    memset(row, 0, k);
    for (int r = 0; r < k; r++)
        for (int i = 0; i < k; i++) row[i] ^= gf_mul(planned.generator[r], inverse[r * k + i]);
    product_anew(row, k, 1, rows);
}
static void test_of(uint8_t **rows) {
    product_anew(checks, n, n - k, rows);
    belongs = !memcmp(out, zeros, (size_t)(n - k) * lanes);
}
static void recover(void) { recover_from(listed(&planned)); }
static void rebuild(void) { rebuild_from(listed(&planned)); }
static void test(void) { test_of(planned.rows); }

/* The same where shares stand lane after lane: they are turned before or after. */
static uint8_t **rows_of(const uint8_t *shares, int nodes_there) {
    turn(shares, lanes, nodes_there, turned);
    return turned_rows;
}
static void turned_encode(void) {
    encode();
    turn(out, n, lanes, turned);
}
static void turned_recover(void) { recover_from(rows_of(listed_lanes, k)); }
static void turned_rebuild(void) { rebuild_from(rows_of(listed_lanes, k)); }
static void turned_test(void) { test_of(rows_of(planned.lanes, n)); }

/* Systematic. */
static uint8_t parity[32 * MAX * MAX], inverses[32 * MAX * MAX];
static void keep(void) {
    static uint8_t inverse[MAX * MAX];
    ec_init_tables(k, n - k, systematic.generator + k * k, parity);
    invert(&systematic, inverse);
    ec_init_tables(k, lost, inverse, inverses);
}
static void kept_encode(void) { product(k, n - k, parity, data); }
static void kept_update(void) {
    add_change(&systematic, k);
    work[symbol * lanes + lane] = to;
}
static void kept_recover(void) { product(k, lost, inverses, listed(&systematic)); }
static void kept_rebuild(void) { product(k, 1, inverses, listed(&systematic)); }
static void kept_test(void) {
    product(k, n - k, parity, systematic.rows);
    belongs = !memcmp(out, systematic.rows[k], (size_t)(n - k) * lanes);
}

struct method isal = {"isal", 0, 0, &planned, NULL, {encode, update, recover, rebuild, test}, {NULL}};
struct method isal_turned = {"isal_turned", 0, 1, &planned, NULL, {turned_encode, NULL, turned_recover, turned_rebuild, turned_test}, {NULL}};
struct method isal_kept = {"isal_kept", 0, 0, &systematic, keep, {kept_encode, kept_update, kept_recover, kept_rebuild, kept_test}, {NULL}};
#else
struct method isal = {"isal", 0, 0, &planned, NULL, {NULL}, {NULL}}, isal_turned = {"isal_turned", 0, 1, &planned, NULL, {NULL}, {NULL}};
struct method isal_kept = {"isal_kept", 0, 0, &systematic, NULL, {NULL}, {NULL}};
#endif
