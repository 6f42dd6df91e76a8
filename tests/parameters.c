/* Tells the parameters of each call apart. Each call of the header is made once on arguments of its own, and what it returns and writes is
   printed; tests/reference/parameters.py prints the same lines by another implementation. Then it is made again with every two arguments
   of one type exchanged: each such call must end otherwise. So a library that takes one parameter for another prints another line. Two
   lengths that are equal in every accepted call are no such pair: each must be turned away where it is another. And it is made with every
   buffer between two pages that may not be touched: a library that reads or writes beside a buffer is stopped there. */
#define _DEFAULT_SOURCE
#include "balanced.h"
#include <stdio.h>
#include <string.h>
#include <sys/mman.h>
#include <unistd.h>

enum { ROOM = 1024, MOST = 12 };
enum type { BYTES, PAIRS, WORDS, SIZES, LENGTH, NUMBER };
enum { P = 271, ROOT = 268, N = 15, K = 10, LANES = 6, SYMBOL = 4, LANE = 2, TARGET = 12, NEW = 200, WRONG = 77, RUN = 3 };
enum { RECORD_LEN = 7, W = 2, AT = SYMBOL * LANES + LANE, OLD = (17 * AT * AT + 5 * AT + 1) % P };

/* All that a call is lent. Every buffer has room for every length. */
static struct memory {
    uint8_t record[ROOM], one[ROOM], two[ROOM], three[ROOM];
    uint16_t pairs[ROOM];
    uint32_t first[ROOM], second[ROOM], third[ROOM];
    size_t size;
} lent, start, straight;

/* An argument: where a buffer begins, or a number. A name stands with what a call writes. */
struct argument {
    enum type type;
    void *at;
    size_t value;
    const char *written;
};

struct call {
    const char *name;
    uint8_t (*run)(const struct argument *a);
    void (*set)(void);
    struct argument given[MOST];
};

static uint32_t u32(const struct argument *a) { return (uint32_t)a->value; }

static uint8_t run_plan(const struct argument *a) {
    return balanced_plan(a[0].at, a[1].value, a[2].at, a[3].value, a[4].at, a[5].value, a[6].at, a[7].value, a[8].at, a[9].value);
}
static uint8_t run_encode(const struct argument *a) {
    return balanced_encode(a[0].at, a[1].value, u32(a + 2), a[3].at, a[4].value, a[5].at, a[6].value);
}
static uint8_t run_update(const struct argument *a) {
    return balanced_update(a[0].at, a[1].value, u32(a + 2), u32(a + 3), u32(a + 4), u32(a + 5), u32(a + 6), a[7].at, a[8].value, a[9].at);
}
static uint8_t run_recover(const struct argument *a) {
    return balanced_recover(a[0].at, a[1].value, u32(a + 2), a[3].at, a[4].value, a[5].at, a[6].value, a[7].at, a[8].value);
}
static uint8_t run_rebuild(const struct argument *a) {
    return balanced_rebuild(a[0].at, a[1].value, u32(a + 2), a[3].at, a[4].value, a[5].at, a[6].value, u32(a + 7), a[8].at, a[9].value);
}
static uint8_t run_repair_plan(const struct argument *a) { return balanced_repair_plan(a[0].at, a[1].value, u32(a + 2), a[3].at, a[4].at); }
static uint8_t run_repair_bits(const struct argument *a) {
    return balanced_repair_bits(a[0].at, a[1].value, u32(a + 2), u32(a + 3), u32(a + 4), a[5].at, a[6].value, a[7].at, a[8].value, a[9].at, a[10].value);
}
static uint8_t run_repair_share(const struct argument *a) {
    return balanced_repair_share(a[0].at, a[1].value, u32(a + 2), u32(a + 3), a[4].at, a[5].value, a[6].at, a[7].value, a[8].at, a[9].value);
}
static uint8_t run_belongs(const struct argument *a) {
    return balanced_belongs(a[0].at, a[1].value, u32(a + 2), a[3].at, a[4].value, a[5].at);
}
static uint8_t run_find_update(const struct argument *a) {
    return balanced_find_update(a[0].at, a[1].value, a[2].at, a[3].value, a[4].at, a[5].value, a[6].at, a[7].at, a[8].at);
}
static uint8_t run_correct(const struct argument *a) {
    return balanced_correct(a[0].at, a[1].value, u32(a + 2), a[3].at, a[4].value, a[5].at);
}
static uint8_t run_correct_listed(const struct argument *a) {
    return balanced_correct_listed(a[0].at, a[1].value, u32(a + 2), a[3].at, a[4].value, a[5].at, a[6].value, a[7].at, a[8].value, a[9].at, a[10].value, a[11].at);
}
static uint8_t run_mends(const struct argument *a) {
    return balanced_mends(a[0].at, a[1].value, a[2].at, a[3].value, a[4].at, a[5].value, a[6].at, a[7].value, a[8].at);
}
static uint8_t run_to_lanes(const struct argument *a) {
    return balanced_to_lanes(a[0].at, a[1].value, u32(a + 2), a[3].at, a[4].value, a[5].at, a[6].value);
}
static uint8_t run_to_nodes(const struct argument *a) {
    return balanced_to_nodes(a[0].at, a[1].value, u32(a + 2), a[3].at, a[4].value, a[5].at, a[6].value);
}
static uint8_t run_listed_to_lanes(const struct argument *a) {
    return balanced_listed_to_lanes(a[0].at, a[1].value, u32(a + 2), a[3].at, a[4].value, a[5].at, a[6].value);
}
static uint8_t run_listed_to_nodes(const struct argument *a) {
    return balanced_listed_to_nodes(a[0].at, a[1].value, u32(a + 2), a[3].at, a[4].value, a[5].at, a[6].value);
}
static uint8_t run_differences(const struct argument *a) {
    return balanced_differences(a[0].at, a[1].value, u32(a + 2), u32(a + 3), a[4].at, a[5].value, a[6].at, a[7].value, a[8].at, a[9].value);
}
static uint8_t run_add_share(const struct argument *a) {
    return balanced_add_share(a[0].at, a[1].value, u32(a + 2), a[3].at, a[4].value, a[5].at, a[6].value);
}
static uint8_t run_update_lanes(const struct argument *a) {
    return balanced_update_lanes(a[0].at, a[1].value, u32(a + 2), u32(a + 3), u32(a + 4), a[5].at, a[6].value, a[7].at, a[8].value, a[9].at, a[10].value, a[11].at);
}
static uint8_t run_weights(const struct argument *a) { return balanced_weights(a[0].at, a[1].value, a[2].at, a[3].value); }
static uint8_t run_carried_len(const struct argument *a) { return balanced_carried_len(a[0].at, a[1].value, a[2].value, a[3].at); }
static uint8_t run_carry_in(const struct argument *a) { return balanced_carry_in(a[0].at, a[1].value, a[2].at, a[3].value, a[4].at, a[5].value); }
static uint8_t run_carry_out(const struct argument *a) { return balanced_carry_out(a[0].at, a[1].value, a[2].at, a[3].value, a[4].at, a[5].value); }
static uint8_t run_carry_change(const struct argument *a) {
    return balanced_carry_change(a[0].at, a[1].value, a[2].value, a[3].value, a[4].at, a[5].value, a[6].at, a[7].value);
}
static uint8_t run_choose(const struct argument *a) { return balanced_choose(u32(a), u32(a + 1), a[2].at, a[3].value, a[4].at); }
static uint8_t run_start(const struct argument *a) { return balanced_roster_start(a[0].at, a[1].value, a[2].at, a[3].value); }
static uint8_t run_leave(const struct argument *a) { return balanced_roster_leave(a[0].at, a[1].value, a[2].at, a[3].value, u32(a + 4)); }
static uint8_t run_rejoin(const struct argument *a) { return balanced_roster_rejoin(a[0].at, a[1].value, a[2].at, a[3].value, u32(a + 4)); }
static uint8_t run_lowest(const struct argument *a) {
    return balanced_roster_lowest(a[0].at, a[1].value, a[2].at, a[3].value, a[4].at, a[5].value, a[6].at);
}
static uint8_t run_job(const struct argument *a) {
    return balanced_roster_job(a[0].at, a[1].value, a[2].at, a[3].value, a[4].at, a[5].value, a[6].at);
}

/* What stands in the buffers before a call. */
static unsigned symbol(unsigned i) { return (17 * i * i + 5 * i + 1) % P; }
static void set_symbols(uint8_t *s, unsigned count) {
    for (unsigned i = 0; i < count; i++) {
        s[W * i] = (uint8_t)(symbol(i) / 256);
        s[W * i + 1] = (uint8_t)symbol(i);
    }
}
static void set_plain(void) { set_symbols(lent.one, N * LANES); }
static void set_shares(void) {
    set_symbols(lent.two, K * LANES);
    balanced_encode(lent.record, RECORD_LEN, LANES, lent.two, W * K * LANES, lent.one, W * N * LANES);
}
/* a row of the message, old and new, from a lane on, beside the shares */
static void set_row(unsigned lane) {
    uint8_t message[ROOM];
    set_symbols(message, K * LANES);
    balanced_encode(lent.record, RECORD_LEN, LANES, message, W * K * LANES, lent.three, W * N * LANES);
    memcpy(lent.one, message + W * (SYMBOL * LANES + lane), W * (LANES - lane));
    memcpy(lent.two, message, W * (LANES - lane));
}
static void set_change(void) { set_row(0); }
static void set_run(void) { set_row(LANE); }
static void set_listed(void) {
    for (unsigned i = 0; i < K; i++) lent.one[i] = (uint8_t)((7 * i + 3) % N);
    set_symbols(lent.two, K * LANES);
}
/* 51 nodes over bytes, of which two are missing beside the target: four bits of a symbol, in four planes of three bytes for 20 lanes */
enum { BYTE_NODES = 51, BYTE_RECORD_LEN = 4, MISSING = 2, BYTE_LANES = 20, BYTE_NODE = 5, SENT = 4 * 3, ROWS = (BYTE_NODES - 1 - MISSING) * SENT };
static void set_repair(void) {
    static const uint8_t record[BYTE_RECORD_LEN] = { 2, 32, BYTE_NODES, 18 };
    memset(lent.record, 0, ROOM);
    memcpy(lent.record, record, sizeof record);
    lent.one[0] = 7;
    lent.one[1] = 44;
    for (unsigned i = 0; i < ROWS; i++) lent.two[i] = (uint8_t)(13 * i * i + 7 * i + 1);
}
/* two lanes that lie one update apart */
static void set_two_lanes(void) {
    uint32_t altered;
    set_shares();
    memcpy(lent.two, lent.one, ROOM);
    balanced_update(lent.record, RECORD_LEN, LANES, SYMBOL, 0, symbol(SYMBOL * LANES), NEW, lent.two, W * N * LANES, &altered);
}
/* a block and a lane with one wrong symbol */
static void damage(size_t place) {
    set_shares();
    lent.one[W * place] = 0;
    lent.one[W * place + 1] = WRONG;
    memset(lent.two, 0, ROOM);
}
static void set_damaged(void) { damage(LANE * N + 3); }
static void set_one_damaged(void) { damage(3); }
/* two nodes more than are needed, one of which is wrong in half of the lanes and another in one lane */
enum { LISTED = K + 2 };
static void set_some_wrong(void) {
    set_shares();
    memcpy(lent.three, lent.one, ROOM);
    for (unsigned i = 0; i < LISTED; i++) lent.one[i] = (uint8_t)((7 * i + 3) % N);
    for (unsigned t = 0; t < LANES; t++)
        for (unsigned i = 0; i < LISTED; i++) memcpy(lent.two + W * (t * LISTED + i), lent.three + W * (t * N + lent.one[i]), W);
    for (unsigned t = 0; t < LANES; t += 2) lent.two[W * (t * LISTED + 5) + 1] ^= 1;
    lent.two[W * (LISTED + 8) + 1] ^= 1;
    memset(lent.three, 0, ROOM);
}
/* a message of one symbol: few enough messages to count */
static void set_small(void) { lent.record[RECORD_LEN - 1] = 1; }
/* a prime that carries bytes, an odd number of bytes of which some are no symbols, and the symbols that carry them */
enum { CARRIED = 41, CARRYING = 44 };
static void set_carried_bytes(void) {
    static const uint8_t record[RECORD_LEN] = { 3, 255, 241, 15, 41, 16, 8 };
    memcpy(lent.record, record, sizeof record);
    for (unsigned i = 0; i < CARRIED; i++) lent.one[i] = (uint8_t)(i % 7 < 2 ? 255 : 37 * i + 5);
}
static void set_carrying_symbols(void) {
    set_carried_bytes();
    balanced_carry_in(lent.record, RECORD_LEN, lent.one, CARRIED, lent.two, CARRYING);
    memset(lent.one, 0, ROOM);
}
static void set_changed_bytes(void) {
    set_carrying_symbols();
    for (unsigned i = 0; i < 3; i++) lent.one[i] = (uint8_t)i;
}
static void set_roster(void) {
    balanced_roster_start(lent.record, RECORD_LEN, lent.one, BALANCED_ROSTER);
    balanced_roster_leave(lent.record, RECORD_LEN, lent.one, BALANCED_ROSTER, 1);
    balanced_roster_leave(lent.record, RECORD_LEN, lent.one, BALANCED_ROSTER, TARGET);
}
static void set_job(void) {
    set_roster();
    lent.one[255] = 2;
}

#define RECORD { BYTES, lent.record, 0, NULL }, { LENGTH, NULL, RECORD_LEN, NULL }
#define BYTE_RECORD { BYTES, lent.record, 0, NULL }, { LENGTH, NULL, BYTE_RECORD_LEN, NULL }
#define READ(buffer, length) { BYTES, lent.buffer, 0, NULL }, { LENGTH, NULL, length, NULL }
#define WRITTEN(type, buffer, length, name) { type, lent.buffer, 0, name }, { LENGTH, NULL, length, NULL }
#define VALUE(x) { NUMBER, NULL, x, NULL }
#define GIVES(buffer, name) { WORDS, lent.buffer, 0, name }
static const struct call calls[] = {
    { "plan", run_plan, NULL, { RECORD, WRITTEN(BYTES, one, 5, "numbers"), WRITTEN(BYTES, two, 255, "shifts"), WRITTEN(BYTES, three, 255, "firsts"), WRITTEN(PAIRS, pairs, 255, "base") } },
    { "encode", run_encode, set_plain, { RECORD, VALUE(LANES), READ(one, W * K * LANES), WRITTEN(BYTES, two, W * N * LANES, "shares") } },
    { "update", run_update, set_shares, { RECORD, VALUE(LANES), VALUE(SYMBOL), VALUE(LANE), VALUE(OLD), VALUE(NEW), WRITTEN(BYTES, one, W * N * LANES, "shares"), GIVES(first, "altered") } },
    { "recover", run_recover, set_listed, { RECORD, VALUE(LANES), READ(one, K), READ(two, W * K * LANES), WRITTEN(BYTES, three, W * K * LANES, "message") } },
    { "rebuild", run_rebuild, set_listed, { RECORD, VALUE(LANES), READ(one, K), READ(two, W * K * LANES), VALUE(TARGET), WRITTEN(BYTES, three, W * LANES, "share") } },
    { "repair_plan", run_repair_plan, set_repair, { BYTE_RECORD, VALUE(MISSING), GIVES(first, "bits"), GIVES(second, "spare") } },
    { "repair_bits", run_repair_bits, set_repair, { BYTE_RECORD, VALUE(BYTE_LANES), VALUE(BYTE_NODE), VALUE(TARGET), READ(one, MISSING), READ(two, BYTE_LANES), WRITTEN(BYTES, three, SENT, "bits") } },
    { "repair_share", run_repair_share, set_repair, { BYTE_RECORD, VALUE(BYTE_LANES), VALUE(TARGET), READ(one, MISSING), READ(two, ROWS), WRITTEN(BYTES, three, BYTE_LANES, "share") } },
    { "belongs", run_belongs, set_damaged, { RECORD, VALUE(LANES), READ(one, W * N * LANES), GIVES(first, "first_wrong") } },
    { "find_update", run_find_update, set_two_lanes, { RECORD, READ(one, W * N), READ(two, W * N), GIVES(first, "answer"), GIVES(second, "symbol"), GIVES(third, "amount") } },
    { "correct", run_correct, set_damaged, { RECORD, VALUE(LANES), WRITTEN(BYTES, one, W * N * LANES, "shares"), GIVES(first, "altered") } },
    { "correct_listed", run_correct_listed, set_some_wrong, { RECORD, VALUE(LANES), READ(one, LISTED), READ(two, W * LISTED * LANES), WRITTEN(BYTES, three, W * K * LANES, "message"), WRITTEN(WORDS, first, LISTED, "wrong"), GIVES(second, "altered") } },
    { "mends", run_mends, set_one_damaged, { RECORD, READ(one, W * N), WRITTEN(BYTES, two, N, "nodes"), WRITTEN(BYTES, three, W * N, "symbols"), GIVES(first, "count") } },
    { "to_lanes", run_to_lanes, set_plain, { RECORD, VALUE(LANES), READ(one, W * N * LANES), WRITTEN(BYTES, two, W * N * LANES, "by_lane") } },
    { "to_nodes", run_to_nodes, set_plain, { RECORD, VALUE(LANES), READ(one, W * N * LANES), WRITTEN(BYTES, two, W * N * LANES, "by_node") } },
    { "listed_to_lanes", run_listed_to_lanes, set_plain, { RECORD, VALUE(LANES), READ(one, W * K * LANES), WRITTEN(BYTES, two, W * K * LANES, "by_lane") } },
    { "listed_to_nodes", run_listed_to_nodes, set_plain, { RECORD, VALUE(LANES), READ(one, W * K * LANES), WRITTEN(BYTES, two, W * K * LANES, "by_node") } },
    { "differences", run_differences, set_change, { RECORD, VALUE(LANES), VALUE(SYMBOL), READ(one, W * LANES), READ(two, W * LANES), WRITTEN(BYTES, three, W * N * LANES, "differences") } },
    { "add_share", run_add_share, set_change, { RECORD, VALUE(LANES), READ(one, W * LANES), WRITTEN(BYTES, two, W * LANES, "share") } },
    { "update_lanes", run_update_lanes, set_run, { RECORD, VALUE(LANES), VALUE(SYMBOL), VALUE(LANE), READ(one, W * RUN), READ(two, W * RUN), WRITTEN(BYTES, three, W * N * LANES, "shares"), GIVES(first, "altered") } },
    { "weights", run_weights, set_small, { RECORD, WRITTEN(WORDS, first, N + 1, "counts") } },
    { "carried_len", run_carried_len, set_carried_bytes, { RECORD, { LENGTH, NULL, CARRIED, NULL }, { SIZES, &lent.size, 0, "carried_len" } } },
    { "carry_in", run_carry_in, set_carried_bytes, { RECORD, READ(one, CARRIED), WRITTEN(BYTES, two, CARRYING, "symbols") } },
    { "carry_out", run_carry_out, set_carrying_symbols, { RECORD, READ(two, CARRYING), WRITTEN(BYTES, one, CARRIED, "bytes") } },
    { "carry_change", run_carry_change, set_changed_bytes, { RECORD, { LENGTH, NULL, CARRIED, NULL }, { LENGTH, NULL, 9, NULL }, READ(one, 3), WRITTEN(BYTES, two, CARRYING, "symbols") } },
    { "choose", run_choose, NULL, { VALUE(N + 1), VALUE(K), WRITTEN(BYTES, one, BALANCED_RECORD, "record"), GIVES(first, "record_len") } },
    { "roster_start", run_start, NULL, { RECORD, WRITTEN(BYTES, one, BALANCED_ROSTER, "roster") } },
    { "roster_leave", run_leave, set_roster, { RECORD, WRITTEN(BYTES, one, BALANCED_ROSTER, "roster"), VALUE(LANE) } },
    { "roster_rejoin", run_rejoin, set_roster, { RECORD, WRITTEN(BYTES, one, BALANCED_ROSTER, "roster"), VALUE(TARGET) } },
    { "roster_lowest", run_lowest, set_roster, { RECORD, READ(one, BALANCED_ROSTER), WRITTEN(BYTES, two, K, "list"), GIVES(first, "enough") } },
    { "roster_job", run_job, set_job, { RECORD, WRITTEN(BYTES, one, BALANCED_ROSTER, "roster"), WRITTEN(BYTES, two, K, "list"), GIVES(first, "enough") } },
};

/* The arguments of a call end before the first that is none. */
static size_t count_of(const struct call *c) {
    size_t count = 0;
    while (count < MOST && (c->given[count].at || c->given[count].value)) count++;
    return count;
}

static uint8_t made(const struct call *c, const struct argument *a) {
    lent = start;
    return c->run(a);
}

static void prepare(const struct call *c) {
    static const uint8_t record[RECORD_LEN] = { 3, P / 256, P % 256, ROOT / 256, ROOT % 256, N, K };
    memset(&lent, 0, sizeof lent);
    memcpy(lent.record, record, sizeof record);
    if (c->set) c->set();
    start = lent;
}

static unsigned long number_at(const struct argument *a, size_t i) {
    if (a->type == BYTES) return ((const uint8_t *)a->at)[i];
    if (a->type == SIZES) return (unsigned long)((const size_t *)a->at)[i];
    return a->type == PAIRS ? ((const uint16_t *)a->at)[i] : (unsigned long)((const uint32_t *)a->at)[i];
}

static void print(const struct call *c, uint8_t number) {
    printf("%s %u\n", c->name, number);
    for (size_t i = 0; i < count_of(c); i++) {
        const struct argument *a = c->given + i;
        size_t length = i + 1 < MOST && c->given[i + 1].type == LENGTH ? c->given[i + 1].value : 1;
        if (!a->written) continue;
        printf("  %s", a->written);
        for (size_t j = 0; j < length; j++) printf(" %lu", number_at(a, j));
        puts("");
    }
}

/* Two lengths of one value: 8 where one of them is another, whichever it is. */
static int only_length(const struct call *c, size_t i) {
    struct argument a[MOST];
    memcpy(a, c->given, sizeof a);
    a[i].value--;
    return made(c, a) == BALANCED_LENGTH && !memcmp(&lent, &start, sizeof lent);
}

/* Whether the call ends otherwise where the two are exchanged. */
static int told_apart(const struct call *c, uint8_t number, size_t i, size_t j) {
    struct argument a[MOST];
    memcpy(a, c->given, sizeof a);
    a[i] = c->given[j];
    a[j] = c->given[i];
    if (a[i].type == LENGTH && a[i].value == a[j].value) return only_length(c, i) && only_length(c, j);
    return made(c, a) != number || memcmp(&lent, &straight, sizeof lent);
}

/* Memory of so many bytes between two pages that may not be touched, that ends at the second or begins at the first. */
static uint8_t *guarded(size_t size, int at_end) {
    size_t page = (size_t)sysconf(_SC_PAGESIZE), inside = (size + page - 1) / page * page;
    uint8_t *at = mmap(NULL, inside + 2 * page, PROT_READ | PROT_WRITE, MAP_PRIVATE | MAP_ANONYMOUS, -1, 0);
    if (at == MAP_FAILED || mprotect(at, page, PROT_NONE) || mprotect(at + page + inside, page, PROT_NONE)) return NULL;
    return at_end ? at + page + inside - size : at + page;
}

/* The bytes of the memory that an argument leads to. */
static size_t size_of(const struct call *c, size_t i) {
    static const size_t item[] = { [BYTES] = 1, [PAIRS] = sizeof(uint16_t), [WORDS] = sizeof(uint32_t), [SIZES] = sizeof(size_t) };
    size_t count = i + 1 < MOST && c->given[i + 1].type == LENGTH ? c->given[i + 1].value : 1;
    return c->given[i].at ? count * item[c->given[i].type] : 0;
}

/* Whether the call ends as it did where each buffer has a page beside it that may not be touched. */
static int beside_guards(const struct call *c, uint8_t number, int at_end) {
    struct argument a[MOST];
    int same = 1;
    memcpy(a, c->given, sizeof a);
    lent = start;
    for (size_t i = 0; i < count_of(c); i++) {
        if (!a[i].at) continue;
        if (!(a[i].at = guarded(size_of(c, i), at_end))) return 0;
        memcpy(a[i].at, c->given[i].at, size_of(c, i));
    }
    if (c->run(a) != number) same = 0;
    lent = straight;
    for (size_t i = 0; i < count_of(c); i++)
        if (a[i].at && memcmp(a[i].at, c->given[i].at, size_of(c, i))) same = 0;
    return same;
}

int main(void) {
    unsigned pairs = 0, alike = 0;
    for (const struct call *c = calls; c < calls + sizeof calls / sizeof *calls; c++) {
        prepare(c);
        uint8_t number = made(c, c->given);
        straight = lent;
        print(c, number);
        for (size_t j = 0; j < count_of(c); j++)
            for (size_t i = 0; i < j; i++) {
                if (c->given[i].type != c->given[j].type) continue;
                pairs++;
                if (told_apart(c, number, i, j)) continue;
                alike++;
                printf("%s: arguments %zu and %zu are not told apart\n", c->name, i, j);
            }
        for (int at_end = 0; at_end < 2; at_end++)
            if (!beside_guards(c, number, at_end) && ++alike) printf("%s: ends otherwise beside guard pages\n", c->name);
    }
    printf("%u pairs of one type, %u not told apart\n", pairs, alike);
    return alike != 0;
}
