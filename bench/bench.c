/* The time of the calls in each build of the library, beside ISA-L, Jerasure, klauspost/reedsolomon and libfec, where they are there. The methods
   run in turn, round after round, the best time of each counts, and all that is written is compared byte for byte with products made one by one.
   bench ROUNDS NAME BUILD.so [NAME BUILD.so].. */
#include "bench.h"
#include <stdio.h>
#include <stdlib.h>
#include <time.h>

static const struct { uint8_t record[5]; int length, n, k; } codes[] = {
    {{2, 11, 15, 10}, 4, 15, 10}, {{2, 32, 51, 34}, 4, 51, 34}, {{2, 2, 255, 120}, 4, 255, 120}, {{1, 251, 6, 250, 125}, 5, 250, 125},
};
static const int all_lanes[] = {1, 16, 64, 256, 1024, 4096};
static const char *const call_names[CALLS] = {"encode", "update", "recover", "rebuild", "belongs", "correct", "correct_wrong", "plan"};
static struct method *const peers[] = {&isal, &isal_turned, &jerasure, &jerasure_turned, &isal_kept, &jerasure_kept, &klauspost, &libfec};
enum { PEERS = sizeof peers / sizeof *peers, METHODS = MOST_BUILDS + PEERS };

struct layout planned, systematic;
const uint8_t *record;
int length, n, k, lanes, prime, lost, belongs, altered, symbol, lane;
uint8_t nodes[MAX], checks[MAX * MAX], *message, *data[MAX], *out, *outs[MAX], *work, from, to, *listed_lanes, *turned, *turned_rows[MAX];

/* The products of the field, and the bytes of the lane that Update changes, before and after. */
static uint8_t products[256][256], states[2][MAX];

void fail(const char *what) {
    fprintf(stderr, "bench: %s\n", what);
    exit(1);
}

void turn(const uint8_t *table, int rows, int width, uint8_t *to) {
    enum { SIDE = 16 };
    for (int i = 0; i < rows; i += SIDE)
        for (int t = 0; t < width; t += SIDE)
            for (int q = t; q < t + SIDE && q < width; q++)
                for (int j = i; j < i + SIDE && j < rows; j++) to[(size_t)q * rows + j] = table[(size_t)j * width + q];
}

/* The processor time that was used, so that other work on the machine counts little. */
static double used(void) {
    struct timespec t;
    clock_gettime(CLOCK_THREAD_CPUTIME_ID, &t);
    return t.tv_sec + 1e-9 * t.tv_nsec;
}

static int plus(int x, int y) { return prime ? (x + y) % prime : x ^ y; }
static int minus(int x, int y) { return prime ? (x + prime - y) % prime : x ^ y; }
static int times(int x, int y) {
    if (prime) return x * y % prime;
    int sum = 0;
    for (; y; y >>= 1, x = (x << 1) ^ (x >> 7) * 0x11D) sum ^= (y & 1) * x;
    return sum;
}
static int inverse(int x) {
    int y = 1;
    while (times(x, y) != 1) y++;
    return y;
}

static void make_systematic(void) {
    for (int j = 0; j < n; j++)
        for (int r = 0; r < k; r++) systematic.generator[j * k + r] = j < k ? j == r : prime ? 0 : inverse(j ^ r);
}

/* The matrices of a code. */
static void read_code(int c) {
    record = codes[c].record, length = codes[c].length, n = codes[c].n, k = codes[c].k;
    prime = record[0] == 1 ? record[1] : 0;
    lost = n - k < k ? n - k : k;
    for (int x = 0; x < (prime ? prime : 256); x++)
        for (int y = 0; y < (prime ? prime : 256); y++) products[x][y] = times(x, y);
    read_plan();
    make_systematic();
    for (int e = 0, power = 1, root = record[length - 3]; e < n - k; e++) {
        power = times(power, root);
        for (int j = 0, x = 1; j < n; j++, x = times(x, power)) checks[e * n + j] = x;
    }
    for (int i = 0; i < k; i++) nodes[i] = n - k + i;
}

static int share(const struct layout *y, int j, int t) {
    int sum = 0;
    for (int r = 0; r < k; r++) sum = plus(sum, products[y->generator[j * k + r]][message[r * lanes + t]]);
    return sum;
}

static void fill_layout(struct layout *y) {
    for (int j = 0; j < n; j++) {
        y->rows[j] = y->shares + (size_t)j * lanes;
        for (int t = 0; t < lanes; t++) y->rows[j][t] = share(y, j, t);
    }
    turn(y->shares, n, lanes, y->lanes);
}

static void fill_buffers(void) {
    for (int i = 0; i < k * lanes; i++) message[i] = rand() % (prime ? prime : 256);
    for (int j = 0; j < n; j++)
        outs[j] = out + (size_t)j * lanes, data[j] = message + (size_t)j * lanes, turned_rows[j] = turned + (size_t)j * lanes;
    fill_layout(&planned);
    turn(listed(&planned)[0], k, lanes, listed_lanes);
    if (!prime) fill_layout(&systematic);
    symbol = k / 2, lane = lanes / 3;
}

/* The lane that Update changes, as it is and with another symbol. */
static void fill_states(const struct layout *y, int by_lane) {
    memcpy(work, by_lane ? y->lanes : y->shares, (size_t)n * lanes);
    from = message[symbol * lanes + lane], to = plus(from, 1);
    for (int j = 0; j < n; j++) {
        states[0][j] = y->rows[j][lane];
        states[1][j] = plus(states[0][j], products[y->generator[j * k + symbol]][minus(to, from)]);
    }
}

/* libfec takes a lane from the last node to the first. */
static int reversed(const struct method *m) { return m == &libfec; }

static void reverse_lanes(void) {
    for (int t = 0; t < lanes; t++)
        for (int i = 0, j = n - 1; i < j; i++, j--) {
            uint8_t *w = work + (size_t)t * n, x = w[i];
            w[i] = w[j], w[j] = x;
        }
}

/* Builds of the library stand first, the peers behind them. */
static struct method *method(int m) { return m < build_count ? &builds[m] : peers[m - build_count]; }
static int methods(void) { return build_count + PEERS; }
static int is_ours(const struct method *m) { return builds <= m && m < builds + build_count; }

/* The block that Correct takes, as the method has it. */
static void fill_lanes(const struct method *m) {
    memcpy(work, planned.lanes, (size_t)n * lanes);
    if (reversed(m)) reverse_lanes();
}

static int spoiled_lanes(void) { return lanes < 64 ? lanes : 64; }
static int wrong_symbols(void) { return (n - k) / 2 * spoiled_lanes(); }

void spoil(void) {
    int some = spoiled_lanes();
    for (int i = 0; i < some; i++)
        for (int j = 0; j < (n - k) / 2; j++) {
            uint8_t *at = work + (size_t)(i * (lanes / some)) * n + (i + 2 * j) % n;
            *at = plus(*at, 1 + (i + j) % 100);
        }
}

/* Whether so many calls wrote what they must. */
static int is_right(int call, const struct method *m, int runs) {
    const struct layout *y = m->layout;
    int front = y == &systematic ? k : 0, recovered = y == &systematic ? lost : k;
    if (call == ENCODE && m->by_lane) return !memcmp(is_ours(m) ? out : turned, y->lanes, (size_t)n * lanes);
    if (call == ENCODE) return !memcmp(out, y->rows[front], (size_t)(n - front) * lanes);
    if (call == RECOVER) return !memcmp(out, message, (size_t)recovered * lanes);
    if (call == REBUILD) return !memcmp(out, y->rows[0], lanes);
    if (call == BELONGS) return belongs;
    if (call == CORRECT || call == CORRECT_WRONG) {
        if (reversed(m)) reverse_lanes();
        return altered == (call == CORRECT_WRONG ? wrong_symbols() : 0) && !memcmp(work, planned.lanes, (size_t)n * lanes);
    }
    if (call == PLAN) {
        for (int j = 0; j < n; j++)
            if (out[j] != y->generator[j * k]) return 0;
        return 1;
    }
    for (int j = 0; j < n; j++)
        if (work[m->by_lane ? lane * n + j : j * lanes + lane] != states[runs % 2][j]) return 0;
    return 1;
}

/* So many calls, after each of which Update's symbols change places. */
static void make_calls(int call, const struct method *m, int runs) {
    if (m->repeat[call]) {
        m->repeat[call](runs);
        return;
    }
    for (int i = 0; i < runs; i++) {
        m->run[call]();
        uint8_t turned = from;
        from = to, to = turned;
    }
}

/* The time of so many calls. */
static double run(int call, const struct method *m, int runs) {
    memset(out, 0xA5, (size_t)n * lanes);
    belongs = 0;
    fill_states(m->layout, m->by_lane);
    if (call == CORRECT || call == CORRECT_WRONG) fill_lanes(m);
    if (is_ours(m)) take_build(m);
    double start = used();
    make_calls(call, m, runs);
    double time = used() - start;
    if (is_right(call, m, runs)) return time;
    fprintf(stderr, "bench: n = %d, k = %d, %d lanes, %s: %s differs\n", n, k, lanes, call_names[call], m->name);
    exit(1);
}

/* The time of one call, from as many as take two milliseconds. */
static double timed(int call, const struct method *m, int *runs) {
    double time;
    while ((time = run(call, m, *runs)) < 0.002) *runs *= 2;
    return time / *runs;
}

/* The peers have no prime fields, and their rows are whole words; libfec has our code for 255 nodes alone. */
static int alone(void) { return prime || lanes < 16; }
static int left_out(int call, const struct method *m) {
    return (!m->run[call] && !m->repeat[call]) || (alone() && !m->primes) || (reversed(m) && n != 255);
}

/* The ratio of two times, where there are both. */
static void print_ratio(double time, double other) {
    if (time && other) printf(" %15.3f", time / other);
    else printf(" %15s", "-");
}

/* A line for a build: its time in microseconds, the millions of bytes of the message a second, and its time over that of each peer, and for
   Correct over that of Belongs. */
static void print_row(int call, int build, const double *best, const double *belongs_times) {
    double time = best[build];
    printf("%5d %5d %6d  %-13s  %-10s %10.2f", n, k, lanes, call_names[call], builds[build].name, time * 1e6);
    if (call == UPDATE || call == PLAN) printf(" %8s", "-");
    else printf(" %8.0f", (double)k * lanes / time / 1e6);
    for (int m = build_count; m < methods(); m++) print_ratio(time, best[m]);
    print_ratio(time, call == CORRECT || call == CORRECT_WRONG ? belongs_times[build] : 0);
    printf("\n");
}

/* The best time of each method; a line for each build that has the call. */
static void measure(int call, int rounds) {
    static double belongs_times[MOST_BUILDS];
    double best[METHODS] = {0};
    int runs[METHODS];
    for (int m = 0; m < methods(); m++) runs[m] = 1;
    for (int round = 0; round < rounds; round++)
        for (int m = 0; m < methods(); m++) {
            if (left_out(call, method(m))) continue;
            double time = timed(call, method(m), &runs[m]);
            if (!best[m] || time < best[m]) best[m] = time;
        }
    if (call == BELONGS) memcpy(belongs_times, best, sizeof belongs_times);
    for (int build = 0; build < build_count; build++)
        if (best[build]) print_row(call, build, best, belongs_times);
    fflush(stdout);
}

static uint8_t *room(void) {
    uint8_t *p = aligned_alloc(4096, MAX * MOST_LANES);
    if (!p) fail("no memory");
    return p;
}

static void print_head(void) {
    printf("%5s %5s %6s  %-13s  %-10s %10s %8s", "n", "k", "lanes", "call", "build", "us", "MB/s");
    for (int m = 0; m < PEERS; m++) printf(" %15s", peers[m]->name);
    printf(" %15s\n", "belongs");
}

int main(int argc, char **argv) {
    if (argc < 4 || argc % 2) fail("bench ROUNDS NAME BUILD.so [NAME BUILD.so]..");
    for (int i = 2; i < argc; i += 2) load_build(argv[i], argv[i + 1]);
    message = room(), out = room(), work = room(), planned.shares = room(), systematic.shares = room();
    planned.lanes = room(), systematic.lanes = room(), listed_lanes = room(), turned = room();
    print_head();
    for (size_t c = 0; c < sizeof codes / sizeof *codes; c++) {
        read_code(c);
        for (size_t l = 0; l < sizeof all_lanes / sizeof *all_lanes; l++) {
            lanes = all_lanes[l];
            fill_buffers();
            for (int m = 0; m < methods(); m++)
                if (method(m)->keep && !alone()) method(m)->keep();
            for (int call = 0; call < CALLS; call++)
                if (call != PLAN || l == 0) measure(call, atoi(argv[1]));
        }
    }
    return 0;
}
