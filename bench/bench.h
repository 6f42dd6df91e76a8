/* What the methods share: the code at hand, the buffers, and what a method is. */
#ifndef BENCH_H
#define BENCH_H

#include <stdint.h>
#include <string.h>

enum { MAX = 255, MOST_LANES = 4096 };
enum { ENCODE, UPDATE, RECOVER, REBUILD, BELONGS, CORRECT, CORRECT_WRONG, PLAN, CALLS };

/* A generator, node by node, and the shares that it makes of the message: node after node, and lane after lane. */
struct layout {
    uint8_t generator[MAX * MAX], *shares, *rows[MAX], *lanes;
};

/* The layout of the plan, and a systematic one: the k nodes in front hold the message, the others the rows of a Cauchy matrix. */
extern struct layout planned, systematic;

/* The code at hand. Recover and Rebuild read the last k nodes, and Rebuild gives node 0. `lost` is the number of data nodes of the
   systematic layout that are not read. */
extern const uint8_t *record;
extern int length, n, k, lanes, prime, lost;
extern uint8_t nodes[MAX], checks[MAX * MAX];

/* The message and its rows, what a call writes and its rows, the shares that Update and Correct change, the answer of Belongs, and the
   number of symbols that Correct altered. */
extern uint8_t *message, *data[MAX], *out, *outs[MAX], *work;
extern int belongs, altered;

/* The plan's shares of the nodes that Recover and Rebuild read, lane after lane, and room for shares that are turned, with its rows. */
extern uint8_t *listed_lanes, *turned, *turned_rows[MAX];

/* Update changes one symbol of one lane. */
extern int symbol, lane;
extern uint8_t from, to;

/* A method: its name, whether it does prime fields, whether its shares stand lane after lane, its layout, what it keeps from call to call (not
   timed), and its calls. Correct is timed on words of the code, and as CORRECT_WRONG on a block that is spoiled before each call. A method that
   is called from C at some cost makes many calls by itself. */
struct method {
    const char *name;
    int primes, by_lane;
    struct layout *layout;
    void (*keep)(void);
    void (*run[CALLS])(void);
    void (*repeat[CALLS])(int runs);
};

extern struct method isal, isal_turned, isal_kept, jerasure, jerasure_turned, jerasure_kept, klauspost, libfec;

/* The builds of the library, shared objects, in the order of their loading. */
enum { MOST_BUILDS = 4 };
extern struct method builds[MOST_BUILDS];
extern int build_count;
void load_build(const char *name, const char *path);

/* The build whose calls are made from here on. */
void take_build(const struct method *build);

/* The generator of the plan, by the first build. */
void read_plan(void);

void fail(const char *what);

/* As many wrong symbols as can be set right, in each of up to 64 lanes of `work`. */
void spoil(void);

/* A table of so many rows of so many bytes, turned: its columns become rows. In squares, so that both sides stay in the cache. */
void turn(const uint8_t *table, int rows, int width, uint8_t *to);

/* The shares of the nodes that Recover and Rebuild read. */
static inline uint8_t **listed(struct layout *y) { return y->rows + (n - k); }

/* The rows of a generator of those nodes. */
static inline const uint8_t *listed_rows(struct layout *y) { return y->generator + (n - k) * k; }

#endif
