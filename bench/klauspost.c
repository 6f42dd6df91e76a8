/* klauspost/reedsolomon as its users have it: systematic, over the same Cauchy matrix, inverses kept, in one thread. A call from C into Go takes
   some microseconds, so many calls are made on the other side. */
#include "bench.h"

#ifdef KLAUSPOST
#include "libklauspost.h"

static void keep(void) { klauspost_keep(n, k, lanes, systematic.rows, data, outs); }
static void test(int runs) { belongs = klauspost_belongs(runs); }

struct method klauspost = {"klauspost", 0, 0, &systematic, keep, {NULL}, {[ENCODE] = klauspost_encode, [RECOVER] = klauspost_recover, [BELONGS] = test}};
#else
struct method klauspost = {"klauspost", 0, 0, &systematic, NULL, {NULL}, {NULL}};
#endif
