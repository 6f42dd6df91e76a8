/* Karn's decoder (libfec) for 255 nodes over the field of 256 elements: it takes every lane, from the last node to the first, and finds the wrong
   symbols by Berlekamp and Massey's algorithm too. Its tables are kept from call to call. */
#include "bench.h"

#ifdef LIBFEC
#include <fec.h>

static void *code;

static void keep(void) {
    if (n == 255 && !code) code = init_rs_char(8, 0x11D, 1, 1, n - k, 0);
}
static void correct(void) {
    altered = 0;
    for (int t = 0; t < lanes; t++) {
        int count = decode_rs_char(code, work + (size_t)t * n, NULL, 0);
        if (count < 0) fail("libfec finds no word");
        altered += count;
    }
}
static void correct_wrong(void) {
    spoil();
    correct();
}

struct method libfec = {"libfec", 0, 1, &planned, keep, {[CORRECT] = correct, [CORRECT_WRONG] = correct_wrong}, {NULL}};
#else
struct method libfec = {"libfec", 0, 1, &planned, NULL, {NULL}, {NULL}};
#endif
