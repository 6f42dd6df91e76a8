/* Our calls, in the builds of the library, each loaded as a shared object. */
#include "bench.h"
#include "balanced.h"
#include <dlfcn.h>

static struct calls {
    __typeof__(balanced_plan) *plan;
    __typeof__(balanced_encode) *encode;
    __typeof__(balanced_update) *update;
    __typeof__(balanced_recover) *recover;
    __typeof__(balanced_rebuild) *rebuild;
    __typeof__(balanced_belongs) *belongs;
    __typeof__(balanced_correct) *correct;
} loaded[MOST_BUILDS];
static const struct calls *ours;
struct method builds[MOST_BUILDS];
int build_count;

void take_build(const struct method *build) { ours = &loaded[build - builds]; }

void read_plan(void) {
    uint8_t numbers[BALANCED_PLAN_NUMBERS], shifts[BALANCED_PLAN_SHIFTS], firsts[BALANCED_PLAN_FIRSTS];
    uint16_t base[BALANCED_PLAN_BASE];
    if (loaded->plan(record, length, numbers, sizeof numbers, shifts, sizeof shifts, firsts, sizeof firsts, base, BALANCED_PLAN_BASE)) fail("no plan");
    for (int j = 0; j < n; j++)
        for (int r = 0; r < k; r++) planned.generator[j * k + r] = (uint8_t)base[(j + shifts[r]) % n];
}

/* The shares, as the build has them. */
static int by_lane(void) { return builds[ours - loaded].by_lane; }
static const uint8_t *held(void) { return by_lane() ? listed_lanes : listed(&planned)[0]; }

static void encode(void) {
    if (ours->encode(record, length, lanes, message, (size_t)k * lanes, out, (size_t)n * lanes)) fail("encode was turned away");
}
static void update(void) {
    uint32_t count;
    if (ours->update(record, length, lanes, symbol, lane, from, to, work, (size_t)n * lanes, &count)) fail("update was turned away");
}
static void recover(void) {
    if (ours->recover(record, length, lanes, nodes, k, held(), (size_t)k * lanes, out, (size_t)k * lanes)) fail("recover was turned away");
}
static void rebuild(void) {
    if (ours->rebuild(record, length, lanes, nodes, k, held(), (size_t)k * lanes, 0, out, lanes)) fail("rebuild was turned away");
}
static void test(void) {
    uint32_t wrong;
    if (ours->belongs(record, length, lanes, by_lane() ? planned.lanes : planned.shares, (size_t)n * lanes, &wrong)) fail("belongs was turned away");
    belongs = wrong == (uint32_t)lanes;
}
static void correct(void) {
    uint32_t count;
    if (ours->correct(record, length, lanes, work, (size_t)n * lanes, &count)) fail("correct was turned away");
    altered = count;
}
static void correct_wrong(void) {
    spoil();
    correct();
}
static void plan(void) {
    uint8_t numbers[BALANCED_PLAN_NUMBERS], shifts[BALANCED_PLAN_SHIFTS], firsts[BALANCED_PLAN_FIRSTS];
    uint16_t base[BALANCED_PLAN_BASE];
    if (ours->plan(record, length, numbers, sizeof numbers, shifts, sizeof shifts, firsts, sizeof firsts, base, BALANCED_PLAN_BASE)) fail("plan was turned away");
    for (int j = 0; j < n; j++) out[j] = (uint8_t)base[j];
}

static void *found(void *object, const char *name) {
    void *function = dlsym(object, name);
    if (!function) fail(name);
    return function;
}

void load_build(const char *name, const char *path) {
    if (build_count == MOST_BUILDS) fail("too many builds");
    void *object = dlopen(path, RTLD_NOW | RTLD_LOCAL);
    if (!object) fail(dlerror());
    struct calls *c = &loaded[build_count];
    c->plan = found(object, "balanced_plan");
    c->encode = found(object, "balanced_encode");
    c->update = found(object, "balanced_update");
    c->recover = found(object, "balanced_recover");
    c->rebuild = found(object, "balanced_rebuild");
    c->belongs = found(object, "balanced_belongs");
    /* a build from before these calls has no Correct, and shares node after node */
    c->correct = dlsym(object, "balanced_correct");
    int lane_after_lane = dlsym(object, "balanced_to_lanes") != NULL;
    builds[build_count++] = (struct method){name, 1, lane_after_lane, &planned, NULL,
        {encode, update, recover, rebuild, test, c->correct ? correct : NULL, c->correct ? correct_wrong : NULL, plan}, {NULL}};
}
