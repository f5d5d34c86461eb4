/* What the benchmarks measure with: a clock in ns, and numbers that are the same in every run. */
#include <stdint.h>
#include <time.h>

static double now(void) {
    struct timespec s;
    clock_gettime(CLOCK_MONOTONIC, &s);
    return s.tv_sec * 1e9 + s.tv_nsec;
}

static uint64_t seed = 88172645463325252;
static uint64_t draw(void) {
    seed ^= seed << 13, seed ^= seed >> 7, seed ^= seed << 17;
    return seed;
}
