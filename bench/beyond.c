/* Times the comparison of a raw array with a trimmed one beside memcpy and beside the C that one would write: four tests and a float difference. That C isn't exact: where the
 * difference rounds to 2^p it says "within" of readings that are beyond. On the readings below both say the same, which is looked at before anything is timed. Nothing is
 * beyond the limit, so that all is read. Prints ns a reading, and the ratio to that C. */
#include "../include/megharutti.h"
#include "clock.h"
#include <math.h>
#include <stdio.h>
#include <stdlib.h>
#include <string.h>

enum { TURNS = 25 };

#define PLAIN(name, word, real)                                                                   \
    static size_t name(const word *raw, const word *trimmed, size_t n, word mark, double limit) { \
        for (size_t i = 0; i < n; i++) {                                                          \
            real x, y;                                                                            \
            memcpy(&x, raw + i, sizeof x), memcpy(&y, trimmed + i, sizeof y);                     \
            if (raw[i] != mark && trimmed[i] != mark && isfinite(x) && isfinite(y) && fabs((double)x - (double)y) > limit) \
                return i;                                                                         \
        }                                                                                         \
        return n;                                                                                 \
    }
PLAIN(plain_singles, uint32_t, float)
PLAIN(plain_doubles, uint64_t, double)

/* What was sent, and what rounding left of it: air from -50 to 50, 5 % missing. */
struct arrays { uint32_t *raw, *trimmed; uint64_t *wide_raw, *wide_trimmed, *room; };

static void fill(struct arrays a, size_t n, uint32_t mark, uint64_t wide_mark) {
    uint64_t counts[6];
    for (size_t i = 0; i < n; i++) {
        double d = (double)(draw() >> 11) * 0x1p-53 * 100 - 50;
        float f = (float)d;
        int gone = draw() % 20 == 0;
        memcpy(a.raw + i, gone ? (const void *)&mark : &f, 4);
        memcpy(a.wide_raw + i, gone ? (const void *)&wide_mark : &d, 8);
    }
    memcpy(a.trimmed, a.raw, n * 4), memcpy(a.wide_trimmed, a.wide_raw, n * 8);
    megharutti_trim_singles(a.trimmed, n, MEGHARUTTI_ABSOLUTE, -3, mark, counts);
    megharutti_trim_doubles(a.wide_trimmed, n, MEGHARUTTI_ABSOLUTE, -3, wide_mark, counts);
}

static const char *name[] = {"memcpy", "C compare", "compare", "compare by words"};

/* The number of readings read where none is beyond 2^p, and else 0. */
static size_t work(int which, int wide, struct arrays a, size_t n, uint32_t mark, uint64_t wide_mark, int p) {
    uint64_t found[3] = {1, 0, 0};
    if (which == 0)
        memcpy(a.room, wide ? (const void *)a.wide_raw : a.raw, n * (wide ? 8 : 4)), found[0] = 0, found[2] = n;
    else if (which == 1)
        found[2] = wide ? plain_doubles(a.wide_raw, a.wide_trimmed, n, wide_mark, ldexp(1, p)) : plain_singles(a.raw, a.trimmed, n, mark, ldexp(1, p)), found[0] = found[2] < n;
    else if (which == 2)
        wide ? megharutti_first_beyond_doubles(a.wide_raw, n, a.wide_trimmed, n, wide_mark, p, found) : megharutti_first_beyond_singles(a.raw, n, a.trimmed, n, mark, p, found);
    else /* by words alone: the array with itself */
        wide ? megharutti_first_beyond_doubles(a.wide_raw, n, a.wide_raw, n, wide_mark, -1030, found) : megharutti_first_beyond_singles(a.raw, n, a.raw, n, mark, -140, found);
    return found[0] ? 0 : found[2];
}

int main(void) {
    const uint32_t marks[] = {0x7CF00000, 0x7FC00000};
    const uint64_t wide_marks[] = {0x7CF0000000000000, 0x7FF8000000000000};
    for (size_t n = 1000000; n <= 8000000; n *= 8)
        for (int nan = 0; nan < 2; nan++) {
            struct arrays a = {malloc(n * 4), malloc(n * 4), malloc(n * 8), malloc(n * 8), malloc(n * 8)};
            if (!a.raw || !a.trimmed || !a.wide_raw || !a.wide_trimmed || !a.room)
                return puts("bench: no memory"), 1;
            fill(a, n, marks[nan], wide_marks[nan]);
            double best[2][4] = {{1e18, 1e18, 1e18, 1e18}, {1e18, 1e18, 1e18, 1e18}};
            for (int turn = 0; turn < TURNS; turn++)
                for (int which = 0; which < 4; which++)
                    for (int wide = 0; wide < 2; wide++) {
                        double start = now();
                        size_t read = work(which, wide, a, n, marks[nan], wide_marks[nan], -3);
                        double took = (now() - start) / n;
                        if (read != n)
                            return puts("bench: something is beyond the limit"), 1;
                        if (took < best[wide][which])
                            best[wide][which] = took;
                    }
            printf("compared, %zu readings, %s for the mark, ns each (ratio to C):\n", n, nan ? "a NaN" : "a number");
            for (int which = 0; which < 4; which++)
                printf("  %-16s singles %5.2f (%.2f)  doubles %5.2f (%.2f)\n", name[which], best[0][which], best[0][which] / best[0][1], best[1][which], best[1][which] / best[1][1]);
            free(a.raw), free(a.trimmed), free(a.wide_raw), free(a.wide_trimmed), free(a.room);
        }
    return 0;
}
