/* Times each trim of two builds of the library in one run, on a million readings, and prints ns a reading before and after, and their ratio. Both must leave the same
 * patterns and give the same counts, of which a build before version 2 has four; but for groom where one of them goes by places, as before version 2.1. The builds are two
 * shared libraries, the earlier one first. */
#include "clock.h"
#include "trims.h"
#include <dlfcn.h>
#include <stdio.h>
#include <stdlib.h>
#include <string.h>

enum { READINGS = 1000000, TURNS = 100, GROOM = 2 };

typedef uint32_t trim_singles(uint32_t *, size_t, uint32_t, int32_t, uint32_t, uint64_t *);
typedef uint32_t trim_doubles(uint64_t *, size_t, uint32_t, int32_t, uint64_t, uint64_t *);

static trim_singles *singles[2];
static trim_doubles *doubles[2];

static void *sought(const char *path, const char *what) {
    void *library = dlopen(path, RTLD_NOW | RTLD_LOCAL), *found = library ? dlsym(library, what) : NULL;
    if (!found)
        fprintf(stderr, "compare: %s\n", dlerror()), exit(1);
    return found;
}

/* Whether a build grooms by turns, as from version 2.1 on: then of pi, a missing reading and pi the last is set. */
static int by_turns(int which) {
    uint32_t station[] = {0x40490FDB, mark32, 0x40490FDB};
    uint64_t counts[8];
    singles[which](station, 3, GROOM, KEEP, mark32, counts);
    return station[2] == 0x4049FFFF;
}

/* Air and rain: 0 to 100, half of them below zero, one in 50 zero and one in 20 missing. */
static void fill(void *from, int wide) {
    for (size_t i = 0; i < READINGS; i++) {
        double v = (draw() >> 11) * 0x1p-53 * 100;
        if (draw() % 2)
            v = -v;
        if (draw() % 50 == 0)
            v = 0;
        put(from, i, wide, v, draw() % 20 == 0);
    }
}

int main(int argc, char **argv) {
    if (argc != 3)
        return fputs("usage: compare EARLIER.so LATER.so\n", stderr), 1;
    for (int which = 0; which < 2; which++) {
        singles[which] = (trim_singles *)sought(argv[1 + which], "megharutti_trim_singles");
        doubles[which] = (trim_doubles *)sought(argv[1 + which], "megharutti_trim_doubles");
    }
    for (int wide = 0; wide < 2; wide++) {
        size_t bytes = (size_t)READINGS * (wide ? 8 : 4);
        void *from = malloc(bytes), *to[2] = {malloc(bytes), malloc(bytes)};
        if (!from || !to[0] || !to[1])
            return fputs("compare: no memory\n", stderr), 1;
        fill(from, wide);
        printf("%s, %d readings, ns each: before, after, ratio\n", wide ? "doubles" : "singles", READINGS);
        for (uint32_t method = 0; method < 7; method++) {
            uint64_t counts[2][8] = {{0}};
            double best[2] = {1e18, 1e18};
            for (int turn = 0; turn < TURNS; turn++) /* the builds take turns, so that a disturbance meets both */
                for (int which = 0; which < 2; which++) {
                    memcpy(to[which], from, bytes);
                    double start = now();
                    if (wide)
                        doubles[which](to[which], READINGS, method, setting[method], mark64, counts[which]);
                    else
                        singles[which](to[which], READINGS, method, setting[method], mark32, counts[which]);
                    double took = (now() - start) / READINGS;
                    if (took < best[which])
                        best[which] = took;
                }
            size_t given = counts[0][4] + counts[0][5] == counts[0][0] ? 6 : 4;
            int differ = memcmp(to[0], to[1], bytes) || memcmp(counts[0], counts[1], given * sizeof counts[0][0]);
            if (differ && (method != GROOM || by_turns(0) == by_turns(1)))
                return printf("compare: %s differs\n", name[method]), 1;
            printf("  %-9s %5.2f %5.2f %5.2f%s\n", name[method], best[0], best[1], best[1] / best[0], differ ? "  (other patterns)" : "");
        }
        free(from), free(to[0]), free(to[1]);
    }
    return 0;
}
