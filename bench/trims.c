/* Times each trim beside memcpy and beside branch-free C that rounds with a mark and six counts, in one run. Prints ns a reading, and the ratio to that C.
 * The C is this file's own, plain and fast, and is checked against the library's counts and patterns before anything is timed. */
#include "../include/megharutti.h"
#include "clock.h"
#include "trims.h"
#include <stdio.h>
#include <stdlib.h>
#include <string.h>

enum { TURNS = 25, WORKS = 9 };

/* Round with a mark and six counts, written so that gcc can work on several readings at once: every outcome is computed and chosen last. */
static void round_singles(uint32_t *w, size_t n, int k, uint32_t mark, uint64_t counts[6]) {
    const uint32_t t = 23 - k, unit = 1u << t, half = (unit >> 1) - 1, cut = ~(unit - 1), infinity = 0x7F800000;
    uint64_t changed = 0, spared = 0, clipped = 0, missing = 0, risen = 0;
    for (size_t from = 0; from < n; from += 4096) {
        size_t to = n - from < 4096 ? n : from + 4096;
        uint32_t a = 0, b = 0, c = 0, d = 0, e = 0;
        for (size_t i = from; i < to; i++) {
            uint32_t x = w[i], m = x & 0x7FFFFFFF, sign = x ^ m;
            uint32_t up = (m + half + ((m >> t) & 1)) & cut;
            uint32_t over = up >= infinity;
            uint32_t r = sign | (over ? m & cut : up);
            uint32_t gone = x == mark, can = (m < infinity) & !gone, hit = can & (r == mark), go = can & !hit;
            uint32_t y = go ? r : x;
            w[i] = y;
            a += y != x;
            b += hit;
            c += go & over;
            d += gone;
            e += (y != x) & (((x - y) ^ x) >> 31);
        }
        changed += a, spared += b, clipped += c, missing += d, risen += e;
    }
    counts[0] = changed, counts[1] = spared, counts[2] = clipped, counts[3] = missing, counts[4] = risen, counts[5] = changed - risen;
}

static void round_doubles(uint64_t *w, size_t n, int k, uint64_t mark, uint64_t counts[6]) {
    const uint64_t t = 52 - k, unit = 1ull << t, half = (unit >> 1) - 1, cut = ~(unit - 1), infinity = 0x7FF0000000000000;
    uint64_t a = 0, b = 0, c = 0, d = 0, e = 0;
    for (size_t i = 0; i < n; i++) {
        uint64_t x = w[i], m = x & 0x7FFFFFFFFFFFFFFF, sign = x ^ m;
        uint64_t up = (m + half + ((m >> t) & 1)) & cut;
        uint64_t over = up >= infinity;
        uint64_t r = sign | (over ? m & cut : up);
        uint64_t gone = x == mark, can = (m < infinity) & !gone, hit = can & (r == mark), go = can & !hit;
        uint64_t y = go ? r : x;
        w[i] = y;
        a += y != x;
        b += hit;
        c += go & over;
        d += gone;
        e += (y != x) & (((x - y) ^ x) >> 63);
    }
    counts[0] = a, counts[1] = b, counts[2] = c, counts[3] = d, counts[4] = e, counts[5] = a - e;
}

/* 0 is memcpy, 1 the C above, 2 + method the library. */
static int wide;
static void work(int which, void *to, const void *from, size_t n, uint64_t counts[6]) {
    if (which == 0)
        memcpy(to, from, n * (wide ? 8 : 4));
    else if (which == 1 && wide)
        round_doubles(to, n, KEEP, mark64, counts);
    else if (which == 1)
        round_singles(to, n, KEEP, mark32, counts);
    else if (wide)
        megharutti_trim_doubles(to, n, which - 2, setting[which - 2], mark64, counts);
    else
        megharutti_trim_singles(to, n, which - 2, setting[which - 2], mark32, counts);
}

/* The least of several turns, each on a fresh copy: what the work takes where nothing disturbs it. The works take turns, so that a disturbance meets them all. */
static void least(double best[WORKS], void *to, const void *from, size_t n) {
    uint64_t counts[6];
    for (int which = 0; which < WORKS; which++)
        best[which] = 1e18;
    for (int i = 0; i < TURNS; i++)
        for (int which = 0; which < WORKS; which++) {
            memcpy(to, from, n * (wide ? 8 : 4));
            double start = now();
            work(which, to, from, n, counts);
            double took = (now() - start) / n;
            if (took < best[which])
                best[which] = took;
        }
}

int main(void) {
    for (wide = 0; wide < 2; wide++)
        for (size_t n = 1000000; n <= 8000000; n *= 8) {
            size_t bytes = n * (wide ? 8 : 4);
            void *from = malloc(bytes), *to = malloc(bytes), *other = malloc(bytes);
            if (!from || !to || !other)
                return puts("bench: no memory"), 1;
            for (size_t i = 0; i < n; i++) { /* air and rain: 0 to 100, 5 % missing */
                double v = (draw() >> 11) * 0x1p-53 * 100;
                put(from, i, wide, v, draw() % 20 == 0);
            }
            uint64_t ours[6], theirs[6];
            memcpy(to, from, bytes), memcpy(other, from, bytes);
            work(1, to, from, n, theirs), work(6, other, from, n, ours);
            if (memcmp(to, other, bytes) || memcmp(ours, theirs, sizeof ours))
                return puts("bench: the library and the C differ"), 1;
            double best[WORKS];
            least(best, to, from, n);
            printf("%s, %zu readings, ns each (ratio to C round): memcpy %.2f, C round %.2f\n", wide ? "doubles" : "singles", n, best[0], best[1]);
            for (int method = 0; method < 7; method++)
                printf("  %-9s %5.2f (%.2f)\n", name[method], best[2 + method], best[2 + method] / best[1]);
            free(from), free(to), free(other);
        }
    return 0;
}
