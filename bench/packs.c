/* Times packing and unpacking beside memcpy and beside branch-free C in double arithmetic, in one run, with layers of 16 bits and of 4. Prints ns a reading, and the ratio
 * to that C. The C is this file's own: it asks the same questions on the readings and codes, is right on the readings below, and is checked against the library before
 * anything is timed. */
#include "../include/megharutti.h"
#include "clock.h"
#include <math.h>
#include <stdio.h>
#include <stdlib.h>
#include <string.h>

enum { LAYER = 1000, TURNS = 25 };
static const uint32_t mark32 = 0x7CF00000;
static const uint64_t mark64 = 0x7FF8000000000001;

/* Every outcome is computed and chosen last, so that gcc can work on several readings at once. */
static uint32_t pack(const uint32_t *w, size_t n, size_t length, uint32_t mark, const uint32_t *widths, uint16_t *codes, float *references, int32_t *exponents) {
    uint32_t bad = 0;
    for (size_t layer = 0; layer < n / length; layer++)
        if (widths[layer] < 2 || widths[layer] > 16)
            return 11;
    for (size_t i = 0; i < n; i++)
        bad |= ((w[i] & 0x7FFFFFFF) >= 0x7F800000) & (w[i] != mark);
    if (bad)
        return 6;
    for (size_t layer = 0; layer < n / length; layer++) {
        const uint32_t *from = w + layer * length;
        uint16_t *to = codes + layer * length, missing = (uint16_t)MEGHARUTTI_MISSING_CODE(widths[layer]);
        const double steps = missing - 1;
        float low = INFINITY, high = -INFINITY;
        for (size_t i = 0; i < length; i++) {
            float v;
            memcpy(&v, from + i, 4);
            float a = from[i] == mark ? INFINITY : v, z = from[i] == mark ? -INFINITY : v;
            low = a < low ? a : low;
            high = z > high ? z : high;
        }
        if (high < low)
            low = high = 0;
        double span = (double)high - low;
        int e = -149;
        if (span > 0) {
            frexp(span / steps, &e);
            e = span <= ldexp(steps, e - 1) ? e - 1 : e;
            e = e < -149 ? -149 : e;
        }
        const double reference = low, scale = ldexp(1, -e);
        for (size_t i = 0; i < length; i++) {
            float v;
            memcpy(&v, from + i, 4);
            double d = (v - reference) * scale + 0x1p52;
            uint64_t bits;
            memcpy(&bits, &d, 8);
            to[i] = from[i] == mark ? missing : (uint16_t)bits;
        }
        references[layer] = low + 0.0f;
        exponents[layer] = e;
    }
    return 0;
}

static uint32_t unpack(const uint32_t *widths, const uint16_t *codes, size_t n, const float *references, const int32_t *exponents, size_t length, uint64_t mark, uint64_t *readings) {
    for (size_t layer = 0; layer < n / length; layer++)
        if (widths[layer] < 2 || widths[layer] > 16)
            return 11;
    for (size_t layer = 0; layer < n / length; layer++)
        if (!isfinite(references[layer]) || exponents[layer] < -149 || exponents[layer] > 128)
            return 7;
    for (size_t layer = 0; layer < n / length; layer++) {
        uint16_t most = 0;
        for (size_t i = layer * length; i < (layer + 1) * length; i++)
            most = codes[i] > most ? codes[i] : most;
        if (most > MEGHARUTTI_MISSING_CODE(widths[layer]))
            return 12;
    }
    for (size_t layer = 0; layer < n / length; layer++) {
        const double reference = references[layer], step = ldexp(1, exponents[layer]);
        const uint16_t missing = (uint16_t)MEGHARUTTI_MISSING_CODE(widths[layer]);
        for (size_t i = layer * length; i < (layer + 1) * length; i++) {
            double d = codes[i] * step + reference;
            uint64_t bits;
            memcpy(&bits, &d, 8);
            readings[i] = codes[i] == missing ? mark : bits;
        }
    }
    return 0;
}

/* The widths, all alike; and one side's results: the library's or the C's. */
struct packed {
    uint32_t *widths;
    uint16_t *codes;
    float *references;
    int32_t *exponents;
    uint64_t *readings;
};

static struct packed room(size_t n) {
    struct packed p = {malloc(n / LAYER * 4), malloc(n * 2), malloc(n / LAYER * 4), malloc(n / LAYER * 4), malloc(n * 8)};
    if (!p.widths || !p.codes || !p.references || !p.exponents || !p.readings)
        puts("bench: no memory"), exit(1);
    return p;
}

static const char *name[] = {"memcpy", "C pack", "pack", "C unpack", "unpack"};
static uint32_t work(int which, const uint32_t *from, struct packed p, size_t n) {
    size_t layers = n / LAYER;
    switch (which) {
    case 0: memcpy(p.readings, from, n * 4); return 0;
    case 1: return pack(from, n, LAYER, mark32, p.widths, p.codes, p.references, p.exponents);
    case 2: return megharutti_pack(from, n, LAYER, mark32, p.widths, layers, p.codes, n, p.references, layers, p.exponents, layers);
    case 3: return unpack(p.widths, p.codes, n, p.references, p.exponents, LAYER, mark64, p.readings);
    default: return megharutti_unpack(p.widths, layers, p.codes, n, p.references, layers, p.exponents, layers, LAYER, mark64, p.readings, n);
    }
}

static void set_width(struct packed p, size_t n, uint32_t width) {
    for (size_t layer = 0; layer < n / LAYER; layer++)
        p.widths[layer] = width;
}

static void compare(const uint32_t *from, struct packed ours, struct packed theirs, size_t n) {
    if (work(1, from, theirs, n) | work(2, from, ours, n) | work(3, from, theirs, n) | work(4, from, ours, n))
        puts("bench: refused"), exit(1);
    if (memcmp(ours.codes, theirs.codes, n * 2) || memcmp(ours.references, theirs.references, n / LAYER * 4) ||
        memcmp(ours.exponents, theirs.exponents, n / LAYER * 4) || memcmp(ours.readings, theirs.readings, n * 8))
        puts("bench: the library and the C differ"), exit(1);
}

int main(void) {
    static const uint32_t widths[2] = {16, 4};
    for (size_t n = 1000000; n <= 8000000; n *= 8) {
        uint32_t *from = malloc(n * 4);
        struct packed ours = room(n), theirs = room(n);
        if (!from)
            return puts("bench: no memory"), 1;
        for (size_t i = 0; i < n; i++) { /* air and rain: 0 to 100, a quarter exactly 0, 5 % missing */
            float f = draw() % 4 ? (float)((draw() >> 11) * 0x1p-53 * 100) : 0;
            memcpy(from + i, draw() % 20 ? (const void *)&f : &mark32, 4);
        }
        /* both widths in each turn, so that whatever else the machine does falls on both */
        double best[2][5] = {{1e18, 1e18, 1e18, 1e18, 1e18}, {1e18, 1e18, 1e18, 1e18, 1e18}};
        for (int turn = 0; turn < TURNS; turn++)
            for (int w = 0; w < 2; w++) {
                set_width(ours, n, widths[w]), set_width(theirs, n, widths[w]);
                compare(from, ours, theirs, n);
                for (int which = 0; which < 5; which++) {
                    double start = now();
                    work(which, from, which % 2 ? theirs : ours, n);
                    double took = (now() - start) / n;
                    if (took < best[w][which])
                        best[w][which] = took;
                }
            }
        for (int w = 0; w < 2; w++) {
            printf("layers of %d in %u bits, %zu readings, ns each (ratio to C): memcpy %.2f\n", LAYER, widths[w], n, best[w][0]);
            for (int which = 1; which < 5; which++)
                printf("  %-9s %5.2f (%.2f)\n", name[which], best[w][which], best[w][which] / best[w][which < 3 ? 1 : 3]);
        }
        free(from);
        free(ours.widths), free(ours.codes), free(ours.references), free(ours.exponents), free(ours.readings);
        free(theirs.widths), free(theirs.codes), free(theirs.references), free(theirs.exponents), free(theirs.readings);
    }
    return 0;
}
