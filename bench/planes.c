/* Times conversions to byte planes and back, and trimming in planes, beside memcpy and beside plain C that goes place by place or plane by plane, in one run. Prints ns a
 * reading, and the ratio: of a conversion to the faster of the two C loops, of trimming in planes to trimming the array and both conversions. The C is this file's own, and
 * is checked against the library before anything is timed. */
#include "../include/megharutti.h"
#include "clock.h"
#include "trims.h"
#include <stdio.h>
#include <stdlib.h>
#include <string.h>

enum { N = 1000000, TURNS = 25 };

#define LOOPS(type, bytes)                                                                                                                             \
    __attribute__((noinline)) static void to_by_place_##bytes(const type *w, uint8_t *p, size_t n) {                                                   \
        for (size_t i = 0; i < n; i++)                                                                                                                 \
            for (size_t b = 0; b < bytes; b++)                                                                                                         \
                p[b * n + i] = (uint8_t)(w[i] >> (8 * b));                                                                                             \
    }                                                                                                                                                  \
    __attribute__((noinline)) static void to_by_plane_##bytes(const type *w, uint8_t *p, size_t n) {                                                   \
        for (size_t b = 0; b < bytes; b++)                                                                                                             \
            for (size_t i = 0; i < n; i++)                                                                                                             \
                p[b * n + i] = (uint8_t)(w[i] >> (8 * b));                                                                                             \
    }                                                                                                                                                  \
    __attribute__((noinline)) static void from_by_place_##bytes(const uint8_t *p, type *w, size_t n) {                                                 \
        for (size_t i = 0; i < n; i++) {                                                                                                               \
            type x = 0;                                                                                                                                \
            for (size_t b = 0; b < bytes; b++)                                                                                                         \
                x |= (type)p[b * n + i] << (8 * b);                                                                                                    \
            w[i] = x;                                                                                                                                  \
        }                                                                                                                                              \
    }                                                                                                                                                  \
    __attribute__((noinline)) static void from_by_plane_##bytes(const uint8_t *p, type *w, size_t n) {                                                 \
        memset(w, 0, n * bytes);                                                                                                                       \
        for (size_t b = 0; b < bytes; b++)                                                                                                             \
            for (size_t i = 0; i < n; i++)                                                                                                             \
                w[i] |= (type)p[b * n + i] << (8 * b);                                                                                                 \
    }
LOOPS(uint32_t, 4)
LOOPS(uint64_t, 8)

enum { COPY, TO_PLACE, TO_PLANE, TO_OURS, FROM_PLACE, FROM_PLANE, FROM_OURS, TRIM, TRIM_PLANES = TRIM + 7, WORKS = TRIM_PLANES + 7 };

static int wide;
static void *readings, *left;
static uint8_t *planes, *trimmed;
static uint64_t counts[6];

static void work(int which) {
    int method = which < TRIM ? 0 : (which - TRIM) % 7;
    switch (which) {
    case COPY: memcpy(left, readings, N * (wide ? 8 : 4)); break;
    case TO_PLACE: wide ? to_by_place_8(readings, trimmed, N) : to_by_place_4(readings, trimmed, N); break;
    case TO_PLANE: wide ? to_by_plane_8(readings, trimmed, N) : to_by_plane_4(readings, trimmed, N); break;
    case TO_OURS: wide ? megharutti_planes_of_doubles(readings, N, trimmed, 8 * N) : megharutti_planes_of_singles(readings, N, trimmed, 4 * N); break;
    case FROM_PLACE: wide ? from_by_place_8(planes, left, N) : from_by_place_4(planes, left, N); break;
    case FROM_PLANE: wide ? from_by_plane_8(planes, left, N) : from_by_plane_4(planes, left, N); break;
    case FROM_OURS: wide ? megharutti_doubles_of_planes(planes, 8 * N, left, N) : megharutti_singles_of_planes(planes, 4 * N, left, N); break;
    default:
        if (which < TRIM_PLANES && wide)
            megharutti_trim_doubles(left, N, method, setting[method], mark64, counts);
        else if (which < TRIM_PLANES)
            megharutti_trim_singles(left, N, method, setting[method], mark32, counts);
        else if (wide)
            megharutti_trim_planes_doubles(trimmed, 8 * N, N, method, setting[method], mark64, counts);
        else
            megharutti_trim_planes_singles(trimmed, 4 * N, N, method, setting[method], mark32, counts);
    }
}

/* Both loops of C give what the library gives, and what is trimmed in planes is what is trimmed in the array. */
static int agree(void) {
    size_t bytes = N * (wide ? 8 : 4);
    work(TO_OURS), memcpy(planes, trimmed, bytes);
    for (int which = TO_PLACE; which <= TO_PLANE; which++) {
        memset(trimmed, 0, bytes), work(which);
        if (memcmp(planes, trimmed, bytes))
            return 0;
    }
    for (int which = FROM_PLACE; which <= FROM_OURS; which++) {
        memset(left, 0, bytes), work(which);
        if (memcmp(left, readings, bytes))
            return 0;
    }
    for (int method = 0; method < 7; method++) {
        uint64_t array[6];
        memcpy(left, readings, bytes), work(TRIM + method), memcpy(array, counts, sizeof counts);
        memcpy(trimmed, planes, bytes), work(TRIM_PLANES + method);
        if (memcmp(array, counts, sizeof counts))
            return 0;
        uint8_t *back = malloc(bytes);
        if (!back)
            return 0;
        wide ? to_by_place_8(left, back, N) : to_by_place_4(left, back, N);
        int same = !memcmp(back, trimmed, bytes);
        free(back);
        if (!same)
            return 0;
    }
    return 1;
}

int main(void) {
    for (wide = 0; wide < 2; wide++) {
        size_t bytes = N * (wide ? 8 : 4);
        readings = malloc(bytes), left = malloc(bytes), planes = malloc(bytes), trimmed = malloc(bytes);
        if (!readings || !left || !planes || !trimmed)
            return puts("bench: no memory"), 1;
        for (size_t i = 0; i < N; i++) { /* air and rain: 0 to 100, 5 % missing */
            double v = (draw() >> 11) * 0x1p-53 * 100;
            put(readings, i, wide, v, draw() % 20 == 0);
        }
        if (!agree())
            return puts("bench: the library and the C differ"), 1;
        double best[WORKS];
        for (int which = 0; which < WORKS; which++)
            best[which] = 1e18;
        for (int turn = 0; turn < TURNS; turn++)
            for (int which = 0; which < WORKS; which++) {
                memcpy(left, readings, bytes), memcpy(trimmed, planes, bytes);
                double start = now();
                work(which);
                double took = (now() - start) / N;
                best[which] = took < best[which] ? took : best[which];
            }
        double to = best[TO_PLACE] < best[TO_PLANE] ? best[TO_PLACE] : best[TO_PLANE];
        double from = best[FROM_PLACE] < best[FROM_PLANE] ? best[FROM_PLACE] : best[FROM_PLANE];
        printf("%s in planes, %d readings, ns each: memcpy %.2f\n", wide ? "doubles" : "singles", N, best[COPY]);
        printf("  to planes   %.2f (%.2f of C: by place %.2f, by plane %.2f)\n", best[TO_OURS], best[TO_OURS] / to, best[TO_PLACE], best[TO_PLANE]);
        printf("  from planes %.2f (%.2f of C: by place %.2f, by plane %.2f)\n", best[FROM_OURS], best[FROM_OURS] / from, best[FROM_PLACE], best[FROM_PLANE]);
        for (int method = 0; method < 7; method++) {
            double apart = best[TRIM + method] + best[TO_OURS] + best[FROM_OURS];
            printf("  %-9s in planes %5.2f (%.2f of the array's %.2f and both conversions)\n", name[method], best[TRIM_PLANES + method], best[TRIM_PLANES + method] / apart, best[TRIM + method]);
        }
        free(readings), free(left), free(planes), free(trimmed);
    }
    return 0;
}
