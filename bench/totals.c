/* Times the totals of layers beside memcpy and beside C that goes through the codes in order, in one run: plain, with a test for each code, and branch-free with one sum.
 * Prints ns a code, and the ratio to the plain C. The C is this file's own: it asks the same questions on the codes, and is checked against the library before anything is
 * timed. */
#include "../include/megharutti.h"
#include "clock.h"
#include <stdio.h>
#include <stdlib.h>
#include <string.h>

enum { N = 65536, TURNS = 400 };
static uint16_t codes[N];
uint16_t copy[N]; /* for all files to see, so that the copying isn't left out */

__attribute__((noinline)) static uint32_t plain(const uint16_t *c, size_t n, uint32_t width, uint64_t totals[2]) {
    uint32_t missing = MEGHARUTTI_MISSING_CODE(width), count = 0, sum = 0;
    for (size_t i = 0; i < n; i++)
        if (c[i] > missing)
            return 12;
    for (size_t i = 0; i < n; i++)
        if (c[i] != missing)
            count++, sum += c[i];
    totals[0] = count, totals[1] = sum;
    return 0;
}

__attribute__((noinline)) static uint32_t branch_free(const uint16_t *c, size_t n, uint32_t width, uint64_t totals[2]) {
    uint32_t missing = MEGHARUTTI_MISSING_CODE(width), count = 0, sum = 0, bits = 0;
    for (size_t i = 0; i < n; i++) {
        uint32_t present = c[i] != missing;
        count += present, sum += present ? c[i] : 0, bits |= c[i];
    }
    if (bits > missing)
        return 12;
    totals[0] = count, totals[1] = sum;
    return 0;
}

enum { COPY, PLAIN, FREE, OURS, WORKS };

/* All codes, in layers of the given length. */
static uint64_t work(int which, size_t length, uint32_t width) {
    uint64_t totals[2] = {0, 0}, sum = 0;
    if (which == COPY)
        memcpy(copy, codes, sizeof codes);
    for (size_t i = 0; which != COPY && i + length <= N; i += length) {
        uint32_t no = which == PLAIN ? plain(codes + i, length, width, totals)
                      : which == FREE ? branch_free(codes + i, length, width, totals)
                                      : megharutti_totals(codes + i, length, width, totals);
        sum += (totals[0] << 40) + totals[1] + no;
    }
    return sum;
}

int main(void) {
    static const size_t lengths[] = {65536, 1000, 168, 24};
    static const uint32_t widths[] = {16, 4};
    printf("\ntotals of layers, ns a code; ratio to plain C\n%-6s %-7s %8s %8s %12s %8s %7s\n", "width", "length", "memcpy", "plain C", "branch-free", "ours", "ratio");
    for (int w = 0; w < 2; w++) {
        for (size_t i = 0; i < N; i++)
            codes[i] = draw() % 20 ? draw() % MEGHARUTTI_MISSING_CODE(widths[w]) : MEGHARUTTI_MISSING_CODE(widths[w]);
        for (int l = 0; l < 4; l++) {
            double best[WORKS];
            uint64_t is[WORKS];
            for (int which = 0; which < WORKS; which++)
                best[which] = 1e30, is[which] = work(which, lengths[l], widths[w]);
            if (is[PLAIN] != is[OURS] || is[FREE] != is[OURS]) {
                printf("the C and the library differ\n");
                return 1;
            }
            for (int turn = 0; turn < TURNS; turn++)
                for (int which = 0; which < WORKS; which++) {
                    double from = now();
                    is[which] += work(which, lengths[l], widths[w]);
                    double took = now() - from;
                    if (took < best[which])
                        best[which] = took;
                }
            printf("%-6u %-7zu %8.3f %8.3f %12.3f %8.3f %7.2f\n", widths[w], lengths[l], best[COPY] / N, best[PLAIN] / N, best[FREE] / N, best[OURS] / N,
                   best[OURS] / best[PLAIN]);
        }
    }
    return 0;
}
