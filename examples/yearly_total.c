/* A year's rain, read from packed layers. Of each layer megharutti_totals answers how many codes are present (count) and what they add up to (sum). The layer's total is then
 * count * R + sum * 2^E, with nothing rounded. Built by
 *     gcc examples/yearly_total.c target/staticlib/libcapi.a -o target/yearly_total
 * examples/yearly_total.py does the same and prints the same.
 *
 * Two mistakes. The width has to be the one that the layer was packed with: with another, missing codes may be added up as rain, or rain be left out as missing, and no refusal need
 * find it. Layer 0, packed with 8 and read with 9, would have 43.844 mm and not 15.953. And don't unpack and add up doubles for a total: each addition may round. Count and sum are
 * whole numbers, and so is all that is made of them here.
 */
#include "../include/megharutti.h"
#include <inttypes.h>
#include <stdio.h>
#include <stdlib.h>
#include <string.h>

enum { LAYERS = 12, LENGTH = 730, N = LAYERS * LENGTH, P = -6, AWAY = 3 };
static const uint32_t mark = 0x7CF00000; /* the network's mark for a missing reading */

/* Narrow layers for most months, wider ones for the wet. Of 100 hours `wet` have rain, and `heavy` says how much there may be. Layer 1 is dry. In layer 3 the sensor was away. In
 * layer 6 it rains every hour, so that the smallest value, R, is not 0. */
static const uint32_t widths[LAYERS] = {8, 8, 8, 8, 8, 10, 10, 12, 10, 8, 8, 8};
static const uint32_t wet[LAYERS] = {4, 0, 3, 5, 8, 20, 99, 40, 25, 10, 6, 5};
static const uint32_t heavy[LAYERS] = {50, 1, 40, 60, 90, 130, 50, 80, 110, 100, 70, 60};

static void check(int good, const char *otherwise) {
    if (good)
        return;
    fprintf(stderr, "%s\n", otherwise);
    exit(1);
}

static void accepted(uint32_t answer) {
    if (answer == MEGHARUTTI_ACCEPTED)
        return;
    fprintf(stderr, "refused, %" PRIu32 "\n", answer);
    exit(1);
}

static uint32_t draw(uint32_t below) {
    static uint32_t seed = 2024;
    seed = seed * 1664525 + 1013904223;
    return (seed >> 16) % below;
}

/* What the sensor sent for an hour, a pattern. It is made of whole numbers, thousandths of a mm, so that every machine makes the same year. One hour of 100 is missing. */
static uint32_t hour(int layer) {
    uint32_t luck = draw(100), a = draw(heavy[layer]), b = draw(heavy[layer]), pattern;
    float reading = (float)((luck <= wet[layer] ? 200 + a * b : 0) / 1000.0);
    memcpy(&pattern, &reading, sizeof pattern);
    return layer == AWAY || luck == 0 ? mark : pattern;
}

/* Totals and bounds are whole numbers of 2^-30 mm, so that nothing is rounded. What was sent is 0 or at least 0.2 mm, so a multiple of 2^-26; R was trimmed, and is a multiple of 2^-6.
 * `whole` checks it. It also checks that no hour has 256 mm, so that a year's total, and 1000 times as much for printing, stays below 2^63. */
static const int64_t one_mm = (int64_t)1 << 30;

static int64_t whole(float reading) {
    double n = reading * (double)one_mm; /* a power of two: exact */
    check(n >= 0 && n < 256 * (double)one_mm && n == (double)(int64_t)n, "no whole number of 2^-30 mm, or too large");
    return (int64_t)n;
}

/* Prints a figure to 3 places, to the nearest or up. */
static void print(int columns, int64_t figure, int up) {
    int64_t thousandths = (figure * 1000 + (up ? one_mm - 1 : one_mm / 2)) / one_mm;
    printf("%*" PRId64 ".%03" PRId64, columns - 4, thousandths / 1000, thousandths % 1000);
}

struct sums { int64_t count, total, bound, sent; };

static void print_sums(struct sums s) {
    print(10, s.total, 0), print(18, s.bound, 1), print(10, s.sent, 0), puts("");
    check(llabs(s.total - s.sent) < s.bound, "beyond the bound");
}

int main(void) {
    /* The store keeps widths, codes, references and exponents. What was sent is kept here for the last column alone. */
    static uint32_t sent[N], readings[N];
    static uint16_t codes[N];
    float references[LAYERS], reading;
    int32_t exponents[LAYERS];
    uint64_t counts[6], totals[2];
    struct sums year = {0, 0, 0, 0};
    for (int i = 0; i < N; i++)
        readings[i] = sent[i] = hour(i / LENGTH);
    accepted(megharutti_trim_singles(readings, N, MEGHARUTTI_ABSOLUTE, P, mark, counts));
    accepted(megharutti_pack(readings, N, LENGTH, mark, widths, LAYERS, codes, N, references, LAYERS, exponents, LAYERS));

    puts("A year of rain in mm, 12 layers of 730 hours, trimmed to 1/64 mm and packed.");
    puts("The total is count * R + sum * 2^E, and off by less than count * (1/64 + 2^E / 2).");
    puts("layer  width         R     E  count     sum     total  off by less than      sent");
    for (int layer = 0; layer < LAYERS; layer++) {
        accepted(megharutti_totals(codes + layer * LENGTH, LENGTH, widths[layer], totals));
        int64_t count = (int64_t)totals[0], sum = (int64_t)totals[1], e = exponents[layer];
        printf("%5d  %5" PRIu32 "  %8.6f  %4" PRId64 "  %5" PRId64 "  %6" PRId64, layer, widths[layer], references[layer], e, count, sum);
        if (count == 0) { /* a total of 0 would look like a dry month */
            puts("   missing");
            continue;
        }
        /* A layer of one value, as the dry one, has E -149 and no code above 0: its step plays no part in the total, and in the bound 2^-30 mm will do for half of it. */
        check(e <= 0 && (e >= -29 || sum == 0), "half a step is no whole number of 2^-30 mm, or too large");
        int64_t half = e < -29 ? 1 : one_mm >> (1 - e);
        /* Trimming leaves a reading less than 2^P from what was sent, and packing moves it by at most half a step. That is proved, and so is the bound for the total. It allows for all
         * hours moving so far, dry ones too, and all one way; here they nearly even out. */
        struct sums s = {count, count * whole(references[layer]) + sum * 2 * half, count * ((one_mm >> -P) + half), 0};
        for (int i = layer * LENGTH; i < (layer + 1) * LENGTH; i++) {
            memcpy(&reading, &sent[i], sizeof reading);
            s.sent += sent[i] == mark ? 0 : whole(reading);
        }
        print_sums(s);
        year.count += s.count, year.total += s.total, year.bound += s.bound, year.sent += s.sent;
    }
    printf("%-30s%5" PRId64 "        ", "year", year.count);
    print_sums(year);
    printf("The year is ");
    print(5, llabs(year.total - year.sent), 0);
    printf(" mm off, less than it may be. %" PRId64 " hours are missing, and are in no total.\n", N - year.count);
    puts("Totals are rounded to 3 places, and bounds up, for printing alone.");
    return 0;
}
