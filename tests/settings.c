/* The caller's float settings. A program that gcc links with -ffast-math begins with two settings of the processor that take subnormal numbers for zero, in what an
 * operation gets and in what it gives. Each call below is made with these settings and with the usual ones, and has to answer and leave the same, bit for bit. Where
 * whole numbers do all of the work, the same is asked of the other directions of rounding, with every float exception trapped. What has risen and fallen is counted here too,
 * by whole numbers, since a comparison of floats would take one subnormal number for another. Cases of documents 01 and 02 are compared with what they say.
 *
 * Linked without -ffast-math this program stops at once, since it would show nothing. It computes no float itself: readings and results are patterns. */
#include "../include/megharutti.h"
#include <inttypes.h>
#include <stdio.h>
#include <string.h>
#include <xmmintrin.h>

/* The processor's settings: as a program begins without -ffast-math, which is no exception trapped; the two for subnormal numbers; and directions of rounding other than
 * to nearest. */
enum { USUAL = 0x1F80, SUBNORMAL_RESULTS_LOST = 0x8000, SUBNORMAL_OPERANDS_LOST = 0x0040, DOWNWARDS = 0x2000, UPWARDS = 0x4000, TOWARDS_ZERO = 0x6000 };
/* So many readings that a loop over several at once leaves a rest; and the readings of the longest layer. */
enum { N = 6007, LONG = 65536, ABSOLUTE = MEGHARUTTI_ABSOLUTE };

static const uint32_t mark = 0x7CF00000;
static const uint64_t wide_mark = 0x7CF0000000000000, nan_mark = 0x7FF80000000000AB;

static unsigned begun; /* the settings that this program began with */
static uint64_t calls, differing, wrong;
static uint64_t any_risen, any_fallen; /* so many readings moved */
static uint64_t any_beyond, any_within; /* so many pairs lay beyond a limit, or within it */

static uint64_t draw(void) {
    static uint64_t seed = 0x9E3779B97F4A7C15;
    seed ^= seed << 13;
    seed ^= seed >> 7;
    return seed ^= seed << 17;
}

static void same(const char *what, const char *first, int a, const char *second, int b, unsigned settings, int is) {
    calls++;
    if (!is && differing++ < 20)
        printf("settings: %s, %s %d, %s %d: differs with %04X\n", what, first, a, second, b, settings);
}

static void check(const char *what, uint64_t got, uint64_t expected) {
    if (got != expected && wrong++ < 20)
        printf("settings: %s: got %" PRIX64 ", expected %" PRIX64 "\n", what, got, expected);
}

/* ---- trimming: an array, the same in byte planes, and the loader's call on some of its places */

enum { COUNTS = 6, GUARDS = 2, CHANGED = 0, RISEN = 4, FALLEN = 5 };
static const uint64_t untold = 0x5A5A12345A5A4321; /* what the counts and the words behind them hold before a call */

static void untell(uint64_t counts[2][COUNTS + GUARDS]) {
    for (int i = 0; i < 2 * (COUNTS + GUARDS); i++)
        counts[i / (COUNTS + GUARDS)][i % (COUNTS + GUARDS)] = untold;
}

/* 1 for a rise of the exact signed value, -1 for a fall, 0 where the pattern stays. The sign doesn't change. The size is `whole` times 2^shift least spacings; where the shifts
 * differ, the larger one has a whole with its highest bit, and is the larger size. */
static int moved(uint64_t old, uint64_t new, int fraction_bits, int sign_bit) {
    const uint64_t patterns[2] = {old, new};
    uint64_t whole[2], shift[2], hidden = UINT64_C(1) << fraction_bits;
    if (old == new)
        return 0;
    for (int k = 0; k < 2; k++) {
        uint64_t m = patterns[k] & ((UINT64_C(1) << sign_bit) - 1), field = m >> fraction_bits;
        whole[k] = m % hidden + (field ? hidden : 0);
        shift[k] = field ? field - 1 : 0;
    }
    int grows = shift[0] != shift[1] ? shift[1] > shift[0] : whole[1] > whole[0];
    return grows == !(old >> sign_bit & 1) ? 1 : -1;
}

/* Whether the counts after a call are those of what it left: as they were where it refused. */
static int counted(const uint64_t *counts, uint32_t answer, uint64_t risen, uint64_t fallen) {
    for (int i = answer ? 0 : COUNTS; i < COUNTS + GUARDS; i++)
        if (counts[i] != untold)
            return 0;
    return answer || (counts[CHANGED] == risen + fallen && counts[RISEN] == risen && counts[FALLEN] == fallen);
}

/* The loader's number for a pattern that is left. */
static uint64_t number(uint32_t old, uint32_t new) {
    int by = moved(old, new, 23, 31);
    return new + (by > 0 ? UINT64_C(1) << 33 : 0) + (by < 0 ? UINT64_C(1) << 34 : 0);
}

static void trim_singles(const char *what, const uint32_t *in, int method, int setting, uint32_t missing, unsigned settings) {
    static uint32_t left[2][N], back[N];
    static uint8_t planes[4 * N];
    uint64_t counts[2][COUNTS + GUARDS], grouped[2][COUNTS + GUARDS], risen = 0, fallen = 0;
    uint32_t answer[2];
    int is = 1;
    untell(counts);
    untell(grouped);
    for (int k = 0; k < 2; k++) {
        memcpy(left[k], in, sizeof left[k]);
        _mm_setcsr(k ? settings : USUAL);
        answer[k] = megharutti_trim_singles(left[k], N, method, setting, missing, counts[k]);
    }
    /* the same in byte planes, with these settings */
    uint32_t planes_answer = megharutti_planes_of_singles(in, N, planes, sizeof planes);
    planes_answer |= megharutti_trim_planes_singles(planes, sizeof planes, N, method, setting, missing, grouped[0]);
    planes_answer |= megharutti_singles_of_planes(planes, sizeof planes, back, N);
    uint64_t turn = 0; /* of grooming: so many present finite readings came before */
    for (int i = 0; i < N; i++) {
        if (i % 97 == 0)
            is &= megharutti_trim_single(in[i], method, setting, missing, turn) == (answer[0] ? (UINT64_C(1) << 32) + answer[0] : number(in[i], left[0][i]));
        turn += in[i] != missing && in[i] << 1 < 0xFF000000;
    }
    _mm_setcsr(USUAL);
    for (int i = 0; i < N; i++) {
        risen += moved(in[i], left[0][i], 23, 31) > 0;
        fallen += moved(in[i], left[0][i], 23, 31) < 0;
    }
    is &= counted(counts[1], answer[1], risen, fallen);
    any_risen += risen;
    any_fallen += fallen;
    same(what, "method", method, "setting", setting, settings, is && answer[0] == answer[1] && answer[0] == planes_answer && !memcmp(left[0], back, sizeof back) && !memcmp(counts[0], grouped[0], sizeof counts[0]) && !memcmp(left[0], left[1], sizeof left[0]) && !memcmp(counts[0], counts[1], sizeof counts[0]));
}

static void trim_doubles(const char *what, const uint64_t *in, int method, int setting, uint64_t missing, unsigned settings) {
    static uint64_t left[2][N], back[N];
    static uint8_t planes[8 * N];
    uint64_t counts[2][COUNTS + GUARDS], grouped[2][COUNTS + GUARDS], risen = 0, fallen = 0;
    uint32_t answer[2];
    untell(counts);
    untell(grouped);
    for (int k = 0; k < 2; k++) {
        memcpy(left[k], in, sizeof left[k]);
        _mm_setcsr(k ? settings : USUAL);
        answer[k] = megharutti_trim_doubles(left[k], N, method, setting, missing, counts[k]);
    }
    /* the same in byte planes, with these settings */
    uint32_t planes_answer = megharutti_planes_of_doubles(in, N, planes, sizeof planes);
    planes_answer |= megharutti_trim_planes_doubles(planes, sizeof planes, N, method, setting, missing, grouped[0]);
    planes_answer |= megharutti_doubles_of_planes(planes, sizeof planes, back, N);
    _mm_setcsr(USUAL);
    for (int i = 0; i < N; i++) {
        risen += moved(in[i], left[0][i], 52, 63) > 0;
        fallen += moved(in[i], left[0][i], 52, 63) < 0;
    }
    int is = counted(counts[1], answer[1], risen, fallen);
    any_risen += risen;
    any_fallen += fallen;
    same(what, "method", method, "setting", setting, settings, is && answer[0] == answer[1] && answer[0] == planes_answer && !memcmp(left[0], back, sizeof back) && !memcmp(counts[0], grouped[0], sizeof counts[0]) && !memcmp(left[0], left[1], sizeof left[0]) && !memcmp(counts[0], counts[1], sizeof counts[0]));
}

/* ---- layers: readings packed in layers of `length` and of any widths, and codes unpacked with the widths, references and exponents of some layers */

static void pack(const char *what, const uint32_t *in, size_t n, size_t length) {
    static uint32_t widths[LONG];
    static uint16_t codes[2][LONG];
    static float references[2][LONG];
    static int32_t exponents[2][LONG];
    uint32_t answer[2];
    memset(codes, 0, sizeof codes);
    memset(references, 0, sizeof references);
    memset(exponents, 0, sizeof exponents);
    for (size_t j = 0; j < n / length; j++)
        widths[j] = draw() % 4 ? 2 + (uint32_t)(draw() % 15) : 16;
    for (int k = 0; k < 2; k++) {
        _mm_setcsr(k ? begun : USUAL);
        answer[k] = megharutti_pack(in, n, length, mark, widths, n / length, codes[k], n, references[k], n / length, exponents[k], n / length);
    }
    _mm_setcsr(USUAL);
    same(what, "readings", (int)n, "length", (int)length, begun, !answer[0] && !answer[1] && !memcmp(references[0], references[1], sizeof references[0]) && !memcmp(exponents[0], exponents[1], sizeof exponents[0]) && !memcmp(codes[0], codes[1], sizeof codes[0]));
}

static void unpack(const char *what, const uint32_t *widths, const uint16_t *codes, size_t n, size_t length, const uint32_t *patterns, const int32_t *exponents) {
    static uint64_t readings[2][LONG];
    static float references[LONG];
    uint32_t answer[2];
    memcpy(references, patterns, n / length * 4);
    memset(readings, 0, sizeof readings);
    for (int k = 0; k < 2; k++) {
        _mm_setcsr(k ? begun : USUAL);
        answer[k] = megharutti_unpack(widths, n / length, codes, n, references, n / length, exponents, n / length, length, nan_mark, readings[k], n);
    }
    _mm_setcsr(USUAL);
    same(what, "codes", (int)n, "length", (int)length, begun, answer[0] == answer[1] && !memcmp(readings[0], readings[1], sizeof readings[0]));
}

/* ---- the first reading beyond 2^p: arrays of pairs, of one width */

enum { PAIRS = 256, FOUND = 3 };
struct pairs { size_t n; uint32_t singles[2][PAIRS]; uint64_t doubles[2][PAIRS]; };

static uint32_t first_beyond(int wide, const struct pairs *of, size_t from, int p, uint64_t *found) {
    size_t n = of->n - from;
    if (wide)
        return megharutti_first_beyond_doubles(of->doubles[0] + from, n, of->doubles[1] + from, n, wide_mark, p, found);
    return megharutti_first_beyond_singles(of->singles[0] + from, n, of->singles[1] + from, n, mark, p, found);
}

static void put(struct pairs *to, size_t at, const struct pairs *of, size_t from) {
    for (int k = 0; k < 2; k++) {
        to->singles[k][at] = of->singles[k][from];
        to->doubles[k][at] = of->doubles[k][from];
    }
}

/* Both answers of a call on the pairs from a place on, and what they wrote. Answers the place after the one found, with the usual settings, or 0. */
static size_t compare(const char *what, int wide, const struct pairs *of, size_t from, int p, unsigned settings) {
    uint64_t found[2][FOUND + GUARDS];
    uint32_t answer[2];
    for (int i = 0; i < 2 * (FOUND + GUARDS); i++)
        found[i / (FOUND + GUARDS)][i % (FOUND + GUARDS)] = untold;
    for (int k = 0; k < 2; k++) {
        _mm_setcsr(k ? settings : USUAL);
        answer[k] = first_beyond(wide, of, from, p, found[k]);
    }
    _mm_setcsr(USUAL);
    int is = answer[0] == answer[1] && !memcmp(found[0], found[1], sizeof found[0]) && found[1][FOUND] == untold;
    same(what, wide ? "doubles from" : "singles from", (int)from, "p", p, settings, is);
    return !answer[0] && found[0][0] ? from + (size_t)found[0][1] + 1 : 0;
}

/* From each place found on to the next, so that each pair decides an answer. Then those that are within alone, so that none ends the reading, and with some that are beyond among
 * them. */
static void every_pair(const char *what, int wide, const struct pairs *of, int p, unsigned settings) {
    static struct pairs within, beyond, one;
    size_t from = 0, next;
    within.n = beyond.n = 0;
    do {
        next = compare(what, wide, of, from, p, settings);
        for (; from < (next ? next - 1 : of->n); from++)
            put(&within, within.n++, of, from);
        if (next)
            put(&beyond, beyond.n++, of, from++);
    } while (next);
    compare(what, wide, &within, 0, p, settings);
    for (size_t i = 0; i < beyond.n && within.n; i += 7) {
        size_t at = draw() % within.n;
        put(&one, 0, &within, at);
        put(&within, at, &beyond, i);
        compare(what, wide, &within, 0, p, settings);
        put(&within, at, &one, 0);
    }
    any_beyond += beyond.n;
    any_within += within.n;
}

/* The pattern of 2^unit least spacings; 0 where it is none. */
static uint64_t power(int wide, int unit) {
    int f = wide ? 52 : 23;
    return unit < 0 ? 0 : unit < f ? UINT64_C(1) << unit : (uint64_t)(unit - f + 1) << f;
}

/* A reading next to 2^unit, or so many patterns further at most. */
static uint64_t beside(int wide, int unit, uint64_t far) {
    uint64_t m = power(wide, unit), by = draw() % (2 * far + 1);
    return m + by < far ? 0 : m + by - far;
}

/* Pairs whose difference is about 2^p, or a subnormal number. Where they lie far apart, or have opposite signs, a subtraction rounds. */
static void fill_pairs(int wide, struct pairs *to, int p) {
    int f = wide ? 52 : 23, unit = p + (wide ? 1074 : 149);
    uint64_t sign = UINT64_C(1) << (wide ? 63 : 31), top = wide ? UINT64_C(0x7FEFFFFFFFFFFFFF) : 0x7F7FFFFF;
    for (to->n = 0; to->n < PAIRS; to->n++) {
        uint64_t low = draw() & ((UINT64_C(1) << draw() % (f + 1)) - 1), x[2] = {beside(wide, unit, 2), low};
        switch (to->n % 8) {
        case 0: break; /* 2^p and a subnormal number */
        case 1: x[1] = beside(wide, unit - f - (int)(draw() % 4), 1); break; /* 2^p and half of its spacing */
        case 2: x[0] = beside(wide, unit - 1, 2), x[1] = beside(wide, unit - 1, 2) ^ sign; break; /* two halves */
        case 3: x[0] = power(wide, unit + f) + low, x[1] = x[0] + draw() % 3; break; /* neighbours, 2^p apart */
        case 4: x[0] = draw() & ((UINT64_C(1) << draw() % (f + 1)) - 1); break; /* two subnormal numbers */
        case 5: x[0] = beside(wide, f, 40), x[1] = draw() % 2 ? beside(wide, f, 40) : x[1]; break; /* about the least normal number */
        case 6: x[0] = beside(wide, f + (int)(draw() % 6), 40), x[1] = x[0] + draw() % 40; break; /* a little more */
        default: x[0] = draw() % top, x[1] = draw() % 2 ? x[0] + 1 : draw() % top;
        }
        for (int k = 0, swapped = draw() % 2; k < 2; k++) {
            uint64_t m = x[k ^ swapped] & (sign - 1), pattern = (m > top ? top : m) | (x[k ^ swapped] & sign);
            pattern ^= draw() % 4 ? 0 : sign;
            to->singles[k][to->n] = (uint32_t)pattern;
            to->doubles[k][to->n] = pattern;
        }
    }
}

/* ---- the readings: subnormal numbers of every length and zeros, both of these mixed with the normal numbers next to them, all patterns, and every 2^k and 3 * 2^k least
 * spacings, which are ties */

static uint32_t tiny[N], mixed[N], any[N], powers[N];
static uint64_t wide_tiny[N], wide_mixed[N], wide_any[N];

static void fill(void) {
    for (int i = 0; i < N; i++) {
        uint32_t sign = (uint32_t)(draw() & 1) << 31;
        uint64_t wide_sign = (draw() & 1) << 63;
        tiny[i] = sign | (uint32_t)(draw() & ((1u << draw() % 24) - 1));
        mixed[i] = draw() & 1 ? tiny[i] : sign | (uint32_t)(0x00800000 + draw() % (60u << 23));
        any[i] = (uint32_t)draw();
        powers[i] = (i / 24 % 2 ? 3u : 1u) << i % 24 | sign;
        wide_tiny[i] = wide_sign | (draw() & ((UINT64_C(1) << draw() % 53) - 1));
        wide_mixed[i] = draw() & 1 ? wide_tiny[i] : wide_sign | (UINT64_C(0x0010000000000000) + draw() % (UINT64_C(90) << 52));
        wide_any[i] = draw();
    }
}

/* ---- with subnormal numbers taken for zero: every call */

static void every_trim(void) {
    for (int p = -150; p <= 128; p++) {
        trim_singles("subnormal singles", tiny, ABSOLUTE, p, mark, begun);
        trim_singles("subnormal singles, and a subnormal mark", tiny, ABSOLUTE, p, 0x00400000, begun);
        trim_singles("mixed singles", mixed, ABSOLUTE, p, mark, begun);
        trim_singles("all singles", any, ABSOLUTE, p, mark, begun);
        trim_singles("2^k and 3 * 2^k least spacings", powers, ABSOLUTE, p, mark, begun);
    }
    for (int p = -1075; p <= 1024; p++) {
        trim_doubles("subnormal doubles", wide_tiny, ABSOLUTE, p, wide_mark, begun);
        trim_doubles("mixed doubles", wide_mixed, ABSOLUTE, p, wide_mark, begun);
        if (p % 8 == 0 || p < -1000)
            trim_doubles("all doubles", wide_any, ABSOLUTE, p, wide_mark, begun);
    }
    for (int method = 0; method <= 7; method++)
        for (int setting = -1; setting <= 53 && method != ABSOLUTE; setting++) {
            trim_doubles("mixed doubles", wide_mixed, method, setting, wide_mark, begun);
            trim_doubles("all doubles", wide_any, method, setting, wide_mark, begun);
            if (setting <= 24) {
                trim_singles("mixed singles", mixed, method, setting, mark, begun);
                trim_singles("all singles", any, method, setting, mark, begun);
            }
        }
}

/* A present reading of a layer: zeros of both signs, the ends of the subnormal numbers and the normal number after them, subnormal numbers, and others of so many binades. */
static uint32_t reading(uint32_t binades, int negative, uint32_t one_in) {
    const uint32_t ends[6] = {0x00000000, 0x00000001, 0x007FFFFE, 0x007FFFFF, 0x00800000, 0x00800001};
    uint32_t sign = negative ? (uint32_t)(draw() & 1) << 31 : 0;
    if (draw() % 23 == 0)
        return sign | ends[draw() % 6];
    return sign | (uint32_t)(draw() % one_in ? draw() % ((uint64_t)binades << 23) : draw() % 0x00800000);
}

static void every_packing(void) {
    static uint32_t in[LONG];
    for (int k = 0; k < 3000; k++) {
        size_t length = 1 + draw() % 400, n = length * (1 + draw() % 3);
        uint32_t binades = 1 + (uint32_t)(draw() % (k % 5 ? 254 : 3)), one_in = 1 + (uint32_t)(draw() % 60);
        for (size_t i = 0; i < n; i++)
            in[i] = draw() % 17 ? reading(binades, k % 3, one_in) : mark;
        pack("layers with some subnormal singles", in, n, length);
        for (size_t i = 0; i < n; i++)
            if (in[i] != mark)
                in[i] = (in[i] & 0x80000000) | in[i] % 0x00800000;
        pack("layers of subnormal singles", in, n, length);
        for (size_t i = 0; i < n; i++)
            if (in[i] != mark)
                in[i] = i % 9 ? 1 + (uint32_t)(draw() % 0x01000000) : 1;
        pack("layers with a subnormal reference", in, n, length);
    }
    /* one subnormal single, or -0, among normal ones, in a short layer and in the longest */
    const uint32_t one[6] = {0x007FFFFF, 0x807FFFFF, 0x00000001, 0x80000001, 0x00400000, 0x80000000};
    for (int k = 0; k < 60; k++) {
        size_t n = k % 2 ? 65536 : 9;
        for (size_t i = 0; i < n; i++)
            in[i] = 0x00800000 + (uint32_t)(draw() % (4u << 23));
        in[draw() % n] = one[k / 2 % 6];
        pack("a layer with one subnormal single or -0", in, n, n);
    }
}

static void every_unpacking(void) {
    static uint16_t codes[LONG];
    uint32_t patterns[4], widths[4];
    int32_t exponents[4];
    const uint32_t ends[4] = {0x007FFFFF, 0x00000001, 0x00800000, 0x00400001};
    for (int k = 0; k < 2000; k++) {
        size_t length = k < 40 ? 65536 : 1 + draw() % 99, layers = k < 40 ? 1 : 1 + draw() % 4;
        for (size_t i = 0; i < length * layers; i++)
            codes[i] = (uint16_t)(k < 40 ? i : draw());
        for (size_t j = 0; j < layers; j++) {
            widths[j] = k < 40 || draw() % 4 == 0 ? 16 : 2 + (uint32_t)(draw() % 15);
            for (size_t i = j * length; i < (j + 1) * length; i++)
                codes[i] &= MEGHARUTTI_MISSING_CODE(widths[j]);
            uint32_t field = draw() % 3 ? 0 : (uint32_t)(draw() % 255);
            patterns[j] = (uint32_t)(draw() & 1) << 31 | (draw() % 5 ? field << 23 | (uint32_t)(draw() & ((1u << draw() % 24) - 1)) : ends[draw() % 4]);
            exponents[j] = draw() % 4 ? (int32_t)(draw() % 278) - 149 : -149 + (int32_t)(draw() % 9);
        }
        if (k % 50 == 49)
            exponents[0] = k % 100 == 99 ? -150 : 129;
        if (k % 50 == 48 && widths[0] < 16)
            codes[length / 2] = (uint16_t)(1u << widths[0]);
        unpack("codes of references of every kind", widths, codes, length * layers, length, patterns, exponents);
    }
}

/* ---- with another direction of rounding, and every float exception trapped, so that a float operation that isn't exact ends this program: what goes by whole numbers.
 * An array's absolute steps, packing and unpacking need the usual settings for these. */

static void every_direction(void) {
    const unsigned directions[3] = {DOWNWARDS, UPWARDS, TOWARDS_ZERO | SUBNORMAL_RESULTS_LOST | SUBNORMAL_OPERANDS_LOST};
    for (int k = 0; k < 3; k++)
        for (int method = 0; method <= 6; method++)
            for (int setting = 0; setting <= 52 && method != ABSOLUTE; setting++) {
                trim_doubles("all doubles, another direction", wide_any, method, setting, wide_mark, directions[k]);
                if (setting <= 23)
                    trim_singles("all singles, another direction", any, method, setting, mark, directions[k]);
            }
    for (int p = -149; p <= 127; p++)
        for (int i = 0; i < N; i += 29) {
            uint64_t usual = megharutti_trim_single(any[i], ABSOLUTE, p, mark, 0);
            _mm_setcsr(directions[i % 3]);
            uint64_t other = megharutti_trim_single(any[i], ABSOLUTE, p, mark, 0);
            _mm_setcsr(USUAL);
            same("the loader's call, another direction", "method", ABSOLUTE, "setting", p, directions[i % 3], usual == other);
        }
}

/* The first reading beyond 2^p is computed with floats, and is the same however the processor rounds: with subnormal numbers taken for zero, with each direction, and with both.
 * No exception may be trapped. */
static void every_limit(void) {
    static struct pairs pairs;
    const unsigned lost = SUBNORMAL_RESULTS_LOST | SUBNORMAL_OPERANDS_LOST;
    const unsigned settings[9] = {begun, USUAL | SUBNORMAL_RESULTS_LOST, USUAL | SUBNORMAL_OPERANDS_LOST, USUAL | DOWNWARDS, USUAL | UPWARDS, USUAL | TOWARDS_ZERO,
                                  USUAL | DOWNWARDS | lost, USUAL | UPWARDS | lost, USUAL | TOWARDS_ZERO | lost};
    for (int i = 0; i < 18; i++) {
        int wide = i % 2, least = wide ? -1074 : -149, most = wide ? 1023 : 127;
        for (int p = least - 1; p <= most + 1; p++) {
            fill_pairs(wide, &pairs, p);
            every_pair("first beyond", wide, &pairs, p, settings[i / 2]);
        }
    }
}

/* ---- what documents 01 and 02 say, with subnormal numbers taken for zero */

/* The first reading beyond 2^p: raw, trimmed, p, and whether it is beyond. */
static void limits(void) {
    const struct { uint64_t raw, trimmed; int p, is; } singles[16] = {
        {0x00000001, 0x80000001, -149, 1}, {0x00000001, 0x00000002, -149, 0}, {0x00000001, 0x00000003, -149, 1}, {0x00000000, 0x80000001, -149, 0},
        {0x00800000, 0x007FFFFF, -149, 0}, {0x00800001, 0x007FFFFF, -149, 1}, {0x00800000, 0x80000000, -126, 0}, {0x00800000, 0x80000001, -126, 1},
        {0x007FFFFF, 0x80000001, -126, 0}, {0x007FFFFF, 0x80000002, -126, 1}, {0x3F800000, 0x80000001, 0, 1}, {0x3F800000, 0x00000001, 0, 0},
        {0x3F000000, 0xBF000001, 0, 1}, {0x7F7FFFFF, 0xFF7FFFFF, 127, 1}, {0x7F000000, 0x80000001, 127, 1},
        {0x00C00000, 0x00800000, -128, 1}};
    const struct { uint64_t raw, trimmed; int p, is; } doubles[9] = {
        {0x0000000000000001, 0x8000000000000001, -1074, 1}, {0x0010000000000000, 0x000FFFFFFFFFFFFF, -1074, 0}, {0x0010000000000001, 0x000FFFFFFFFFFFFF, -1074, 1},
        {0x0010000000000000, 0x8000000000000001, -1022, 1}, {0x000FFFFFFFFFFFFF, 0x8000000000000001, -1022, 0}, {0x3FF0000000000000, 0x8000000000000001, 0, 1},
        {0x3FE0000000000000, 0xBFE0000000000001, 0, 1}, {0x7FE0000000000000, 0x8000000000000001, 1023, 1},
        {0x0018000000000000, 0x0010000000000000, -1024, 1}};
    const unsigned settings[6] = {begun, USUAL | SUBNORMAL_RESULTS_LOST, USUAL | SUBNORMAL_OPERANDS_LOST, USUAL | DOWNWARDS, USUAL | UPWARDS, USUAL | TOWARDS_ZERO};
    uint64_t found[3];
    for (int k = 0; k < 6; k++) {
        for (int i = 0; i < 16; i++) {
            const uint32_t raw[2] = {0, (uint32_t)singles[i].raw}, trimmed[2] = {0, (uint32_t)singles[i].trimmed};
            _mm_setcsr(settings[k]);
            check("singles compared", megharutti_first_beyond_singles(raw, 2, trimmed, 2, mark, singles[i].p, found), 0);
            _mm_setcsr(USUAL);
            check("a single is beyond", found[0], singles[i].is);
            check("the single's place", found[1], singles[i].is);
            check("singles read", found[2], 2);
        }
        for (int i = 0; i < 9; i++) {
            const uint64_t raw[2] = {0, doubles[i].raw}, trimmed[2] = {0, doubles[i].trimmed};
            _mm_setcsr(settings[k]);
            check("doubles compared", megharutti_first_beyond_doubles(raw, 2, trimmed, 2, wide_mark, doubles[i].p, found), 0);
            _mm_setcsr(USUAL);
            check("a double is beyond", found[0], doubles[i].is);
            check("the double's place", found[1], doubles[i].is);
            check("doubles read", found[2], 2);
        }
        /* a subnormal mark is no zero, and no other subnormal number; nor is a zero a subnormal mark */
        const uint32_t raw[3] = {0x00000001, 0x00000002, 0x00000000}, trimmed[3] = {0x80000007, 0x80000002, 0x00000007};
        _mm_setcsr(settings[k]);
        check("with a subnormal mark", megharutti_first_beyond_singles(raw, 3, trimmed, 3, 0x00000001, -149, found), 0);
        check("the mark's place isn't found", found[1], 1);
        check("with another", megharutti_first_beyond_singles(raw, 3, trimmed, 3, 0x00000002, -147, found), 0);
        check("a single beside the mark", found[0] + found[1] + found[2], 2);
        check("with a mark +0", megharutti_first_beyond_singles(raw, 3, trimmed, 3, 0x00000000, -148, found), 0);
        check("a subnormal number is present", found[0] + found[1] + found[2], 2);
        _mm_setcsr(USUAL);
    }
}

static void cases(void) {
    uint64_t counts[7] = {9, 9, 9, 9, 9, 9, 9}; /* the last is none of them */
    uint32_t singles[4] = {0x00000001, 0x80400000, 0x007FFFFF, 0x00000000};
    uint64_t doubles[3] = {0x0008000000000000, 0x8000000000000001, 0x800FFFFFFFFFFFFF};
    _mm_setcsr(begun);
    check("absolute -149", megharutti_trim_singles(singles, 4, ABSOLUTE, -149, mark, counts), 0);
    check("absolute -149 of 00000001", singles[0], 0x00000001);
    check("absolute -149 of 80400000", singles[1], 0x80400000);
    check("absolute -149 of 007FFFFF", singles[2], 0x007FFFFF);
    check("absolute -149 changes nothing", counts[0] + counts[4] + counts[5], 0);
    check("absolute -126", megharutti_trim_singles(singles, 4, ABSOLUTE, -126, mark, counts), 0);
    check("absolute -126 of 00000001, below half a unit", singles[0], 0x00000000);
    check("absolute -126 of 80400000, a tie", singles[1], 0x80000000);
    check("absolute -126 of 007FFFFF, above half a unit", singles[2], 0x00800000);
    check("absolute -126 changes three", counts[0], 3);
    check("absolute -126 raises 80400000 and 007FFFFF", counts[4], 2);
    check("absolute -126 lowers 00000001", counts[5], 1);
    check("behind the counts", counts[6], 9);
    check("absolute -1074", megharutti_trim_doubles(doubles, 3, ABSOLUTE, -1074, wide_mark, counts), 0);
    check("absolute -1074 of 0008000000000000", doubles[0], 0x0008000000000000);
    check("absolute -1074 changes nothing", counts[0] + counts[4] + counts[5], 0);
    check("shave 0", megharutti_trim_doubles(doubles, 3, MEGHARUTTI_SHAVE, 0, wide_mark, counts), 0);
    check("shave 0 of 800FFFFFFFFFFFFF", doubles[2], 0x8000000000000000);
    check("shave 0 raises two", counts[4], 2);
    check("shave 0 lowers one", counts[5], 1);
    check("behind the counts of doubles", counts[6], 9);
    /* the loader's number, with 2^33 for a rise and 2^34 for a fall */
    check("absolute -126 of 00000001, a fall", megharutti_trim_single(0x00000001, ABSOLUTE, -126, mark, 0), 0x400000000);
    check("absolute -126 of 80000001, a rise", megharutti_trim_single(0x80000001, ABSOLUTE, -126, mark, 0), 0x280000000);
    check("absolute -148 of 00000003, a tie, a rise", megharutti_trim_single(0x00000003, ABSOLUTE, -148, mark, 0), 0x200000004);
    check("absolute -149 of 80000001 stays", megharutti_trim_single(0x80000001, ABSOLUTE, -149, mark, 0), 0x080000001);
    check("shave 22 of 80000003, a rise", megharutti_trim_single(0x80000003, MEGHARUTTI_SHAVE, 22, mark, 0), 0x280000002);
    check("set 20 of 00000001, a rise", megharutti_trim_single(0x00000001, MEGHARUTTI_SET, 20, mark, 0), 0x200000007);
    check("shave 24 of 80000003, refused", megharutti_trim_single(0x80000003, MEGHARUTTI_SHAVE, 24, mark, 0), 0x100000002);

    /* grooming's turns: subnormal numbers and zeros take one, NaNs, infinities and missing readings don't */
    const uint32_t before[9] = {0x00000003, 0x80000002, 0x7F800001, 0x00000000, mark, 0x00000002, 0xFF800000, 0x80000000, 0x007FFFFE};
    const uint32_t after[9] = {0x00000002, 0x80000003, 0x7F800001, 0x00000000, mark, 0x00000003, 0xFF800000, 0x80000000, 0x007FFFFF};
    const uint64_t turns[9] = {0, 1, 2, 2, 3, 3, 4, 4, 5};
    uint32_t groomed[9];
    memcpy(groomed, before, sizeof groomed);
    check("groom 22", megharutti_trim_singles(groomed, 9, MEGHARUTTI_GROOM, 22, mark, counts), 0);
    for (int i = 0; i < 9; i++) {
        check("groom 22 by turns", groomed[i], after[i]);
        check("groom 22 of a single at its turn", (uint32_t)megharutti_trim_single(before[i], MEGHARUTTI_GROOM, 22, mark, turns[i]), after[i]);
    }
    check("groom 22 changes four", counts[0], 4);
    check("groom 22 raises two", counts[4], 2);
    check("groom 22 lowers two", counts[5], 2);
    check("groom 22 finds one missing", counts[3], 1);
    uint64_t wide[6] = {0x0000000000000003, 0xFFF0000000000000, wide_mark, 0x8000000000000004, 0x8000000000000000, 0x800FFFFFFFFFFFFC};
    check("groom 50", megharutti_trim_doubles(wide, 6, MEGHARUTTI_GROOM, 50, wide_mark, counts), 0);
    check("groom 50 of the first, a shave", wide[0], 0x0000000000000000);
    check("groom 50 of the second, a set", wide[3], 0x8000000000000007);
    check("groom 50 of a zero, a shave", wide[4], 0x8000000000000000);
    check("groom 50 of the fourth, a set", wide[5], 0x800FFFFFFFFFFFFF);

    const uint32_t sixteen[1] = {16}, p12[2][2] = {{0x00000000, 0x0000FFFE}, {0x00000000, 0x0000FFFF}};
    const int32_t exponents[2] = {-149, -148};
    const uint16_t last[2] = {65534, 32768};
    for (int k = 0; k < 2; k++) {
        uint16_t codes[2] = {7, 7};
        float reference[1] = {1};
        int32_t exponent[1] = {7};
        check("P12 packed", megharutti_pack(p12[k], 2, 2, mark, sixteen, 1, codes, 2, reference, 1, exponent, 1), 0);
        check("P12's exponent", (uint64_t)(exponent[0] + 149), (uint64_t)(exponents[k] + 149));
        check("P12's first code", codes[0], 0);
        check("P12's last code", codes[1], last[k]);
    }

    /* 0000FFFE is 65534 times 2^-149: as a double 65534 has the field 1038, so this has 1038 - 149 = 889 = 379 in hexadecimal */
    const uint16_t codes[3] = {0, 65534, 65535};
    const uint32_t patterns[2] = {0x0000FFFE, 0x8000FFFE};
    const uint64_t first[2] = {0x379FFFC000000000, 0xB79FFFC000000000}, second[2] = {0x37AFFFC000000000, 0};
    const int32_t exponent[1] = {-149};
    for (int k = 0; k < 2; k++) {
        float reference[1];
        uint64_t readings[3] = {7, 7, 7};
        memcpy(reference, &patterns[k], 4);
        check("unpacked", megharutti_unpack(sixteen, 1, codes, 3, reference, 1, exponent, 1, 3, nan_mark, readings, 3), 0);
        check("a subnormal reference", readings[0], first[k]);
        check("a subnormal reference and 65534 steps", readings[1], second[k]);
        check("the double mark", readings[2], nan_mark);
    }

    /* (e): of 4 bits 14 steps hold a span, and of 2 bits 2; 2 and 14 least spacings are just so many, and one more is not */
    const uint32_t few[4][2] = {{0x80000001, 0x00000001}, {0x80000001, 0x00000002}, {0x00000000, 0x0000000E}, {0x00000000, 0x0000000F}};
    const uint32_t narrow[4] = {2, 2, 4, 4};
    const uint16_t tops[4] = {2, 2, 14, 8};
    for (int k = 0; k < 4; k++) {
        uint16_t two[2] = {7, 7};
        float reference[1] = {1};
        int32_t found[1] = {7};
        uint64_t readings[2] = {7, 7};
        check("a narrow layer packed", megharutti_pack(few[k], 2, 2, mark, &narrow[k], 1, two, 2, reference, 1, found, 1), 0);
        check("its exponent", (uint64_t)(found[0] + 149), k % 2);
        check("its first code", two[0], 0);
        check("its last code", two[1], tops[k]);
        two[0] = (uint16_t)MEGHARUTTI_MISSING_CODE(narrow[k]);
        check("unpacked again", megharutti_unpack(&narrow[k], 1, two, 2, reference, 1, found, 1, 2, nan_mark, readings, 2), 0);
        check("its missing code", readings[0], nan_mark);
    }
    _mm_setcsr(USUAL);
}

int main(void) {
    begun = _mm_getcsr();
    if (!(begun & SUBNORMAL_RESULTS_LOST) || !(begun & SUBNORMAL_OPERANDS_LOST)) {
        puts("settings: this program shows nothing: link it with -ffast-math");
        return 2;
    }
    setvbuf(stdout, NULL, _IONBF, 0); /* a float exception that is trapped ends this program, and loses no line */
    fill();
    cases();
    limits();
    every_trim();
    every_packing();
    every_unpacking();
    every_direction();
    every_limit();
    printf("settings: %" PRIu64 " calls, %" PRIu64 " differ; %" PRIu64 " cases wrong; %" PRIu64 " readings rose, %" PRIu64 " fell; %" PRIu64 " pairs beyond, %" PRIu64 " within\n", calls, differing, wrong, any_risen, any_fallen,
           any_beyond, any_within);
    return differing || wrong || !any_risen || !any_fallen || !any_beyond || !any_within;
}
