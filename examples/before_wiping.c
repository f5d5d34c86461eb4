/* Compare before you wipe: the readings as the sensors sent them beside what trimming left. Built by
 *     gcc examples/before_wiping.c target/staticlib/libcapi.a -o target/before_wiping
 */
#include "../include/megharutti.h"
#include <inttypes.h>
#include <stdio.h>
#include <string.h>

enum { N = 6 };
static const uint32_t mark = 0x7CF00000; /* the network's mark for a missing reading */

static uint32_t pattern(float reading) {
    uint32_t bits;
    memcpy(&bits, &reading, sizeof bits);
    return bits;
}

/* The first place where a reading is missing, infinite or a NaN on either side and the patterns differ, or N. Trimming leaves such a pattern as it was, and the comparison passes over
 * it: so this is asked beside it. */
static int left_out(uint32_t reading) { return reading == mark || (reading & 0x7F800000) == 0x7F800000; }

static size_t first_lost(const uint32_t *sent, const uint32_t *kept) {
    size_t i = 0;
    while (i < N && (sent[i] == kept[i] || !(left_out(sent[i]) || left_out(kept[i]))))
        i++;
    return i;
}

/* Says what lies more than 2^p apart, or was lost, and answers whether the readings that were sent may go. */
static int may_wipe(const uint32_t *sent, const uint32_t *kept, size_t n_kept, int p) {
    uint64_t found[3];
    uint32_t answer = megharutti_first_beyond_singles(sent, N, kept, n_kept, mark, p, found);
    if (answer != MEGHARUTTI_ACCEPTED)
        return printf("2^%d: refused, %" PRIu32 "%s\n", p, answer, answer == MEGHARUTTI_LENGTHS_DIFFER ? ", the arrays differ in length" : ""), 0;
    if (found[0])
        return printf("2^%d: place %" PRIu64 " is beyond, %" PRIu64 " read\n", p, found[1], found[2]), 0;
    if (first_lost(sent, kept) < N)
        return printf("2^%d: place %zu was lost\n", p, first_lost(sent, kept)), 0;
    return printf("2^%d: none is beyond, %" PRIu64 " read\n", p, found[2]), 1;
}

int main(void) {
    const uint32_t sent[N] = {pattern(0.0f), pattern(0.2f), mark, pattern(12.3f), pattern(-4.06f), pattern(12.25f)};
    uint32_t kept[N];
    uint64_t counts[6];
    memcpy(kept, sent, sizeof kept);

    /* To the nearest eighth. Steps of 2^-3 leave nothing more than 2^-3 away: that is proved. But was it this file, this job, this disk? */
    if (megharutti_trim_singles(kept, N, MEGHARUTTI_ABSOLUTE, -3, mark, counts) != MEGHARUTTI_ACCEPTED)
        return puts("not trimmed"), 1;
    puts(may_wipe(sent, kept, N, -3) ? "wipe" : "don't wipe");

    /* One rounding moves a reading by at most half a step, so nothing is beyond 2^-4 either. But 0.2 became 0.25, which is more than 2^-6 away. */
    may_wipe(sent, kept, N, -4);
    may_wipe(sent, kept, N, -6);

    /* A bit that flipped on the way is found, and nothing behind it is read. */
    kept[3] ^= 0x00400000;
    puts(may_wipe(sent, kept, N, -3) ? "wipe" : "don't wipe");
    kept[3] ^= 0x00400000;

    /* A reading that went missing is not beyond: it is lost. */
    uint32_t there = kept[5];
    kept[5] = mark;
    puts(may_wipe(sent, kept, N, -3) ? "wipe" : "don't wipe");
    kept[5] = there;

    /* Arrays of different lengths and a p out of range are refused. Nothing is known then, so nothing is wiped. */
    may_wipe(sent, kept, N - 1, -3);
    may_wipe(sent, kept, N, 200);
    return 0;
}
