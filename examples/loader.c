/* As a loader of the archive would: a reading is trimmed as it comes in, and an array of them at once. Built by
 *     gcc examples/loader.c target/staticlib/libcapi.a -o target/loader
 */
#include "../include/megharutti.h"
#include <inttypes.h>
#include <stdio.h>
#include <string.h>

static uint32_t pattern(float reading) {
    uint32_t bits;
    memcpy(&bits, &reading, sizeof bits);
    return bits;
}

static float value(uint32_t bits) {
    float reading;
    memcpy(&reading, &bits, sizeof reading);
    return reading;
}

/* Whether a reading takes a turn when it is groomed: it is present and finite. */
static int takes_turn(uint32_t bits, uint32_t mark) {
    return bits != mark && (bits & 0x7F800000) != 0x7F800000;
}

int main(void) {
    const uint32_t mark = 0x7CF00000; /* the network's mark for a missing reading */

    /* One reading, to 7 keep bits. The lower half of the answer is the pattern, or the number of a refusal; the upper half says which. */
    uint64_t one = megharutti_trim_single(pattern(3.14159274f), MEGHARUTTI_ROUND, 7, mark, 0);
    uint32_t half = (uint32_t)one, above = (uint32_t)(one >> 32);
    if (above == 1)
        return printf("refused, %" PRIu32 "\n", half), 1;
    printf("one reading: %08" PRIX32 ", %.7g, %s\n", half, value(half), above == 2 ? "rose" : above == 4 ? "fell" : "stayed");

    /* Readings of a station that reports every second slot, groomed one by one: the first is shaved, the next set. The turn goes on only behind a
     * reading that is present and finite. */
    const uint32_t slots[] = {pattern(3.14159274f), mark, pattern(3.14159274f), mark};
    uint64_t turn = 0;
    for (size_t i = 0; i < sizeof slots / sizeof *slots; i++) {
        printf("slot %zu: %08" PRIX32 "\n", i, (uint32_t)megharutti_trim_single(slots[i], MEGHARUTTI_GROOM, 7, mark, turn));
        turn += takes_turn(slots[i], mark);
    }

    /* An array, to the nearest eighth. */
    uint32_t rain[] = {pattern(0.0f), pattern(0.2f), mark, pattern(12.3f), pattern(3.4e38f)};
    const size_t n = sizeof rain / sizeof *rain;
    uint64_t counts[6];
    uint32_t answer = megharutti_trim_singles(rain, n, MEGHARUTTI_ABSOLUTE, -3, mark, counts);
    if (answer != MEGHARUTTI_ACCEPTED)
        return printf("refused, %" PRIu32 "\n", answer), 1;
    for (size_t i = 0; i < n; i++)
        if (rain[i] == mark)
            puts("missing");
        else
            printf("%08" PRIX32 ", %.7g\n", rain[i], value(rain[i]));
    printf("changed %" PRIu64 ", spared %" PRIu64 ", clipped %" PRIu64 ", missing %" PRIu64 ", risen %" PRIu64 ", fallen %" PRIu64 "\n", counts[0], counts[1],
           counts[2], counts[3], counts[4], counts[5]);

    /* A setting out of range is refused, and the array is as it was. */
    answer = megharutti_trim_singles(rain, n, MEGHARUTTI_ROUND, 24, mark, counts);
    printf("keep bits 24: refused, %" PRIu32 "\n", answer);
    return 0;
}
