/* What both benchmarks of trims use: each method with the setting that is timed, the marks, and how a reading is stored. */
#include <stdint.h>
#include <string.h>

enum { KEEP = 7 };

static const char *name[] = {"shave", "set", "groom", "halfshave", "round", "absolute", "digits"};
static const int setting[] = {KEEP, KEEP, KEEP, KEEP, KEEP, -5, 3};
static const uint32_t mark32 = 0x7CF00000;
static const uint64_t mark64 = 0x479E000000000000;

/* v at place i of an array of singles, or of doubles where `wide`; the mark where it is gone. */
static void put(void *to, size_t i, int wide, double v, int gone) {
    float f = (float)v;
    if (wide)
        memcpy((uint64_t *)to + i, gone ? (const void *)&mark64 : &v, 8);
    else
        memcpy((uint32_t *)to + i, gone ? (const void *)&mark32 : &f, 4);
}
