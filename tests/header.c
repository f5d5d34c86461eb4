/* include/megharutti.h from C: every call that it declares, on cases of documents 01 and 02. */
#include "../include/megharutti.h"
#include <stdio.h>

static int failed = 0;

static void check(const char *what, uint64_t got, uint64_t expected) {
    if (got == expected)
        return;
    printf("header: %s: got %llX, expected %llX\n", what, (unsigned long long)got, (unsigned long long)expected);
    failed = 1;
}

int main(void) {
    const uint32_t mark = 0x7CF00000, pi = 0x40490FDB;
    uint64_t counts[7] = {9, 9, 9, 9, 9, 9, 9}; /* the last is none of them */

    /* each count is another number */
    uint32_t singles[16] = {pi, mark, 0x7F7FFFFF, 0xC0490FDB, 0xFF7FFFFF, 0xBF800001, 0xBFFFFFFF, 0x3FFFFFFF,
                            0xFF7FFFFE, 0x7CF00001, 0x7CEFFFFF, 0x00000001, 0xBF800000, 0x3F800000, 0x80000001, 0x7F800000};
    check("singles accepted", megharutti_trim_singles(singles, 16, 4, 7, mark, counts), 0);
    check("pi rounded", singles[0], 0x40490000);
    check("the mark", singles[1], mark);
    check("the largest finite single clipped", singles[2], 0x7F7F0000);
    check("-pi rounded", singles[3], 0xC0490000);
    check("the least finite single clipped", singles[4], 0xFF7F0000);
    check("a single below the mark spared", singles[10], 0x7CEFFFFF);
    check("a tiny single", singles[14], 0x80000000);
    check("changed", counts[0], 10);
    check("spared", counts[1], 2);
    check("clipped", counts[2], 3);
    check("missing", counts[3], 1);
    check("risen", counts[4], 6);
    check("fallen", counts[5], 4);
    check("behind the counts", counts[6], 9);

    check("singles refused", megharutti_trim_singles(singles, 16, 4, 24, mark, counts), 2);
    check("after a refusal", singles[0], 0x40490000);
    const uint64_t kept[7] = {10, 2, 3, 1, 6, 4, 9};
    for (int i = 0; i < 7; i++)
        check("counts after a refusal", counts[i], kept[i]);
    check("no readings", megharutti_trim_singles(singles, 0, 0, 0, mark, counts), 0);
    check("no places", counts[0] + counts[1] + counts[2] + counts[3] + counts[4] + counts[5], 0);

    uint64_t doubles[3] = {0x400921FB54442D18, 0xC00921FB54442D18, 0xBFF0000000000001};
    check("doubles accepted", megharutti_trim_doubles(doubles, 3, 0, 7, 0, counts), 0);
    check("pi shaved", doubles[0], 0x4009200000000000);
    check("-pi shaved", doubles[1], 0xC009200000000000);
    check("doubles changed", counts[0], 3);
    check("doubles risen", counts[4], 2);
    check("doubles fallen", counts[5], 1);
    check("behind the counts of doubles", counts[6], 9);
    check("doubles refused", megharutti_trim_doubles(doubles, 3, 7, 0, 0, counts), 1);
    check("doubles risen after a refusal", counts[4], 2);
    check("doubles fallen after a refusal", counts[5], 1);

    /* a station that reports every second slot is shaved and set in turns; zeros take one, missing readings, infinities and NaNs don't */
    const uint32_t slots[12] = {pi, mark, pi, mark, pi, mark, 0x80000000, 0x7F800000, pi, 0x7FC00001, pi, pi};
    const uint32_t turned[12] = {0x40490000, mark, 0x4049FFFF, mark, 0x40490000, mark, 0x80000000, 0x7F800000, 0x40490000, 0x7FC00001, 0x4049FFFF, 0x40490000};
    uint32_t station[12];
    uint64_t turn = 0;
    for (int i = 0; i < 12; i++)
        station[i] = slots[i];
    check("a station groomed", megharutti_trim_singles(station, 12, 2, 7, mark, counts), 0);
    for (int i = 0; i < 12; i++) {
        check("a reading of the station", station[i], turned[i]);
        check("the same alone at its turn", (uint32_t)megharutti_trim_single(slots[i], 2, 7, mark, turn), turned[i]);
        turn += slots[i] != mark && (slots[i] & 0x7FFFFFFF) < 0x7F800000;
    }
    check("turns of the station", turn, 7);
    check("the station's readings changed", counts[0], 6);
    check("the station's missing readings", counts[3], 3);
    check("the station's readings set", counts[4], 2);
    check("the station's readings shaved", counts[5], 4);
    uint64_t slow[5] = {0xFFF0000000000000, 0x400921FB54442D18, 0, 0x7FF0000000000001, 0x400921FB54442D18};
    check("doubles groomed", megharutti_trim_doubles(slow, 5, 2, 7, 0, counts), 0);
    check("the first double shaved", slow[1], 0x4009200000000000);
    check("the second double set", slow[4], 0x40093FFFFFFFFFFF);

    /* 2^33 is 200000000 in hexadecimal, for a rise, and 2^34 is 400000000, for a fall */
    check("groomed at an even turn", megharutti_trim_single(pi, 2, 7, mark, 0), 0x440490000);
    check("groomed at an odd turn", megharutti_trim_single(pi, 2, 7, mark, 0xFFFFFFFFFFFFFFFF), 0x24049FFFF);
    check("groomed at an even turn beyond 2^63", megharutti_trim_single(pi, 2, 7, mark, 0x8000000000000000), 0x440490000);
    check("groomed at an odd turn beyond 2^32", megharutti_trim_single(pi, 2, 7, mark, 0x100000001), 0x24049FFFF);
    check("-pi shaved, a rise", megharutti_trim_single(0xC0490FDB, 0, 7, mark, 0), 0x2C0490000);
    check("-pi set, a fall", megharutti_trim_single(0xC0490FDB, 1, 7, mark, 0), 0x4C049FFFF);
    check("-0.5 to -0, a rise", megharutti_trim_single(0xBF000000, 5, 0, mark, 0), 0x280000000);
    check("0.5 to +0, a fall", megharutti_trim_single(0x3F000000, 5, 0, mark, 0), 0x400000000);
    check("clipped, a fall", megharutti_trim_single(0x7F7FFFFF, 4, 7, mark, 0), 0x47F7F0000);
    check("clipped with the other sign, a rise", megharutti_trim_single(0xFF7FFFFF, 4, 7, mark, 0), 0x2FF7F0000);
    check("spared, neither", megharutti_trim_single(0x7CF00001, 4, 7, mark, 0), 0x07CF00001);
    check("missing, neither", megharutti_trim_single(pi, 4, 7, pi, 0), 0x040490FDB);
    check("on the grid, neither", megharutti_trim_single(0xC0490000, 4, 7, mark, 0), 0x0C0490000);
    check("-0, neither", megharutti_trim_single(0x80000000, 1, 7, mark, 0), 0x080000000);
    check("a NaN, neither", megharutti_trim_single(0xFFFFFFFF, 0, 7, mark, 0), 0x0FFFFFFFF);
    check("a single refused", megharutti_trim_single(pi, 7, 0, mark, 0), 0x100000001);
    check("a negative single refused", megharutti_trim_single(0xC0490FDB, 0, 24, mark, 0), 0x100000002);

    /* before the sensor's readings are wiped: is a trimmed one more than 1/4 off? */
    const uint32_t sent[7] = {pi, mark, 0x7F800000, 0x80000000, 0x3F800000, 0x3F800000, 0x40490FDB};
    const uint32_t stored[7] = {0x40490000, pi, 0, 0x3E800000, 0x3FA00000, 0x3FA00001, 0};
    uint64_t found[4] = {9, 9, 9, 9}; /* the last is none of them */
    check("singles compared", megharutti_first_beyond_singles(sent, 7, stored, 7, mark, -2, found), 0);
    check("one is beyond", found[0], 1);
    check("its place: exactly 1/4 isn't beyond", found[1], 5);
    check("so many read", found[2], 6);
    check("behind the numbers found", found[3], 9);
    check("lengths that differ", megharutti_first_beyond_singles(sent, 7, stored, 6, mark, -2, found), 10);
    check("lengths that differ, and p beyond its range", megharutti_first_beyond_singles(sent, 6, stored, 7, mark, 128, found), 10);
    check("p above its range", megharutti_first_beyond_singles(sent, 7, stored, 7, mark, 128, found), 2);
    check("p below its range", megharutti_first_beyond_singles(sent, 7, stored, 7, mark, -150, found), 2);
    check("p below its range, and no readings", megharutti_first_beyond_singles(sent, 0, stored, 0, mark, -150, found), 2);
    check("found, after refusals", found[0], 1);
    check("place, after refusals", found[1], 5);
    check("read, after refusals", found[2], 6);
    check("none among the first five", megharutti_first_beyond_singles(sent, 5, stored, 5, mark, -2, found), 0);
    check("none", found[0], 0);
    check("no place", found[1], 0);
    check("all read", found[2], 5);
    check("another mark", megharutti_first_beyond_singles(sent, 7, stored, 7, 0x7FC00000, -2, found), 0);
    check("what was missing is beyond", found[1], 1);
    check("the readings themselves", megharutti_first_beyond_singles(sent, 7, sent, 7, mark, -149, found), 0);
    check("are none", found[0] + found[1], 0);
    check("of seven", found[2], 7);
    check("no readings compared", megharutti_first_beyond_singles(sent, 0, stored, 0, mark, 127, found), 0);
    check("none read", found[0] + found[1] + found[2], 0);

    /* 1 and the least double below zero lie more than 1 apart, whatever a subtraction says */
    const uint64_t long_sent[3] = {0x3FF0000000000000, 0x400921FB54442D18, 0x3FF0000000000000};
    const uint64_t long_stored[3] = {0x4000000000000000, 0x7FF8000000000000, 0x8000000000000001};
    check("doubles compared", megharutti_first_beyond_doubles(long_sent, 3, long_stored, 3, 0, 0, found), 0);
    check("a double is beyond", found[0], 1);
    check("its place", found[1], 2);
    check("so many doubles read", found[2], 3);
    check("behind the numbers found of doubles", found[3], 9);
    check("doubles within 2^1", megharutti_first_beyond_doubles(long_sent, 3, long_stored, 3, 0, 1, found), 0);
    check("no double", found[0] + found[1], 0);
    check("all doubles read", found[2], 3);
    check("doubles of lengths that differ", megharutti_first_beyond_doubles(long_sent, 2, long_stored, 3, 0, 1024, found), 10);
    check("p above the doubles' range", megharutti_first_beyond_doubles(long_sent, 3, long_stored, 3, 0, 1024, found), 2);
    check("p below the doubles' range", megharutti_first_beyond_doubles(long_sent, 3, long_stored, 3, 0, -1075, found), 2);
    check("doubles read, after refusals", found[2], 3);

    /* two layers: 1.0, missing, 2.0; and one value, a zero that is -0 */
    const uint32_t raw[6] = {0x3F800000, mark, 0x40000000, 0x80000000, 0x00000000, mark};
    const uint32_t widths[3] = {16, 16, 0};
    uint16_t codes[7] = {7, 7, 7, 7, 7, 7, 7}; /* the last is none of them */
    float references[2] = {5, 5};
    int32_t exponents[2] = {5, 5};
    check("length 0", megharutti_pack(raw, 6, 0, mark, widths, 2, codes, 6, references, 2, exponents, 2), 3);
    check("no whole layers", megharutti_pack(raw, 6, 4, mark, widths, 2, codes, 6, references, 2, exponents, 2), 4);
    check("a code too few", megharutti_pack(raw, 6, 3, mark, widths, 2, codes, 5, references, 2, exponents, 2), 5);
    check("a reference too many", megharutti_pack(raw, 6, 3, mark, widths, 2, codes, 6, references, 3, exponents, 2), 5);
    check("a width too few", megharutti_pack(raw, 6, 3, mark, widths, 1, codes, 6, references, 2, exponents, 2), 5);
    check("a width too many, and out of range", megharutti_pack(raw, 6, 3, mark, widths, 3, codes, 6, references, 2, exponents, 2), 5);
    check("a width of 0", megharutti_pack(raw, 6, 3, mark, widths + 1, 2, codes, 6, references, 2, exponents, 2), MEGHARUTTI_WIDTH_OUT_OF_RANGE);
    check("an infinity", megharutti_pack((const uint32_t[1]){0x7F800000}, 1, 1, mark, widths, 1, codes, 1, references, 1, exponents, 1), 6);
    check("codes after refusals", codes[0], 7);
    check("packed", megharutti_pack(raw, 6, 3, mark, widths, 2, codes, 6, references, 2, exponents, 2), 0);
    check("code of the reference", codes[0], 0);
    check("missing code", codes[1], 65535);
    check("missing code by its width", codes[1], MEGHARUTTI_MISSING_CODE(16));
    check("code of 2.0", codes[2], 32768);
    check("code of -0", codes[3], 0);
    check("code of a last missing reading", codes[5], 65535);
    check("first reference", references[0] == 1.0f, 1);
    check("exponent of a span of 1", (uint64_t)(exponents[0] + 149), 149 - 15);
    check("exponent of one value", (uint64_t)(exponents[1] + 149), 0);

    const uint64_t nan = 0x7FF00000000000AB;
    uint64_t back[6] = {7, 7, 7, 7, 7, 7};
    check("a mark that is no NaN", megharutti_unpack(widths, 2, codes, 6, references, 2, exponents, 2, 3, 0, back, 6), 8);
    exponents[1] = 129;
    check("exponent 129", megharutti_unpack(widths, 2, codes, 6, references, 2, exponents, 2, 3, nan, back, 6),
          MEGHARUTTI_REFERENCE_OR_EXPONENT_OUT_OF_RANGE);
    exponents[1] = 128;
    check("exponent 128 is a good one, and the mark no NaN", megharutti_unpack(widths, 2, codes, 6, references, 2, exponents, 2, 3, 0, back, 6), 8);
    exponents[1] = -149;
    check("readings after refusals", back[0], 7);
    check("unpacked", megharutti_unpack(widths, 2, codes, 6, references, 2, exponents, 2, 3, nan, back, 6), 0);
    check("1.0 again", back[0], 0x3FF0000000000000);
    check("the double mark", back[1], nan);
    check("2.0 again", back[2], 0x4000000000000000);
    check("zero again", back[3], 0);

    /* the same readings, the first layer in 2 bits and the second in 4 */
    const uint32_t narrow[2] = {2, 4};
    check("packed in few bits", megharutti_pack(raw, 6, 3, mark, narrow, 2, codes, 6, references, 2, exponents, 2), 0);

    /* the totals of each layer: 1.0 and 2.0 are 0 and 2 steps of 1/2 above 1.0 */
    uint64_t totals[3] = {7, 7, 7};
    check("no codes", megharutti_totals(codes, 0, 1, totals), MEGHARUTTI_LENGTH_OUT_OF_RANGE);
    check("a width of 1", megharutti_totals(codes, 3, 1, totals), MEGHARUTTI_WIDTH_OUT_OF_RANGE);
    check("a width of 17, before the codes", megharutti_totals((const uint16_t[1]){65535}, 1, 17, totals), MEGHARUTTI_WIDTH_OUT_OF_RANGE);
    check("a code above the missing one", megharutti_totals((const uint16_t[2]){3, 4}, 2, 2, totals), MEGHARUTTI_CODE_OUT_OF_RANGE);
    check("totals after refusals", totals[0] + totals[1], 14);
    check("totals", megharutti_totals(codes, 3, narrow[0], totals), 0);
    check("present codes", totals[0], 2);
    check("their sum", totals[1], 2);
    check("behind the totals", totals[2], 7);
    check("totals of the second layer", megharutti_totals(codes + 3, 3, narrow[1], totals), 0);
    check("present codes of the second layer", totals[0], 2);
    check("their sum, of the reference alone", totals[1], 0);
    check("a layer of which nothing is present", megharutti_totals((const uint16_t[5]){31, 31, 31, 31, 31}, 5, 5, totals), 0);
    check("none present", totals[0] + totals[1], 0);
    check("nine codes of 16 bits", megharutti_totals((const uint16_t[9]){1, 2, 4, 8, 16, 32, 64, 65535, 65534}, 9, 16, totals), 0);
    check("eight present", totals[0], 8);
    check("the sum of eight", totals[1], 127 + 65534);
    check("code of the reference, of 2 bits", codes[0], 0);
    check("missing code of 2 bits", codes[1], MEGHARUTTI_MISSING_CODE(2));
    check("code of 2.0, of 2 bits", codes[2], 2);
    check("exponent of two steps", (uint64_t)(exponents[0] + 149), 149 - 1);
    check("missing code of 4 bits", codes[5], 15);
    check("behind the codes", codes[6], 7);
    check("unpacked from few bits", megharutti_unpack(narrow, 2, codes, 6, references, 2, exponents, 2, 3, nan, back, 6), 0);
    check("2.0 from 2 bits", back[2], 0x4000000000000000);
    check("the double mark from 4 bits", back[5], nan);
    codes[5] = 16;
    check("a code of 5 bits in a layer of 4", megharutti_unpack(narrow, 2, codes, 6, references, 2, exponents, 2, 3, nan, back, 6),
          MEGHARUTTI_CODE_OUT_OF_RANGE);
    check("the mark is asked first", megharutti_unpack(narrow, 2, codes, 6, references, 2, exponents, 2, 3, 0, back, 6), 8);
    check("a width of 17, before the mark", megharutti_unpack((const uint32_t[2]){2, 17}, 2, codes, 6, references, 2, exponents, 2, 3, 0, back, 6), 11);
    check("readings after these refusals", back[2], 0x4000000000000000);

    /* byte planes: of four singles each plane has four bytes, of two doubles two */
    uint32_t four[4] = {pi, 0x40490000, 0x3F800000, 0x00000001};
    uint8_t planes[18] = {7, 7, 7, 7, 7, 7, 7, 7, 7, 7, 7, 7, 7, 7, 7, 7, 7, 7};
    const uint8_t expected[16] = {0xDB, 0, 0, 1, 0x0F, 0, 0, 0, 0x49, 0x49, 0x80, 0, 0x40, 0x40, 0x3F, 0};
    check("planes of singles, a byte too many", megharutti_planes_of_singles(four, 4, planes, 17), MEGHARUTTI_PLANES_OF_WRONG_LENGTH);
    check("planes after a refusal", planes[0], 7);
    check("planes of singles", megharutti_planes_of_singles(four, 4, planes, 16), 0);
    for (int i = 0; i < 16; i++)
        check("a byte of the planes", planes[i], expected[i]);
    check("behind the planes", planes[16], 7);
    counts[0] = 9;
    check("trimmed in planes, a reading too many", megharutti_trim_planes_singles(planes, 16, 5, 4, 7, mark, counts), 13);
    check("trimmed in planes, told 2^62 readings more", megharutti_trim_planes_singles(planes, 16, (size_t)4 + ((size_t)1 << 62), 4, 7, mark, counts), 13);
    check("trimmed in planes, the setting is asked first", megharutti_trim_planes_singles(planes, 16, 5, 4, 24, mark, counts), 2);
    check("trimmed in planes, the method before that", megharutti_trim_planes_singles(planes, 16, 5, 7, 24, mark, counts), 1);
    check("counts after these refusals", counts[0], 9);
    check("trimmed in planes", megharutti_trim_planes_singles(planes, 16, 4, 4, 7, mark, counts), 0);
    check("changed in planes", counts[0], 2);
    check("fallen in planes", counts[5], 2);
    four[0] = 7;
    check("singles of planes, a byte too few", megharutti_singles_of_planes(planes, 15, four, 4), 13);
    check("singles after a refusal", four[0], 7);
    check("singles of planes", megharutti_singles_of_planes(planes, 16, four, 4), 0);
    check("pi rounded in planes", four[0], 0x40490000);
    check("one in planes", four[2], 0x3F800000);
    check("the least single rounded in planes", four[3], 0);

    uint64_t two[2] = {0x400921FB54442D18, 0x0123456789ABCDEF};
    const uint8_t bytes[16] = {0x18, 0xEF, 0x2D, 0xCD, 0x44, 0xAB, 0x54, 0x89, 0xFB, 0x67, 0x21, 0x45, 0x09, 0x23, 0x40, 0x01};
    check("planes of doubles, as of singles", megharutti_planes_of_doubles(two, 2, planes, 8), 13);
    check("planes of doubles", megharutti_planes_of_doubles(two, 2, planes, 16), 0);
    for (int i = 0; i < 16; i++)
        check("a byte of the planes of doubles", planes[i], bytes[i]);
    check("doubles trimmed in planes, as singles", megharutti_trim_planes_doubles(planes, 16, 4, 0, 20, nan, counts), 13);
    check("doubles trimmed in planes", megharutti_trim_planes_doubles(planes, 16, 2, 0, 20, nan, counts), 0);
    check("doubles changed in planes", counts[0], 2);
    check("doubles of planes, as of singles", megharutti_doubles_of_planes(planes, 8, two, 2), 13);
    check("doubles of planes", megharutti_doubles_of_planes(planes, 16, two, 2), 0);
    check("pi shaved in planes", two[0], 0x400921FB00000000);
    check("the other double shaved in planes", two[1], 0x0123456700000000);
    check("no readings at all", megharutti_planes_of_singles(four, 0, planes, 0), 0);

    if (!failed)
        puts("header: all calls as expected");
    return failed;
}
