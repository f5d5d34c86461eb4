/* Megharutti: trims false precision from IEEE 754 singles and doubles, compares raw readings with trimmed ones, packs singles into layers
 * of codes of 2 to 16 bits, and adds up the codes of a layer. Converts arrays to byte planes and back, and trims in planes.
 *
 * Every call below is proved to give, for every input, what document 01 of the association defines, with requests (a), (b), (c), (e), (f) and (g) of
 * its document 02. What is proved and what is assumed of the caller stands in docs/PROOFS.md.
 *
 * Coming from version 1: the array for the counts has six elements and not four, so enlarge it, or the call writes behind it; and the answer of
 * megharutti_trim_single says more, so take (uint32_t)answer for the pattern, and answer >> 32 == 1 for a refusal.
 * Coming from any version before 2.1, where you groom: arrays get other patterns wherever something is missing or not finite, and the last argument
 * of megharutti_trim_single is the turn and no longer the place. No compiler warns of that. The other methods give what they gave.
 *
 * Coming from any version before 2.3, where you pack: megharutti_pack and megharutti_unpack take a width for each layer, and megharutti_pack takes
 * the length before the mark. With the width 16 in every layer they give what they gave; only exponents 115 to 128, which were refused with 7, are
 * unpacked now. Layers that were packed before have the width 16. A C compiler that reads this header refuses the old calls; Python's ctypes and
 * declarations of your own don't. MEGHARUTTI_MISSING_CODE takes the width, and 7 has another name: see below.
 *
 * A reading is the bit pattern of a float, in a uint32_t (single) or a uint64_t (double). The mark is the pattern that means missing. It is
 * compared by its bits, and any pattern may be the mark.
 *
 *   method          setting
 *   0 shave         keep bits, 0 to 23 (doubles: 0 to 52)
 *   1 set           keep bits
 *   2 groom         keep bits; shaves and sets in turns, see below
 *   3 halfshave     keep bits
 *   4 round         keep bits
 *   5 absolute      p, to the nearest multiple of 2^p; -149 to 127 (doubles: -1074 to 1023)
 *   6 digits        significant decimal digits, 1 to 7 (doubles: 1 to 15)
 *
 * Grooming takes turns among the readings that are present and finite: the first of an array is shaved, the next set, and so on; each call begins
 * with a shave. A zero and a spared reading (one whose trimmed pattern would be the mark, so that it stays) take a turn too; a missing reading, an
 * infinity and a NaN don't. In C a single takes a turn where
 *     reading != mark && (reading & 0x7F800000) != 0x7F800000
 * before it is trimmed or after, which is the same. examples/loader.c counts turns so.
 *
 * A layer is a run of `length` singles. Each has a width w, 2 to 16 bits, which the caller gives: wide where figures need many steps, narrow
 * where few will do. Packed, a layer is a reference R (its smallest value, a single), a step exponent E from -149 to 128, and a code for each
 * reading: reading less R, in steps of 2^E, to the nearest. Codes run from 0 to 2^w - 2, and 2^w - 1 means missing. E is the least exponent with
 * which 2^w - 2 steps hold the layer's span, so that a code stands for a value within half a step of its reading. A code fills one uint16_t
 * whatever its width: its top 16 - w bits are 0, and whoever stores it may drop them. Keep the widths: without them codes can't be read.
 *
 * Byte planes: the lowest bytes of all readings stand together, in the order of the readings, then all second bytes, and so on: 4 planes of n bytes
 * each for n singles, 8 for n doubles. Byte b of reading i stands at planes[b * n + i], whatever the order of the machine's bytes. Trimmed readings
 * have low bytes that are mostly alike, so a compressor mostly does better on planes than on the array. The Shuffle filter of HDF5 and netCDF does the
 * same, chunk by chunk and with bytes as they stand in memory.
 *
 * Refusals. The first question that is answered "no" gives its number, and then no array is written.
 *   1  is the method known?
 *   2  is its setting in range? (and, where arrays are compared, p)
 *   3  is `length` 1 to 65536? (of megharutti_totals: the number of codes)
 *   4  is the number of readings (or codes) a whole multiple of `length`?
 *   5  has each other array the length that follows?
 *   6  is each reading finite or the mark?
 *   7  is each reference finite, and each exponent -149 to 128?
 *   8  is the double mark a NaN?
 *  10  are the two arrays to be compared of one length?
 *  11  is each width 2 to 16? (asked after 5; of megharutti_totals after 3)
 *  12  is each code at most the missing code of its layer's width? (asked after 8; of megharutti_totals after 11)
 *  13  has the plane buffer exactly 4 bytes (doubles: 8) for each reading? (asked after 2, where a trim asks that)
 *
 * An array is a pointer to its first element, and how many there are. The caller sees to it that the pointer is not NULL, also where there
 * are none, that it is aligned for its type, that so many elements stand there, and that an array which the call writes lies apart from all
 * others. Nobody else may write any of them during the call, or read those that the call writes. No call keeps a pointer, allocates memory,
 * or has state of its own: calls on different arrays may run at once.
 * megharutti_trim_planes_singles and megharutti_trim_planes_doubles take up to 96 kB of the stack, the other calls less than 16 kB.
 *
 * Float settings. Floats are computed with by the calls that trim arrays or planes where the method is absolute, by
 * megharutti_pack and by megharutti_unpack. For these the caller sees to it that the processor rounds to nearest (fesetround) and traps no
 * float exception (feenableexcept), as a C program begins; they may raise exception flags. megharutti_first_beyond_singles and
 * megharutti_first_beyond_doubles compute with floats too: for these no exception may be trapped, flags may be raised, and how the
 * processor rounds doesn't matter. All else goes by whole numbers. A program may be linked with gcc's -ffast-math or -Ofast: whether
 * subnormal numbers are taken for zero changes nothing. But compiled so, C's isnan finds no NaN and its isfinite no infinity: tell a missing
 * double by its pattern, which is the mark's, and who takes a turn by the line above.
 */
#ifndef MEGHARUTTI_H
#define MEGHARUTTI_H

#include <stddef.h>
#include <stdint.h>

/* The version of this header, of the library and of the program trimlist. */
#define MEGHARUTTI_VERSION "2.5.0"

#ifdef __cplusplus
extern "C" {
#endif

/* The methods. */
enum megharutti_method {
    MEGHARUTTI_SHAVE = 0,
    MEGHARUTTI_SET = 1,
    MEGHARUTTI_GROOM = 2,
    MEGHARUTTI_HALFSHAVE = 3,
    MEGHARUTTI_ROUND = 4,
    MEGHARUTTI_ABSOLUTE = 5,
    MEGHARUTTI_DIGITS = 6
};

/* What an array call answers: 0, or the refusal's number. */
enum megharutti_answer {
    MEGHARUTTI_ACCEPTED = 0,
    MEGHARUTTI_METHOD_UNKNOWN = 1,
    MEGHARUTTI_SETTING_OUT_OF_RANGE = 2,
    MEGHARUTTI_LENGTH_OUT_OF_RANGE = 3,
    MEGHARUTTI_NO_WHOLE_LAYERS = 4,
    MEGHARUTTI_ARRAY_OF_WRONG_LENGTH = 5,
    MEGHARUTTI_READING_NOT_FINITE = 6,
    MEGHARUTTI_REFERENCE_OR_EXPONENT_OUT_OF_RANGE = 7,
    MEGHARUTTI_MARK_NOT_NAN = 8,
    MEGHARUTTI_LENGTHS_DIFFER = 10,
    MEGHARUTTI_WIDTH_OUT_OF_RANGE = 11,
    MEGHARUTTI_CODE_OUT_OF_RANGE = 12,
    MEGHARUTTI_PLANES_OF_WRONG_LENGTH = 13
};

/* The code of a missing reading in a layer of that width, 2 to 16: 2^width - 1. */
#define MEGHARUTTI_MISSING_CODE(width) ((1u << (width)) - 1)

/* Trims n readings in place. Answers 0 and writes six numbers of places to `counts`: changed, spared, clipped, missing, risen and fallen;
 * or answers the refusal's number, and neither the readings nor `counts` are written. A place is risen or fallen where the reading's exact
 * value is larger or smaller than before, with its sign: shaving a negative reading is a rise. Changed is the sum of risen and fallen. */
uint32_t megharutti_trim_singles(uint32_t *readings, size_t n, uint32_t method, int32_t setting, uint32_t mark, uint64_t counts[6]);
uint32_t megharutti_trim_doubles(uint64_t *readings, size_t n, uint32_t method, int32_t setting, uint64_t mark, uint64_t counts[6]);

/* Trims one single as megharutti_trim_singles would in an array, where `turn` present finite readings came before it. Grooming alone looks at
 * the turn, and at whether it is odd. The lower 32 bits of the answer are the pattern that is left. Above them stands 0 where the exact value
 * stayed, 2 where it rose and 4 where it fell (2^33 or 2^34 was added); or 1 where the call is refused, and then the lower 32 bits are the
 * refusal's number. */
uint64_t megharutti_trim_single(uint32_t reading, uint32_t method, int32_t setting, uint32_t mark, uint64_t turn);

/* Compares two arrays place by place, say the readings as the sensors sent them with what trimming left, before the former are wiped. Finds
 * the first place where both are present and finite and lie more than 2^p apart, exactly: 2^p itself is not beyond. A place with a reading
 * that is missing, infinite or a NaN on either side is read and passed over, so "none" does not say that no reading was lost. Answers 0 and
 * writes three numbers to `found`: 1, the place (counted from 0) and how many readings of each array were read, which is the place plus 1;
 * or, where there is none, 0, 0 and the full length. Or answers the refusal's number, 10 (asked first) or 2, and writes nothing. p is -149 to
 * 127 (doubles: -1074 to 1023). The two may be one array, or overlap. */
uint32_t megharutti_first_beyond_singles(const uint32_t *raw, size_t n_raw, const uint32_t *trimmed, size_t n_trimmed, uint32_t mark,
                                         int32_t p, uint64_t found[3]);
uint32_t megharutti_first_beyond_doubles(const uint64_t *raw, size_t n_raw, const uint64_t *trimmed, size_t n_trimmed, uint64_t mark,
                                         int32_t p, uint64_t found[3]);

/* Packs n readings into layers of `length`, each by its own width. Answers 0 and writes n codes, and a reference and an exponent for each of the
 * n / length layers; or answers the refusal's number, 3, 4, 5, 11 or 6, asked in this order. The lengths that follow are n for the codes, and
 * n / length for widths, references and exponents. */
uint32_t megharutti_pack(const uint32_t *readings, size_t n, size_t length, uint32_t mark, const uint32_t *widths, size_t n_widths,
                         uint16_t *codes, size_t n_codes, float *references, size_t n_references, int32_t *exponents, size_t n_exponents);

/* Unpacks n_codes codes into as many doubles: R plus code times 2^E, rounded once, to the nearest double. The missing code of a layer's width
 * becomes the mark, bit for bit, which has to be a NaN. The widths have to be those that the layers were packed with: with others missing readings
 * may come out as figures, or figures as missing, and 12 need not find it. Answers 0, or the refusal's number, 3, 4, 5, 11, 7, 8 or 12, asked in
 * this order. */
uint32_t megharutti_unpack(const uint32_t *widths, size_t n_widths, const uint16_t *codes, size_t n_codes, const float *references,
                           size_t n_references, const int32_t *exponents, size_t n_exponents, size_t length, uint64_t mark, uint64_t *readings,
                           size_t n);

/* Adds up the n codes of one layer, of the given width. Answers 0 and writes two numbers to `totals`: how many codes are present, that is, aren't the
 * missing code 2^width - 1, and the sum of those. Or answers the refusal's number, 3, 11 or 12, asked in this order, and writes nothing.
 * With the layer's reference R and exponent E the layer's total is count times R plus sum times 2^E: exactly what its codes stand for, added up. Of a
 * layer that megharutti_pack wrote, it lies within count times half a step, 2^E / 2, of the total of the present readings that were packed. In C:
 *     (double)totals[0] * references[j] + ldexp((double)totals[1], exponents[j])
 * where both products are exact and the addition may round; totals[0] * references[j] alone would be worked out as a float, and round more.
 * Of layer j of a packed array the codes begin at codes + j * length, and n is length. No question finds codes of more than one layer, whose sum means
 * nothing. The width has to be the one that the layer was packed with: with another the totals may be wrong, and 12 need not find it. */
uint32_t megharutti_totals(const uint16_t *codes, size_t n, uint32_t width, uint64_t totals[2]);

/* Writes the byte planes of n readings, or the n readings that stand in byte planes. Answers 0; or 13, and writes nothing, unless n_planes is
 * exactly 4 * n (doubles: 8 * n). One undoes the other. The two arrays may not overlap: convert to another array.
 * No call can tell planes from an array that was not converted, nor planes of doubles from those of twice as many singles: 13 doesn't find it. */
uint32_t megharutti_planes_of_singles(const uint32_t *readings, size_t n, uint8_t *planes, size_t n_planes);
uint32_t megharutti_planes_of_doubles(const uint64_t *readings, size_t n, uint8_t *planes, size_t n_planes);
uint32_t megharutti_singles_of_planes(const uint8_t *planes, size_t n_planes, uint32_t *readings, size_t n);
uint32_t megharutti_doubles_of_planes(const uint8_t *planes, size_t n_planes, uint64_t *readings, size_t n);

/* Trims n readings in their byte planes, in place: leaves the planes of what megharutti_trim_singles or megharutti_trim_doubles leaves of the array,
 * with the same answer and the same counts. n is the number of readings, and n_planes that of bytes. Answers 0 and writes `counts`; or answers the
 * refusal's number, 1, 2 or 13, asked in this order, and writes nothing. */
uint32_t megharutti_trim_planes_singles(uint8_t *planes, size_t n_planes, size_t n, uint32_t method, int32_t setting, uint32_t mark,
                                        uint64_t counts[6]);
uint32_t megharutti_trim_planes_doubles(uint8_t *planes, size_t n_planes, size_t n, uint32_t method, int32_t setting, uint64_t mark,
                                        uint64_t counts[6]);

#ifdef __cplusplus
}
#endif

#endif
