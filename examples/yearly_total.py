"""A year's rain, read from packed layers, with ctypes alone. Of each layer megharutti_totals answers how many codes are present (count) and what they add up to (sum). The layer's
total is then count * R + sum * 2^E, with nothing rounded. Needs a shared library made of the archive:

    gcc -shared -o target/libmegharutti.so -Wl,--whole-archive target/staticlib/libcapi.a -Wl,--no-whole-archive
    python3 examples/yearly_total.py target/libmegharutti.so

examples/yearly_total.c does the same and prints the same.

Two mistakes. The width has to be the one that the layer was packed with: with another, missing codes may be added up as rain, or rain be left out as missing, and no refusal need
find it. Layer 0, packed with 8 and read with 9, would have 43.844 mm and not 15.953. And don't unpack and add up doubles for a total: each addition may round. Count and sum are
whole numbers, and a Fraction made of them is exact.
"""
import ctypes
import math
import struct
import sys
from fractions import Fraction

if len(sys.argv) != 2:
    sys.exit("usage: yearly_total.py LIBRARY, such as target/libmegharutti.so")
library = ctypes.CDLL(sys.argv[1])
u16, u32, u64, i32, f32, size = ctypes.c_uint16, ctypes.c_uint32, ctypes.c_uint64, ctypes.c_int32, ctypes.c_float, ctypes.c_size_t
for call, takes in [
    ("megharutti_trim_singles", [ctypes.POINTER(u32), size, u32, i32, u32, ctypes.POINTER(u64)]),
    ("megharutti_pack", [ctypes.POINTER(u32), size, size, u32, ctypes.POINTER(u32), size, ctypes.POINTER(u16), size, ctypes.POINTER(f32), size, ctypes.POINTER(i32), size]),
    ("megharutti_totals", [ctypes.POINTER(u16), size, u32, ctypes.POINTER(u64)]),
]:
    getattr(library, call).restype = u32
    getattr(library, call).argtypes = takes

LAYERS, LENGTH, ABSOLUTE, P, MARK = 12, 730, 5, -6, 0x7CF00000
N = LAYERS * LENGTH
# Narrow layers for most months, wider ones for the wet. Of 100 hours WET have rain, and HEAVY says how much there may be. Layer 1 is dry. In layer 3 the sensor was away. In layer 6
# it rains every hour, so that the smallest value, R, is not 0.
WIDTHS = [8, 8, 8, 8, 8, 10, 10, 12, 10, 8, 8, 8]
WET = [4, 0, 3, 5, 8, 20, 99, 40, 25, 10, 6, 5]
HEAVY = [50, 1, 40, 60, 90, 130, 50, 80, 110, 100, 70, 60]
AWAY = 3
seed = 2024


def accepted(answer):
    if answer:
        sys.exit(f"refused, {answer}")


def draw(below):
    global seed
    seed = (seed * 1664525 + 1013904223) % 2 ** 32
    return (seed >> 16) % below


def hour(layer):
    """What the sensor sent for an hour, a pattern. It is made of whole numbers, thousandths of a mm, so that every machine makes the same year. One hour of 100 is missing."""
    luck, a, b = draw(100), draw(HEAVY[layer]), draw(HEAVY[layer])
    thousandths = 200 + a * b if luck <= WET[layer] else 0
    return MARK if layer == AWAY or luck == 0 else struct.unpack("<I", struct.pack("<f", thousandths / 1000.0))[0]


def exact(pattern):
    """The exact value of a reading that is present."""
    return Fraction(struct.unpack("<f", struct.pack("<I", pattern))[0])


def places(figure, up=False):
    """An exact figure to 3 places, to the nearest or up."""
    thousandths = math.ceil(figure * 1000) if up else math.floor(figure * 1000 + Fraction(1, 2))
    return f"{thousandths // 1000}.{thousandths % 1000:03d}"


def print_sums(total, bound, was_sent):
    print(f"  {places(total):>8}  {places(bound, up=True):>16}  {places(was_sent):>8}")
    if abs(total - was_sent) >= bound:
        sys.exit("beyond the bound")


# The store keeps widths, codes, references and exponents. What was sent is kept here for the last column alone.
sent = [hour(place // LENGTH) for place in range(N)]
readings, counts, widths = (u32 * N)(*sent), (u64 * 6)(), (u32 * LAYERS)(*WIDTHS)
codes, references, exponents = (u16 * N)(), (f32 * LAYERS)(), (i32 * LAYERS)()
accepted(library.megharutti_trim_singles(readings, N, ABSOLUTE, P, MARK, counts))
accepted(library.megharutti_pack(readings, N, LENGTH, MARK, widths, LAYERS, codes, N, references, LAYERS, exponents, LAYERS))

print("A year of rain in mm, 12 layers of 730 hours, trimmed to 1/64 mm and packed.")
print("The total is count * R + sum * 2^E, and off by less than count * (1/64 + 2^E / 2).")
print("layer  width         R     E  count     sum     total  off by less than      sent")
year_count, year_total, year_bound, year_sent = 0, 0, 0, 0
for layer in range(LAYERS):
    answer = (u64 * 2)()
    accepted(library.megharutti_totals((u16 * LENGTH).from_buffer(codes, 2 * LENGTH * layer), LENGTH, widths[layer], answer))
    count, code_sum = answer
    print(f"{layer:5}  {widths[layer]:5}  {references[layer]:8.6f}  {exponents[layer]:4}  {count:5}  {code_sum:6}", end="")
    if count == 0:  # a total of 0 would look like a dry month
        print("   missing")
        continue
    # Trimming leaves a reading less than 2^P from what was sent, and packing moves it by at most half a step. That is proved, and so is the bound for the total. It allows for all
    # hours moving so far, dry ones too, and all one way; here they nearly even out.
    step = Fraction(2) ** exponents[layer]
    total, bound = count * Fraction(references[layer]) + code_sum * step, count * (Fraction(2) ** P + step / 2)
    was_sent = sum(exact(pattern) for pattern in sent[layer * LENGTH:(layer + 1) * LENGTH] if pattern != MARK)
    print_sums(total, bound, was_sent)
    year_count, year_total, year_bound, year_sent = year_count + count, year_total + total, year_bound + bound, year_sent + was_sent
print(f"{'year':30}{year_count:5}        ", end="")
print_sums(year_total, year_bound, year_sent)
print(f"The year is {places(abs(year_total - year_sent))} mm off, less than it may be. {N - year_count} hours are missing, and are in no total.")
print("Totals are rounded to 3 places, and bounds up, for printing alone.")
