"""What byte planes are for: a million readings trimmed, once as an array and once in planes, and what gzip -6 makes of both. With ctypes alone. Needs a shared library made of
the archive:

    gcc -shared -o target/libmegharutti.so -Wl,--whole-archive target/staticlib/libcapi.a -Wl,--no-whole-archive
    python3 examples/planes.py target/libmegharutti.so
"""
import array
import ctypes
import gzip
import math
import random
import sys

if len(sys.argv) != 2:
    sys.exit("usage: planes.py LIBRARY, such as target/libmegharutti.so")
library = ctypes.CDLL(sys.argv[1])
u32, u64, i32, size, data = ctypes.c_uint32, ctypes.c_uint64, ctypes.c_int32, ctypes.c_size_t, ctypes.c_void_p
for call, takes in [
    ("megharutti_trim_singles", [data, size, u32, i32, u32, data]),
    ("megharutti_planes_of_singles", [data, size, data, size]),
    ("megharutti_singles_of_planes", [data, size, data, size]),
    ("megharutti_trim_planes_singles", [data, size, size, u32, i32, u32, data]),
]:
    getattr(library, call).restype = u32
    getattr(library, call).argtypes = takes

N, ROUND, KEEP, MARK = 1_000_000, 4, 7, 0x7CF00000


def accepted(answer):
    if answer:
        sys.exit(f"refused, {answer}")


def at(numbers):
    """Where an array's first element stands."""
    return numbers.buffer_info()[0]


def packed(numbers):
    """How many MB gzip -6 makes of an array."""
    return len(gzip.compress(numbers.tobytes(), 6, mtime=0)) / 1e6


# A reading each minute: days, years, weather that wanders, and a sensor's noise of a tenth of a degree.
random.seed(1)
weather, sent = 0.0, array.array("f")
for minute in range(N):
    weather = 0.999 * weather + random.gauss(0, 0.1)
    year, day = math.sin(minute / 83_700), math.sin(minute / 229)
    sent.append(11 + 9 * year + 4 * day + weather + random.gauss(0, 0.1))

# Trimmed as an array.
trimmed, counts = sent[:], (u64 * 6)()
accepted(library.megharutti_trim_singles(at(trimmed), N, ROUND, KEEP, MARK, counts))

# The store holds planes: converted once when the readings come in, and trimmed where they stand.
planes, plane_counts = array.array("B", bytes(4 * N)), (u64 * 6)()
accepted(library.megharutti_planes_of_singles(at(sent), N, at(planes), 4 * N))
sent_planes = planes[:]
accepted(library.megharutti_trim_planes_singles(at(planes), 4 * N, N, ROUND, KEEP, MARK, plane_counts))

# Whoever reads the store converts back, and has the trimmed array, bit for bit; and the counts are the same.
back = array.array("f", bytes(4 * N))
accepted(library.megharutti_singles_of_planes(at(planes), 4 * N, at(back), N))
if back.tobytes() != trimmed.tobytes() or list(counts) != list(plane_counts):
    sys.exit("the planes are not those of the trimmed array")

print(f"a million readings, 4.00 MB; under gzip -6    array  planes")
print(f"as sent                                       {packed(sent):5.2f}  {packed(sent_planes):6.2f} MB")
print(f"round to {KEEP} keep bits                          {packed(trimmed):5.2f}  {packed(planes):6.2f} MB")
if packed(planes) >= packed(trimmed):
    sys.exit("planes are not smaller here")
