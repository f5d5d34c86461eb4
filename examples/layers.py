"""Trims, packs and unpacks from Python, with ctypes alone: a layer of air in 16 bits, and one of rain in 4. Needs a shared library made of the archive:

    gcc -shared -o target/libmegharutti.so -Wl,--whole-archive target/staticlib/libcapi.a -Wl,--no-whole-archive
    python3 examples/layers.py target/libmegharutti.so
"""
import ctypes
import struct
import sys

if len(sys.argv) != 2:
    sys.exit("usage: layers.py LIBRARY, such as target/libmegharutti.so")
library = ctypes.CDLL(sys.argv[1])
u16, u32, u64, i32, f32, size = ctypes.c_uint16, ctypes.c_uint32, ctypes.c_uint64, ctypes.c_int32, ctypes.c_float, ctypes.c_size_t
for call, answer, takes in [
    ("megharutti_trim_singles", u32, [ctypes.POINTER(u32), size, u32, i32, u32, ctypes.POINTER(u64)]),
    ("megharutti_pack", u32, [ctypes.POINTER(u32), size, size, u32, ctypes.POINTER(u32), size, ctypes.POINTER(u16), size, ctypes.POINTER(f32), size, ctypes.POINTER(i32), size]),
    ("megharutti_unpack", u32, [ctypes.POINTER(u32), size, ctypes.POINTER(u16), size, ctypes.POINTER(f32), size, ctypes.POINTER(i32), size, size, u64, ctypes.POINTER(u64), size]),
]:
    getattr(library, call).restype = answer
    getattr(library, call).argtypes = takes

ROUND, MARK, NAN = 4, 0x7CF00000, 0x7FF8000000000000


def pattern(reading):
    """The 32 bits of a reading; None is missing."""
    return MARK if reading is None else struct.unpack("<I", struct.pack("<f", reading))[0]


def accepted(answer):
    if answer:
        sys.exit(f"refused, {answer}")


sent = [10.02, 10.48, None, 12.11, 0.5, 0.25, 3.75, None]
length = 4
n, layers = len(sent), len(sent) // length
readings = (u32 * n)(*map(pattern, sent))
counts = (u64 * 6)()
accepted(library.megharutti_trim_singles(readings, n, ROUND, 7, MARK, counts))
print("trimmed: changed %d, spared %d, clipped %d, missing %d, risen %d, fallen %d" % tuple(counts))

widths = (u32 * layers)(16, 4)
codes, references, exponents = (u16 * n)(), (f32 * layers)(), (i32 * layers)()
accepted(library.megharutti_pack(readings, n, length, MARK, widths, layers, codes, n, references, layers, exponents, layers))
for layer in range(layers):
    part = list(codes[layer * length:(layer + 1) * length])
    print("layer %d: width %d, R %s, E %d, codes %s; missing is %d" % (layer, widths[layer], references[layer], exponents[layer], part, 2 ** widths[layer] - 1))

doubles = (u64 * n)()
accepted(library.megharutti_unpack(widths, layers, codes, n, references, layers, exponents, layers, length, NAN, doubles, n))
for before, got in zip(sent, doubles):
    print("%8s  %s" % (before, "missing" if got == NAN else struct.unpack("<d", struct.pack("<Q", got))[0]))
