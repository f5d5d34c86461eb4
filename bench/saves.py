#!/usr/bin/env python3
"""What trimming saves: a million noisy temperatures under gzip -6, as sent and after `round` to some keep bits. The argument is the shared library (examples/layers.py says
how to make it)."""
import array
import ctypes
import gzip
import math
import random
import sys

N, ROUND, MARK = 1_000_000, 4, 0x7CF00000
trim = ctypes.CDLL(sys.argv[1]).megharutti_trim_singles
trim.argtypes = [ctypes.c_void_p, ctypes.c_size_t, ctypes.c_uint32, ctypes.c_int32, ctypes.c_uint32, ctypes.c_void_p]

# A reading each minute: days, years, weather that wanders, and a sensor's noise of a tenth of a degree.
random.seed(1)
weather, sent = 0.0, array.array("f")
for minute in range(N):
    weather = 0.999 * weather + random.gauss(0, 0.1)
    year, day = math.sin(minute / 83_700), math.sin(minute / 229)
    sent.append(11 + 9 * year + 4 * day + weather + random.gauss(0, 0.1))


def size(readings):
    return len(gzip.compress(readings.tobytes(), 6, mtime=0)) / 1e6


print(f"as sent: {size(sent):.2f} MB of {4 * N / 1e6:.2f}")
for keep in (11, 9, 7, 5):
    trimmed, counts = sent[:], (ctypes.c_uint64 * 6)()
    if trim(trimmed.buffer_info()[0], N, ROUND, keep, MARK, counts):
        sys.exit("refused")
    largest = max(abs(a - b) for a, b in zip(sent, trimmed))
    print(f"round {keep}: {size(trimmed):.2f} MB; the farthest reading moved by {largest:.4f} degrees")
