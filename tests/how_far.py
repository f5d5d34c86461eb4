#!/usr/bin/env python3
"""Compares examples/how_far.py with the bound of the definitions, on lists whose bound the prover has computed (crates/papers/specs/CasesFar.antt), and with what the library
does: what lists of calls, packing and unpacking leave must lie as near as it says. The argument is the shared library."""
import ctypes
import random
import re
import struct
import subprocess
import sys
from fractions import Fraction
from pathlib import Path

ROOT = Path(__file__).resolve().parent.parent
PROGRAM = ROOT / "examples" / "how_far.py"
sys.path.insert(0, str(PROGRAM.parent))
sys.dont_write_bytecode = True
import how_far  # noqa: E402

WIDTHS = {"23 8": how_far.SINGLE, "52 11": how_far.DOUBLE}
NAMES = how_far.METHODS
compared = wrong = 0


def same(what, expected, got):
    global compared, wrong
    compared += 1
    if expected != got:
        wrong += 1
        print(f"{what}: expected {expected}, got {got}")


def refused(call, *arguments):
    """Whether there is no answer."""
    try:
        call(*arguments)
    except how_far.Refused:
        return True
    return False


def signed(word):
    return -int(word[4:]) if word.startswith("neg ") else int(word[4:])


def accepted(width, text):
    """The calls of a row that the definitions accept, as how_far.py takes them: it refuses the others."""
    jobs = []
    for method, setting in re.findall(r"call (\d+) \((neg \d+|pos \d+)\)", text):
        word = f"{NAMES[int(method)] if int(method) < 7 else 'method'},{signed(setting)}"
        if not refused(how_far.job_of, width, word):
            jobs.append(how_far.job_of(width, word))
    return jobs


def value(width, pattern):
    code = struct.calcsize(width[4])
    return Fraction(struct.unpack(width[4], int(pattern).to_bytes(code, "big"))[0])


def halves(width, jobs, size, unit):
    """One call that halfshaves, or that rounds and can't have clipped, moves by at most half a unit (`LeftBounds` in crates/papers/specs/Bounds.antt)."""
    return len(jobs) == 1 and (jobs[0][0] == "halfshave" or jobs[0][0] in ("round", "absolute") and size + unit <= how_far.largest(width))


def rows():
    """The table that the prover has computed."""
    text = (ROOT / "crates/papers/specs/CasesFar.antt").read_text(encoding="utf8").split("table =")[1]
    kinds = {}
    for kind, row in re.findall(r"(?m)^ *(?:∷ )?(far|none|packed|bit) (.*)$", text):
        kinds[kind] = kinds.get(kind, 0) + 1
        if kind == "packed":
            calls, bits, reference, exponent, code, u = re.fullmatch(r"\((.*)\) (\d+) (\d+) \((.*)\) (\d+) (\d+)", row).groups()
            kinds["narrow"] = kinds.get("narrow", 0) + (int(bits) < 16)
            jobs, step = accepted(how_far.SINGLE, calls), Fraction(2) ** signed(exponent)
            meaning = value(how_far.SINGLE, reference) + int(code) * step
            typed = ["--packed", bits, f"0x{int(reference):08X}", str(signed(exponent)), code, *(f"{method},{setting}" for method, setting in jobs)]
            if abs(meaning) > how_far.largest(how_far.SINGLE) + step / 2:
                same(row, True, refused(how_far.answer, typed))
                continue
            got = how_far.packed_distance(jobs, value(how_far.SINGLE, reference), signed(exponent), int(code))
            same(row, (meaning, Fraction(2) ** (int(u) - 149) + step / 2), got)
            same(row, how_far.decimals(meaning, how_far.ROUND_FLOOR), how_far.answer(typed).partition(",")[0])
            continue
        width, rest = next((w, row[len(f) + 1:]) for f, w in WIDTHS.items() if row.startswith(f + " "))
        if kind == "none":
            jobs = accepted(width, rest)
            same(row, [method for method, _ in jobs] != ["digits"], refused(how_far.kind_of, jobs))
            continue
        calls, pattern, u = re.fullmatch(r"(?:\((.*)\) )?(\d+) (\d+)", rest).groups()
        figure, unit = value(width, pattern), Fraction(2) ** (int(u) + width[2])
        if kind == "bit":
            same(row, (unit, True), how_far.distance(width, [("digits", 1)], figure))
        else:
            jobs = accepted(width, calls)
            same(row, (unit / 2, True) if halves(width, jobs, abs(figure), unit) else (unit, False), how_far.distance(width, jobs, figure))
    print(f"how far: {kinds.get('narrow', 0)} rows 'packed' of the table have a width below 16")
    for kind in ("far", "none", "packed", "bit"):
        print(f"how far: {kinds.get(kind, 0)} rows '{kind}' of the table")
    return min(kinds.get(kind, 0) for kind in ("far", "none", "packed", "narrow", "bit"))


class Library:
    """The calls for C, on lists of patterns."""

    def __init__(self, path):
        self.calls = ctypes.CDLL(path)

    def trim(self, width, readings, jobs, mark):
        item, name = (ctypes.c_uint32, "singles") if width is how_far.SINGLE else (ctypes.c_uint64, "doubles")
        call, counts = getattr(self.calls, f"megharutti_trim_{name}"), (ctypes.c_uint64 * 6)()
        array = (item * len(readings))(*readings)
        for method, setting in jobs:
            call.argtypes = [ctypes.c_void_p, ctypes.c_size_t, ctypes.c_uint32, ctypes.c_int32, item, ctypes.c_void_p]
            assert call(array, len(readings), NAMES.index(method), setting, mark, counts) == 0
        return list(array)

    def layer(self, readings, mark, bits):
        """A layer of a width packed and unpacked: its reference, exponent, codes and doubles."""
        n, size, at = len(readings), ctypes.c_size_t, ctypes.c_void_p
        width = (ctypes.c_uint32 * 1)(bits)
        codes, reference, exponent, doubles = (ctypes.c_uint16 * n)(), (ctypes.c_float * 1)(), (ctypes.c_int32 * 1)(), (ctypes.c_uint64 * n)()
        self.calls.megharutti_pack.argtypes = [at, size, size, ctypes.c_uint32, at, size, at, size, at, size, at, size]
        assert self.calls.megharutti_pack((ctypes.c_uint32 * n)(*readings), n, n, mark, width, 1, codes, n, reference, 1, exponent, 1) == 0
        self.calls.megharutti_unpack.argtypes = [at, size, at, size, at, size, at, size, size, ctypes.c_uint64, at, size]
        assert self.calls.megharutti_unpack(width, 1, codes, n, reference, 1, exponent, 1, n, 0x7FF8 << 48, doubles, n) == 0
        return struct.unpack("<I", bytes(reference))[0], exponent[0], list(codes), list(doubles)


def job(width, kind):
    method = random.choice({"tail": how_far.TAILS, "rounding": ["round", "absolute"], "digits": ["digits"]}[kind])
    low, high = how_far.settings_of(width, method)
    return method, random.choice([low, high, random.randint(low, high), random.randint(max(low, -12), min(high, 12))])


def patterns(width, n):
    """Readings of every size: near each other and near a power of two, as well as random ones. No infinity and no NaN."""
    bits = 8 * struct.calcsize(width[4]) - 1
    top, base = (2 ** bits) - (2 ** width[0]), random.getrandbits(bits)
    near = [base + random.randrange(-2 ** 9, 2 ** 9) << random.randrange(3) for _ in range(n // 2)]
    edges = [(random.randrange(2 ** (bits - width[0])) << width[0]) + random.randrange(-3, 4) for _ in range(n // 4)]
    every = near + edges + [random.getrandbits(bits) for _ in range(n - len(near) - len(edges))]
    return [(x % top) | random.getrandbits(1) << bits for x in every]


def interval(line):
    """What the program prints, as numbers: the two ends, and whether they belong to it."""
    parts = re.fullmatch(r"(?:\S+, )?(less than|at most) (\S+) away: (?:between|from) (\S+) (?:and|to) (\S+)", line)
    return Fraction(parts[3]), Fraction(parts[4]), parts[1] == "at most"


def lies(what, sent, line):
    low, high, ends = interval(line)
    same(f"{what}: {line}", True, low < sent < high or ends and low <= sent <= high)


def marks(width, sent):
    """A mark: a NaN, a zero of either sign, or a finite pattern on or near the grid."""
    bits = 8 * struct.calcsize(width[4]) - 1
    return random.choice([2 ** bits - 2 ** (width[0] - 1), 0, 2 ** bits, random.choice(sent), random.choice(sent) >> 16 << 16])


def runs(library, turns):
    """What the library leaves of random lists, beside what the program prints of the figures that are left, with every kind of mark."""
    for turn in range(turns):
        width = random.choice([how_far.SINGLE, how_far.DOUBLE])
        digits = 2 * struct.calcsize(width[4])
        kind = random.choice(["tail", "rounding", "digits"])
        jobs = [job(width, kind) for _ in range(1 if kind == "digits" else random.randint(1, 4))]
        sent = patterns(width, 24) + [0, 2 ** (4 * digits - 1)]
        mark = marks(width, sent)
        left = library.trim(width, sent, jobs, mark)
        words = [f"{method},{setting},{mark:0{digits}X}" for method, setting in jobs]
        start = ["--double"] if width is how_far.DOUBLE else []
        for before, after in zip(sent, left):
            if before == mark:
                same(f"{after:X}, the mark", True, refused(how_far.answer, [*start, f"0x{after:0{digits}X}", *words]))
            else:
                lies(f"{before:X} by {words} is {after:X}", value(width, before), how_far.answer([*start, f"0x{after:0{digits}X}", *words]))
        if width is how_far.SINGLE and kind != "digits":
            bits = random.choice([2, 16, random.randint(2, 16)])
            reference, exponent, codes, doubles = library.layer(left, mark, bits)
            layer = ["--packed", str(bits), f"0x{reference:08X}", str(exponent)]
            same(f"{2 ** bits} in {bits} bits", True, refused(how_far.answer, [*layer, str(2 ** bits), *words]))
            for before, code, double in zip(sent, codes, doubles):
                line = how_far.answer([*layer, str(code), *words])
                if before == mark:
                    same(f"{before:X} by {words}, packed as {code} in {bits} bits", "missing", line.partition(":")[0])
                    continue
                lies(f"{before:X} by {words}, packed as {code} in {bits} bits", value(width, before), line)
                far = how_far.packed_distance(jobs, value(how_far.SINGLE, reference), exponent, code)[1]
                same(f"{before:X} by {words}, unpacked as {double:X}", True, abs(value(width, before) - value(how_far.DOUBLE, double)) < far)


def lines():
    """The program itself, on what people type: examples/how_far.txt has the words after its name, and what it prints."""
    asked, before = None, compared
    for line in (ROOT / "examples" / "how_far.txt").read_text(encoding="utf8").splitlines():
        if line.startswith("$ "):
            asked = line[2:].split()
        else:
            done = subprocess.run([sys.executable, PROGRAM, *asked], capture_output=True, text=True, cwd=ROOT)
            same(" ".join(asked), (line, line.startswith("how_far: ")), ((done.stdout + done.stderr).rstrip("\n"), done.returncode != 0))
    return compared - before


random.seed(20)
few = rows()
runs(Library(sys.argv[1]), 1000)
typed = lines()
print(f"how far: {compared} comparisons, {wrong} wrong; {typed} of what people type")
sys.exit(1 if wrong or few < 5 or typed < 40 else 0)
