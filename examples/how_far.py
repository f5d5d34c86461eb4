#!/usr/bin/env python3
"""How far a trimmed figure may stand from what the sensor sent.

    how_far.py FIGURE JOB ..                 how_far.py 287.5 round,9 round,7
    how_far.py FIGURE FILE.jobs              the jobs that trim-file kept
    how_far.py --packed W R E CODE JOB ..    a code with its layer's width W, reference R and step exponent E

The figure is the one that is left after the jobs, in full: its pattern, such as 438FC000, or all its decimals. It is a single, and with --double a double. A job is a method and
its setting; a mark may follow, as in a jobs file. All jobs that the figure went through have to be named, in any order. Layers that were packed before version
2.3 have the width 16. What is printed rests on what is proved: docs/PROMISES.md.
"""
import re
import struct
import sys
from decimal import Decimal, localcontext, ROUND_CEILING, ROUND_FLOOR
from fractions import Fraction
from pathlib import Path

TAILS = ["shave", "set", "groom", "halfshave"]
METHODS = TAILS + ["round", "absolute", "digits"]
# What a width has: bits of the fraction, the exponent of the smallest normal number, that of the least spacing, the largest exponent, its format for struct, the most digits, its
# name
SINGLE = (23, -126, -149, 127, ">f", 7, "single")
DOUBLE = (52, -1022, -1074, 1023, ">d", 15, "double")


class Refused(Exception):
    """Why there is no answer."""


def settings_of(width, method):
    """The least and the largest setting."""
    if method == "absolute":
        return width[2], width[3]
    return (1, width[5]) if method == "digits" else (0, width[0])


def job_of(width, text):
    """A method and its setting. A job that would be refused is a slip of whoever typed it: it can't have moved anything, and what was meant isn't known."""
    parts = re.fullmatch(r"([a-z]+),(-?\d{1,4})", text)
    if not parts:
        raise Refused(f"{text}: not a job such as round,7")
    method, setting = parts[1], int(parts[2])
    if method not in METHODS:
        raise Refused(f"{method} is none of {', '.join(METHODS)}")
    low, high = settings_of(width, method)
    if not low <= setting <= high:
        raise Refused(f"{text}: {method} takes {low} to {high}")
    return method, setting


def kind_of(jobs):
    """The kind of a list of jobs, where something is proved of it."""
    kinds = {"tail" if method in TAILS else "digits" if method == "digits" else "rounding" for method, _ in jobs}
    if not jobs:
        raise Refused("no job is named: with none a figure is what the sensor sent")
    if kinds == {"digits"} and len(jobs) > 1:
        raise Refused("digits more than once: each time it may move a figure on, and no distance is proved")
    if "digits" in kinds and len(kinds) > 1:
        raise Refused("digits with another method: no distance is proved of such a list")
    if len(kinds) > 1:
        raise Refused("roundings (round, absolute) mixed with shave, set, groom or halfshave: no distance is proved of such a list")
    return kinds.pop()


def log2(size):
    """The exponent of the largest power of two up to a size, whose denominator is a power of two."""
    return size.numerator.bit_length() - size.denominator.bit_length()


def unit_exponent(width, jobs, size):
    """The largest unit that any job has at a size is 2 to this exponent."""
    binade = max(log2(size), width[1]) if size else width[1]
    return max(setting if method == "absolute" else binade - setting for method, setting in jobs)


def lowest_bit(size):
    """The value of the lowest one bit of a size."""
    return Fraction(size.numerator & -size.numerator, size.denominator)


def largest(width):
    """The largest finite value."""
    return (2 - Fraction(1, 2 ** width[0])) * 2 ** width[3]


def distance(width, jobs, figure):
    """How far away, and whether exactly so far is possible too."""
    size = abs(figure)
    if kind_of(jobs) == "digits":
        return (lowest_bit(size) if size else Fraction(0)), True
    unit = Fraction(2) ** unit_exponent(width, jobs, size)
    # One call moves by at most half a unit, unless it shaves, sets or grooms, or clips: then the figure is the last one on its grid.
    if len(jobs) == 1 and (jobs[0][0] == "halfshave" or jobs[0][0] not in TAILS and size + unit <= largest(width)):
        return unit / 2, True
    return unit, False


def packed_distance(jobs, reference, exponent, code):
    """The exact meaning of a code, and how far away it may be: less than the unit at the largest size that the code can stand for, and half a step."""
    if kind_of(jobs) == "digits":
        raise Refused("digits and then packing: no distance is proved of that together")
    half = Fraction(2) ** exponent / 2
    meaning = reference + code * 2 * half
    if abs(meaning) > largest(SINGLE) + half:
        raise Refused("no packing gives this code: what it means is larger than any single")
    return meaning, Fraction(2) ** unit_exponent(SINGLE, jobs, abs(meaning) + half) + half


def pattern_of(width, text):
    """A figure's pattern. It is given as that, or by its decimals: all of them, since a figure that was cut to be shown is another figure."""
    digits = struct.calcsize(width[4]) * 2
    if re.fullmatch(rf"0x[0-9A-Fa-f]{{{digits}}}", text):
        return text[2:].upper()
    number = re.fullmatch(r"[+-]?(\d+\.?\d*|\.\d+)([eE][+-]?(\d+))?", text)
    if re.fullmatch(rf"[0-9A-Fa-f]{{{digits}}}", text):
        if number:
            raise Refused(f"{text} may be a pattern or a number: write 0x{text}, or the number with a decimal point")
        return text.upper()
    if not number or len(number[3] or "") > 4:
        raise Refused(f"{text}: not a number, nor a pattern of {digits} digits")
    try:
        pattern = struct.pack(width[4], float(text))
    except OverflowError:
        pattern = None
    if pattern is None or float(text) in (float("inf"), float("-inf")):
        raise Refused(f"{text} is larger than any {width[6]}")
    if Fraction(text) != Fraction(struct.unpack(width[4], pattern)[0]):
        near = decimals(Fraction(struct.unpack(width[4], pattern)[0]), ROUND_FLOOR)
        raise Refused(f"{text} is no {width[6]}, so it isn't a figure in full (near it lies {near}, {pattern.hex().upper()}): give all decimals, or the pattern")
    return pattern.hex().upper()


def value_of(width, pattern):
    """The exact value that a pattern stands for."""
    value = struct.unpack(width[4], bytes.fromhex(pattern))[0]
    if value != value or value in (float("inf"), float("-inf")):
        raise Refused(f"{pattern} is no finite figure: trimming leaves infinities and NaNs as they are")
    return Fraction(value)


def decimals(value, rounding):
    """A value in decimals: exactly where that is short, and otherwise rounded outwards, so that what is printed stays true."""
    with localcontext() as context:
        context.prec = 1500
        exact = Decimal(value.numerator) / Decimal(value.denominator)
        text = f"{exact:f}"
        if len(text) <= 24:
            return text if "." in text else text + ".0"
        context.prec, context.rounding = 9, rounding
        return str(+exact)


def said(figure, far, itself):
    away = decimals(far, ROUND_CEILING)
    between = decimals(figure - far, ROUND_FLOOR), decimals(figure + far, ROUND_CEILING)
    if itself:
        return f"at most {away} away: from {between[0]} to {between[1]}"
    return f"less than {away} away: between {between[0]} and {between[1]}"


def jobs_of(width, words, figure=None):
    """The jobs that are named, and those of jobs files, where the mark follows each. A list has one mark, and a figure that is the mark has no distance."""
    lines = []
    for word in words:
        lines += Path(word).read_text(encoding="ascii").splitlines() if word.endswith(".jobs") else [word]
    parts = [re.fullmatch(r"(.*?)(?:,([0-9A-F]{8}|[0-9A-F]{16}))?", line).groups() for line in lines]
    marks = {mark for _, mark in parts if mark}
    if any(len(mark) != struct.calcsize(width[4]) * 2 for mark in marks):
        raise Refused(f"the mark {min(marks, key=len)} is none of a {width[6]}")
    if len(marks) > 1:
        raise Refused(f"the jobs have more than one mark, {' and '.join(sorted(marks))}: no distance is proved of such a list")
    if figure in marks:
        raise Refused("this figure is the mark: the reading is missing, and was missing when it was sent")
    return [job_of(width, job) for job, _ in parts]


def number_of(text, low, high, what):
    if not re.fullmatch(r"-?\d{1,6}", text) or not low <= int(text) <= high:
        raise Refused(f"{text}: {what} is {low} to {high}")
    return int(text)


def answer(words):
    if words[0] == "--packed":
        if len(words) < 6:
            raise Refused("--packed takes a width, a reference, a step exponent, a code, and the jobs before packing")
        bits = number_of(words[1], 2, 16, "the layer's width, which stands before R,")
        reference = value_of(SINGLE, pattern_of(SINGLE, words[2]))
        exponent = number_of(words[3], -149, 128, "a step exponent")
        missing = 2 ** bits - 1
        code = number_of(words[4], 0, missing, f"a code of {bits} bits")
        if code == missing:
            return "missing: this code stands for no reading"
        meaning, far = packed_distance(jobs_of(SINGLE, words[5:]), reference, exponent, code)
        return f"{decimals(meaning, ROUND_FLOOR)}, {said(meaning, far, False)}"
    width = DOUBLE if words[0] == "--double" else SINGLE
    figure, *jobs = words[width is DOUBLE:] or [""]
    pattern = pattern_of(width, figure)
    jobs = jobs_of(width, jobs, pattern)
    value = value_of(width, pattern)
    return said(value, *distance(width, jobs, value))


if __name__ == "__main__":
    if len(sys.argv) < 3:
        sys.exit(__doc__.strip())
    try:
        print(answer(sys.argv[1:]))
    except Refused as why:
        sys.exit(f"how_far: {why}")
    except OSError as why:
        sys.exit(f"how_far: {why.filename}: {why.strerror}")
    except UnicodeDecodeError:
        sys.exit("how_far: this is no list of jobs")
