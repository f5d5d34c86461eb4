"""Compares a text for trimlist with the answer that trim-file kept, series by series, before the text is wiped. With ctypes alone:

    gcc -shared -o target/libmegharutti.so -Wl,--whole-archive target/staticlib/libcapi.a -Wl,--no-whole-archive
    python3 examples/compare.py target/libmegharutti.so -6 day.txt day.txt.trimmed

says of each series the first line whose readings lie more than 2^-6 apart, or that there is none; and the first line where a reading was lost. The status is 0 where nothing was
found, 1 where something was, and 2 where nothing could be compared.
"""
import ctypes
import re
import sys

u32, u64, i32, size = ctypes.c_uint32, ctypes.c_uint64, ctypes.c_int32, ctypes.c_size_t
HEADINGS = ("changed,spared,clipped,missing,risen,fallen", "changed,spared,clipped,missing")  # the second is of version 1
USAGE = "usage: compare.py LIBRARY P TEXT TEXT.trimmed (P is a whole number, -149 to 127; the limit is 2^P)"


def stop(why):
    print(f"compare: {why}", file=sys.stderr)
    sys.exit(2)


def lines(path):
    try:
        with open(path, encoding="ascii", newline="") as text:
            return text.read().split("\n")
    except (OSError, UnicodeDecodeError) as fault:
        stop(f"{path}: {fault}")


def pattern(field, path):
    if not re.fullmatch("[0-9A-F]{8}", field):
        stop(f"{path}: {field!r} is no pattern of 8 digits 0 to 9, A to F")
    return int(field, 16)


def columns(rows, names, path):
    """The readings of each series."""
    values = [[pattern(field, path) for field in row.split(",")] for row in rows]
    if any(len(row) != len(names) for row in values):
        stop(f"{path}: a line has not {len(names)} readings")
    return [[row[k] for row in values] for k in range(len(names))]


def text_columns(path):
    """The mark, the names and the readings of a text for trimlist."""
    text = lines(path)
    if len(text) < 4 or text[0] != "method,setting,mark" or text[1].count(",") != 2 or text[-1]:
        stop(f"{path}: not a text for trimlist")
    names = text[2].split(",")
    return pattern(text[1].split(",")[2], path), names, columns(text[3:-1], names, path)


def answer_columns(path, names, of):
    """The readings of trimlist's answer, which ends in its heading and a line of counts for each series."""
    text = lines(path)
    ends = [i for i, line in enumerate(text) if i and line in HEADINGS]
    if not ends or text[0].split(",") != names:
        stop(f"{path}: not the answer of a trim of {of}")
    counts = text[ends[0] + 1:-1]
    columns_of_counts = text[ends[0]].count(",")
    if text[-1] or len(counts) != len(names) or not all(re.fullmatch("[0-9]+(,[0-9]+){%d}" % columns_of_counts, row) for row in counts):
        stop(f"{path}: the answer is not whole")
    return columns(text[1:ends[0]], names, path)


def first_lost(raw, trimmed, mark):
    """The first place where a reading is missing, infinite or a NaN on either side and the patterns differ, or nothing. The library's call passes over such places, and trimming
    leaves such a pattern as it was."""
    def left_out(w):
        return w == mark or w & 0x7F800000 == 0x7F800000
    return next((i for i, (w, v) in enumerate(zip(raw, trimmed)) if w != v and (left_out(w) or left_out(v))), None)


def main():
    if len(sys.argv) != 5 or not re.fullmatch("-?[0-9]{1,4}", sys.argv[2]):
        stop(USAGE)
    _, library, p, text, answer = sys.argv
    p = int(p)
    try:
        beyond = ctypes.CDLL(library).megharutti_first_beyond_singles
    except (OSError, AttributeError) as fault:
        stop(fault)
    array = ctypes.POINTER(u32)
    beyond.restype, beyond.argtypes = u32, [array, size, array, size, u32, i32, ctypes.POINTER(u64)]
    mark, names, before = text_columns(text)
    after = answer_columns(answer, names, text)
    status = 0
    for name, raw, trimmed in zip(names, before, after):
        found = (u64 * 3)()
        refusal = beyond((u32 * len(raw))(*raw), len(raw), (u32 * len(trimmed))(*trimmed), len(trimmed), mark, p, found)
        if refusal == 10:
            stop(f"{text} has {len(raw)} lines of readings, and {answer} has {len(trimmed)}")
        if refusal:
            stop(f"P is -149 to 127, and not {p}")
        if found[0]:
            at = found[1]
            print(f"{name}: line {at + 4} of {text}, {raw[at]:08X} and {trimmed[at]:08X} lie more than 2^{p} apart; {found[2]} read")
        else:
            print(f"{name}: none lie more than 2^{p} apart; {found[2]} read")
        lost = first_lost(raw, trimmed, mark)
        if lost is not None:
            print(f"{name}: line {lost + 4} of {text}, {raw[lost]:08X} became {trimmed[lost]:08X}: no trim does that")
        status |= found[0] or lost is not None
    sys.exit(status)


main()
