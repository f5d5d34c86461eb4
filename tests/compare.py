#!/usr/bin/env python3
"""Runs examples/compare.py on texts and answers, good and damaged, as a volunteer may have them, and compares its status and the words that it prints. The argument is the shared
library."""
import subprocess
import sys
import tempfile
from pathlib import Path

ROOT = Path(__file__).resolve().parent.parent
TEXT = "method,setting,mark\nround,7,7CF00000\nrain,ozone\n40490FDB,7CF00000\n7CF00001,3F800000\n"
COUNTS = "changed,spared,clipped,missing,risen,fallen\n1,1,0,0,0,1\n0,0,0,1,0,0\n"
ANSWER = "rain,ozone\n40490000,7CF00000\n7CF00001,3F800000\n" + COUNTS
ONE = "method,setting,mark\nround,7,7FC00000\nchanged\n40490FDB\n7F800000\n"
ONE_ANSWER = "changed\n40490000\n7F800000\n" + "changed,spared,clipped,missing,risen,fallen\n1,0,0,0,0,1\n"

# what is shown: p, the text, the answer, the status, words that are printed
CASES = [
    ("none is beyond", "-6", TEXT, ANSWER, 0, "rain: none lie more than 2^-6 apart; 2 read"),
    ("pi lost less than 2^-10", "-10", TEXT, ANSWER, 0, "rain: none lie more than 2^-10 apart; 2 read"),
    ("and more than 2^-11", "-11", TEXT, ANSWER, 1, "rain: line 4 of day.txt, 40490FDB and 40490000 lie more than 2^-11 apart; 1 read"),
    ("the other series goes on", "-11", TEXT, ANSWER, 1, "ozone: none lie more than 2^-11 apart; 2 read"),
    ("an answer of version 1", "-6", TEXT, ANSWER.replace(",risen,fallen", "").replace("1,1,0,0,0,1", "1,1,0,0").replace("0,0,0,1,0,0", "0,0,0,1"), 0, "none lie more"),
    ("a series named changed, and an infinity that stays", "-6", ONE, ONE_ANSWER, 0, "changed: none lie more than 2^-6 apart; 2 read"),
    ("no readings", "0", "method,setting,mark\nround,7,7CF00000\nrain\n", "rain\nchanged,spared,clipped,missing,risen,fallen\n0,0,0,0,0,0\n", 0, "rain: none lie more than 2^0 apart; 0 read"),
    ("a reading that went missing", "127", TEXT, ANSWER.replace("40490000", "7CF00000"), 1, "rain: line 4 of day.txt, 40490FDB became 7CF00000: no trim does that"),
    ("a reading that became a NaN", "127", TEXT, ANSWER.replace("3F800000", "7FC00000"), 1, "ozone: line 5 of day.txt, 3F800000 became 7FC00000: no trim does that"),
    ("a missing reading that became one", "127", TEXT, ANSWER.replace("40490000,7CF00000", "40490000,00000000"), 1, "ozone: line 4 of day.txt, 7CF00000 became 00000000"),
    ("an infinity that became another", "127", ONE, ONE_ANSWER.replace("7F800000", "FF800000"), 1, "changed: line 5 of day.txt, 7F800000 became FF800000"),
    ("a line lost", "-6", TEXT, ANSWER.replace("7CF00001,3F800000\n", ""), 2, "day.txt has 2 lines of readings, and day.txt.trimmed has 1"),
    ("another series", "-6", TEXT, ANSWER.replace("ozone", "dust"), 2, "not the answer of a trim of day.txt"),
    ("no heading", "-6", TEXT, ANSWER[:ANSWER.index("changed")], 2, "not the answer of a trim"),
    ("junk for a heading", "-6", TEXT, ANSWER.replace("changed,spared", "changed,spored"), 2, "not the answer of a trim"),
    ("cut behind the heading", "-6", TEXT, ANSWER[:ANSWER.index("1,1,0,0")], 2, "the answer is not whole"),
    ("cut in the counts", "-6", TEXT, ANSWER[:-14], 2, "the answer is not whole"),
    ("cut before the last newline", "-6", TEXT, ANSWER[:-1], 2, "the answer is not whole"),
    ("a refusal", "-6", TEXT, "refused,9\n", 2, "not the answer of a trim"),
    ("an empty answer", "-6", TEXT, "", 2, "not the answer of a trim"),
    ("a Windows text", "-6", TEXT.replace("\n", "\r\n"), ANSWER, 2, "not a text for trimlist"),
    ("a Windows answer", "-6", TEXT, ANSWER.replace("\n", "\r\n"), 2, "not the answer of a trim"),
    ("the two exchanged", "-6", ANSWER, TEXT, 2, "not a text for trimlist"),
    ("small letters", "-6", TEXT, ANSWER.replace("40490000", "40490fdb"), 2, "'40490fdb' is no pattern of 8 digits"),
    ("a field too many", "-6", TEXT, ANSWER.replace("40490000,", "40490000,40490000,"), 2, "a line has not 2 readings"),
    ("letters beyond ASCII", "-6", TEXT.replace("rain", "r\u00e4in"), ANSWER, 2, "day.txt"),
    ("p above its range", "128", TEXT, ANSWER, 2, "P is -149 to 127, and not 128"),
    ("p below its range", "-150", TEXT, ANSWER, 2, "P is -149 to 127, and not -150"),
    ("p as a decimal", "0.01", TEXT, ANSWER, 2, "P is a whole number"),
    ("p in scientific notation", "1e-3", TEXT, ANSWER, 2, "P is a whole number"),
    ("p with a plus", "+3", TEXT, ANSWER, 2, "P is a whole number"),
]


def run(folder, *arguments):
    done = subprocess.run([sys.executable, ROOT / "examples" / "compare.py", *arguments], cwd=folder, capture_output=True, text=True, check=False)
    return done.returncode, done.stdout + done.stderr


def main():
    library = Path(sys.argv[1]).resolve()
    wrong = 0

    def check(what, got, status, words):
        nonlocal wrong
        if got[0] != status or words not in got[1] or "Traceback" in got[1]:
            wrong += 1
            print(f"{what}: expected status {status} and '{words}', got {got[0]} and:\n{got[1]}")

    with tempfile.TemporaryDirectory() as folder:
        text, answer = Path(folder, "day.txt"), Path(folder, "day.txt.trimmed")
        for what, p, sent, kept, status, words in CASES:
            text.write_bytes(sent.encode("utf8"))
            answer.write_bytes(kept.encode("utf8"))
            check(what, run(folder, library, p, "day.txt", "day.txt.trimmed"), status, words)
        check("no such text", run(folder, library, "0", "night.txt", "day.txt.trimmed"), 2, "night.txt")
        check("no such library", run(folder, Path(folder, "none.so"), "0", "day.txt", "day.txt.trimmed"), 2, "none.so")
        check("no arguments", run(folder), 2, "usage: compare.py")
    print(f"compare: {len(CASES) + 3} cases, {wrong} wrong")
    sys.exit(wrong > 0)


main()
