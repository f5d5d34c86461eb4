#!/usr/bin/env python3
"""Runs the program (the first argument) on the texts of tests/reasons.txt, and compares what it answers and the reason that it gives."""
import re
import subprocess
import sys
from pathlib import Path


def unfolded(text):
    """The bytes of a text as the table writes it: the innermost braces first."""
    while braces := re.search(r"(\d+)\{([^{}]*)\}", text):
        text = text[:braces.start()] + braces[2] * int(braces[1]) + text[braces.end():]
    return text.encode("latin1").decode("unicode_escape").encode("latin1")


rows = wrong = 0
for line in (Path(__file__).parent / "reasons.txt").read_text(encoding="utf8").splitlines():
    if line.startswith("#"):
        continue
    number, reason, text = line.split(" |", 2)
    rows += 1
    done = subprocess.run([sys.argv[1]], input=unfolded(text[1:]), capture_output=True)
    got = (done.returncode, done.stdout.decode("latin1"), done.stderr.decode("latin1"))
    if got != (0, f"refused,{number}\n", f"trimlist: {unfolded(reason[1:]).decode()}\n"):
        wrong += 1
        print(f"expected {number}, {reason[1:]}: {text[1:]}\n  got {got}")
print(f"reasons: {rows} texts, {wrong} wrong")
sys.exit(1 if wrong or rows < 40 else 0)
