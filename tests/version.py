#!/usr/bin/env python3
"""Checks that README, header and program have one version, and that the program says it on standard error alone. The program is the first argument."""
import re
import subprocess
import sys
from pathlib import Path

ROOT = Path(__file__).resolve().parent.parent
readme = re.search(r"(?m)^Version (\S+)$", (ROOT / "README.md").read_text(encoding="utf8"))
header = re.search(r'#define MEGHARUTTI_VERSION "(\S+)"', (ROOT / "include" / "megharutti.h").read_text(encoding="utf8"))
done = subprocess.run([sys.argv[1], "--version"], stdin=subprocess.DEVNULL, capture_output=True, text=True)
versions = [readme and readme[1], header and header[1], done.stderr.partition("\n")[0].removeprefix("trimlist ")]
print("version: README %s, header %s, program %s" % tuple(versions))
sys.exit(len(set(versions)) != 1 or done.stdout != "")
