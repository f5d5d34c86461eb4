#!/usr/bin/env python3
"""Tests tools/trim-file: python3 tests/trim_file.py TOOL TRIMLIST

A case lays out a folder, takes a picture of it (names, kinds, modes, contents), runs the tool and compares status, output and the new picture with what `model`
says. Copies of the tool stand beside the real trimlist, or beside a fake one that goes wrong. Fake mv, ln, cp .. fail, wait, or kill the tool, at each of its
steps. Prints a line for each case that is wrong. As root it runs as nobody, so that permissions count."""
import contextlib
import itertools
import os
import shutil
import signal
import stat
import subprocess
import sys
import tempfile
import threading
import time
from concurrent.futures import ThreadPoolExecutor
from pathlib import Path

OLD_HEADING = "changed,spared,clipped,missing" # of versions 1
HEADING = OLD_HEADING + ",risen,fallen"
JOB = "round,7,7CF00000\n"
EXAMPLE = f"method,setting,mark\n{JOB}rain,ozone\n40490FDB,7CF00000\n7CF00001,3F800000\n"
ANSWER = f"rain,ozone\n40490000,7CF00000\n7CF00001,3F800000\n{HEADING}\n1,1,0,0,0,1\n0,0,0,1,0,0\n"
TEXT, TRIMMED = {"t": EXAMPLE}, {"t.trimmed": ANSWER, "t.jobs": JOB}
FIRST, AGAIN = ["t"], ["--again", "t.trimmed", "round", "6"]
FORMS = [({**TEXT, "t.jobs": JOB}, ["--wipe", *FIRST]), (TRIMMED, AGAIN), (TEXT, FIRST), (TRIMMED, ["--wipe", *AGAIN])]
MODE, NOBODY = 0o640, 65534
numbers, counted, answers = itertools.count(), threading.Lock(), {}
total = wrong = 0


def verdict(name, faults):
    """Counts a case, and says what is wrong with it."""
    global total, wrong
    with counted:
        total += 1
        wrong += bool(faults)
        if faults:
            print(f"trim-file: {name}: {'; '.join(faults)}", flush=True)


# ---- Folders, pictures of them, and what must be


def plain(content, mode=MODE):
    return stat.S_IFREG, mode, content.encode()


def picture(folder, work=True):
    """Everything in a folder, with the tool's own folder in it or not."""
    tree = {}
    for path in folder.rglob("*"):
        mode = path.lstat().st_mode
        inside = os.readlink(path) if path.is_symlink() else path.read_bytes() if stat.S_ISREG(mode) and os.access(path, os.R_OK) else None
        tree[str(path.relative_to(folder))] = stat.S_IFMT(mode), stat.S_IMODE(mode), inside
    return {name: file for name, file in tree.items() if work or not name.startswith("t.trimming")}


def lay(files, left=None, at=3, also=None):
    """A new folder with these files, one that must never be touched, and what a tool with the arguments `left` left, killed at a call of sync; `also` has more fakes."""
    folder = room / f"case {next(numbers)}"
    folder.mkdir()
    for name, content in {"other": "other\n", **files}.items():
        (folder / name).write_text(content)
        (folder / name).chmod(MODE)
    if left:
        how = going_wrong("sync", at, "killed")
        run(left, folder, **{**how, "first": f"{how['first']}:{also}" if also else how["first"]})
    return folder


def difference(want, now):
    """What two pictures differ in, in words."""
    return ([f"{name!r} is gone" for name in want if name not in now] + [f"{name!r} was left" for name in now if name not in want] +
            [f"{name!r} isn't as it must be" for name in want if name in now and want[name] != now[name]])


def answer_to(text):
    """What trimlist answers; tests/texts.rs tests that."""
    if text not in answers:
        answers[text] = subprocess.run([beside / "trimlist"], input=text.encode(), capture_output=True).stdout.decode()
    return answers[text]


def model(tree, args):
    """Status and picture after a run in which nothing fails, in a folder with the picture `tree`."""
    tree = dict(tree)
    options = args[:args.index("--")] if "--" in args else args
    words = [word for word in options if not word.startswith("--")] + args[len(options) + 1:]
    again, wipe = "--again" in options, "--wipe" in options
    base = words[0].removesuffix(".trimmed") if again else words[0]
    before, jobs = tree.get(words[0]), tree.get(base + ".jobs", plain(""))[2].decode()
    if not before or not again and base + ".trimmed" in tree:
        return 2, tree
    text = before[2].decode()
    if again:
        names, _, rest = text.partition("\n")
        text = f"method,setting,mark\n{words[1]},{words[2]},{jobs[-9:]}{names}\n{rest.partition(OLD_HEADING)[0]}"
    if again and not wipe:
        tree[f"{base}.trimmed.{len(jobs.splitlines())}"] = before
    if wipe and not again:
        del tree[base]
    tree[base + ".trimmed"] = plain(answer_to(text), before[1])
    tree[base + ".jobs"] = plain(jobs + text.splitlines()[1] + "\n", before[1])
    return 0, tree


# ---- Running the tool


def start(args, folder, tool=None, first=None, code="", **more):
    """Starts the tool, after a line of shell code, with the folder `first` before the PATH."""
    words = ["sh", "-c", f'{code}\nexport TOOL_ID=$$; exec "$@"', "sh", tool or beside / "trim-file", *args]
    path = f"{first}:{os.environ['PATH']}" if first else os.environ["PATH"]
    return subprocess.Popen(words, cwd=folder, env={"PATH": path, **more}, stdin=subprocess.DEVNULL, stdout=subprocess.PIPE, stderr=subprocess.PIPE)


def run(args, folder, **how):
    process = start(args, folder, **how)
    out, err = process.communicate(timeout=60)
    return process.returncode, out.decode(), err.decode()


def expect(name, folder, args, status=None, change=None, says="", **how):
    """A case. With no status the model says what must be; otherwise nothing but `change` differs, and the tool says `says`."""
    before = picture(folder)
    want = {**before, **(change or {})}
    if status is None:
        status, want = model(before, args)
    got, out, err = run(args, folder, **how)
    faults = difference(want, picture(folder))
    if got != status or bool(out) != (status == 0) or bool(err) != (status != 0) or says not in err:
        faults.append(f"status {got} and not {status}, it says {out!r} {err!r}")
    verdict(name, faults)


# ---- Good texts, odd names, and where the program is


def text_of(job, series, rows):
    lines = [",".join(f"{(row * 8 + column) * 2654435761 % (1 << 32):08X}" for column in range(series)) + "\n" for row in range(rows)]
    return f"method,setting,mark\n{job},7CF00000\n{','.join('abcdefgh'[:series])}\n{''.join(lines)}"


def good_texts():
    verdict("the example", [] if answer_to(EXAMPLE) == ANSWER else ["trimlist answers otherwise"])
    for job, (series, rows) in itertools.product("shave,7 set,7 groom,7 halfshave,7 round,7 absolute,-3 digits,3".split(), [(1, 0), (1, 1), (8, 512)]):
        expect(f"{job}, {series} series of {rows}", lay({"t": text_of(job, series, rows)}), ["--wipe", "t"])
    # names that read as a heading
    for names, row in [(HEADING, "3F800000,40490FDB,7CF00000,00000000,C0490FDB,7F7FFFFF"), (OLD_HEADING, "3F800000,C0490FDB,7CF00000,00000000")]:
        folder = lay({"t": f"method,setting,mark\n{JOB}{names}\n{row}\n"})
        for args in [FIRST, AGAIN, AGAIN, ["--wipe", *AGAIN], ["--again", "t.trimmed", "shave", "5"]]:
            expect(f"names {names}, {args}", folder, args)
    for name in ["a b", "a\nb", "\n", "x=1", "a\\nb", "*", "[a-z]?", "$a;`b`", "'\"", "-n", "--again", "-", "t.trimmed", "é", "%s", "~"]:
        folder = lay({name: EXAMPLE, "axb": "decoy\n", "n": "decoy\n"})
        expect(f"the name {name!r}", folder, ["--", name])
        expect(f"the name {name!r}, again", folder, ["--again", "--wipe", "--", name + ".trimmed", "round", "6"])


def copy_to(folder, *programs):
    """The tool, and the program or not, in a tree of folders."""
    for place in ["tools/trim-file", *programs]:
        (folder / place).parent.mkdir(parents=True, exist_ok=True)
        shutil.copy(beside / Path(place).name, folder / place)
    return folder / "tools" / "trim-file"


def places():
    built, alone = copy_to(room / "built", "target/bin/trimlist"), copy_to(room / "alone")
    (room / "link").symlink_to(built)
    for name, how in {"in ../target/bin": {"tool": built}, "by a link": {"tool": room / "link"}, "on the PATH": {"tool": alone, "first": beside},
                      "by the PATH": {"tool": "trim-file", "first": beside}}.items():
        expect(name, lay(TEXT), FIRST, **how)
    expect("nowhere", lay(TEXT), FIRST, 2, tool=alone, says="trimlist")
    # from another folder, and over a link that leads elsewhere
    here, away = lay({}), lay(TEXT)
    (away / "in").mkdir()
    (here / "link").symlink_to(away / "in")
    for path in [away / "t", "link/../t"]:
        for old in away.glob("t.*"):
            old.unlink()
        want = model(picture(away), FIRST)
        status, _, err = run([path], here)
        verdict(f"the text {path}", difference(want[1], picture(away)) + ([err] if status or err else []))


# ---- Situations in which nothing may be done

NO_TEXT = {
    "missing": lambda t: t.unlink(), "a folder": lambda t: (t.unlink(), t.mkdir()), "a fifo": lambda t: (t.unlink(), os.mkfifo(t)), "unreadable": lambda t: t.chmod(0),
    "a link": lambda t: (t.rename(t.with_name("u")), t.symlink_to("u")), "in a read-only folder": lambda t: t.parent.chmod(0o555),
}
IN_THE_WAY = {
    "a file": lambda p: p.write_text("x"), "a folder": lambda p: (p.mkdir(), (p / "x").write_text("x")), "a link": lambda p: p.symlink_to("other"),
    "a link to a folder": lambda p: (p.with_name("there").mkdir(), p.symlink_to("there")), "a dangling link": lambda p: p.symlink_to("nowhere"),
    "a link to the file": lambda p: p.symlink_to("t.trimmed"),
}
BAD_JOBS = ["", "\n", JOB[:-1], JOB + "\n", JOB + JOB[:-1], JOB + "x\n", JOB + JOB.replace("0\n", "1\n"), JOB.upper(), JOB.lower(), JOB[:-1] + ",\n",
            JOB[:-1] + "0\n", JOB[:-1] + "\r\n", JOB[:-1] + "\0", "round,7\n", "round,,7CF00000\n"]
REFUSED = [("", 9), (EXAMPLE[:-1], 9), (EXAMPLE + "\n", 9), (EXAMPLE.replace("\n", "\r\n"), 9), (EXAMPLE.replace("F", "f"), 9), (EXAMPLE.replace("\n4", "\n\0"), 9),
           (EXAMPLE.replace("round", "cut"), 1), (EXAMPLE.replace(",7,", ",24,"), 2)]
USAGES = ["", "t t", "--wipe", "--wipe t t", "--again", "--again t.trimmed", "--again t.trimmed round", "--again t.trimmed round 7 8", "--again t round 6",
          "--again .trimmed round 6", "--again t.trimmed round,6 6", "--again t.trimmed round 6\\n7", "--again t.trimmed ro*nd 6"]


def situations():
    """The folder's files, which one is spoiled, how (in words too), and the arguments."""
    for what, spoil in NO_TEXT.items():
        yield TEXT, "t", what, spoil, FIRST
        yield TRIMMED, "t.trimmed", what, spoil, AGAIN
    for what, spoil in IN_THE_WAY.items():
        yield TEXT, "t.trimming", what, spoil, FIRST
        yield TRIMMED, "t.trimmed.1", what, spoil, AGAIN
        if what != "a link to the file":
            yield TEXT, "t.trimmed", what, spoil, FIRST
            yield TEXT, "t.jobs", what, spoil, FIRST
    for bad in BAD_JOBS:
        yield TEXT, "t.jobs", repr(bad), lambda p, bad=bad: p.write_text(bad), FIRST
        yield TRIMMED, "t.jobs", repr(bad), lambda p, bad=bad: p.write_text(bad), AGAIN
    yield TEXT, "t.jobs", "of another mark", lambda p: p.write_text("round,7,7CF00001\n"), FIRST
    yield TRIMMED, "t.jobs", "missing", lambda p: p.unlink(), AGAIN
    yield TRIMMED, "t.trimmed", "no trimmed file", lambda p: p.write_text(EXAMPLE), AGAIN
    yield {"t" * 250: EXAMPLE}, "other", "not too long a name", lambda p: None, ["t" * 250]


# The counts of each series in ANSWER.
FIRST_COUNTS, LAST_COUNTS = ANSWER.splitlines()[-2:]
# No whole trimmed files: what is replaced in ANSWER, and by what. Each is said to be none.
TORN = [("rain,ozone\n", ""), ("rain,ozone\n", "\n"), ("rain,ozone", "rain"), ("rain,ozone", "rain,ozone,snow"), ("\n4049", "\n\n4049"), ("40490000,7CF00000\n", ""),
        ("7CF00001,3F800000\n", ""), ("40490000", "4049000"), ("40490000", "040490000"), ("40490000", "4049000g"), ("40490000", "4049000a"), ("40490000", " 40490000"), ("40490000,", ""),
        ("40490000,", "40490000,,"), ("3F800000", "7CF00000"), ("3F800000", "3F800000,"), ("3F800000", "3F800000\0"), ("3F800000\n", "3F800000\0\n"),
        (HEADING, HEADING.upper()), (HEADING, HEADING + ","), (HEADING + "\n", ""), (HEADING + "\n", f"{HEADING}\n{HEADING}\n"), (HEADING + "\n", HEADING + "\ngarbage\n"),
        (HEADING, HEADING.removesuffix(",fallen")), (HEADING, HEADING.removesuffix(",risen,fallen")), (HEADING, HEADING.replace("risen,fallen", "fallen,risen")),
        *((f"{FIRST_COUNTS}\n", new) for new in ["", f"{FIRST_COUNTS}\n\n", f"{LAST_COUNTS}\n"]), (f"{FIRST_COUNTS}\n{LAST_COUNTS}\n", ""),
        # a count too large, a clipped reading that wasn't changed, a missing one that isn't there; what changed is as many as rose and fell
        *((FIRST_COUNTS, new) for new in ["3,1,0,0,0,3", "3,1,0,0,2,1", "1,3,0,0,0,1", "1,1,3,0,0,1", "1,1,0,1,0,1", "2,1,0,0,0,2", "2,1,0,0,1,1", "1,1,2,0,0,1"]),
        # what changed is not as many as rose and fell
        *((FIRST_COUNTS, new) for new in ["1,1,0,0,0,0", "1,1,0,0,1,1", "1,1,0,0,0,2", "1,1,0,0,2,0", "0,1,0,0,0,1", "0,1,0,0,1,0", "2,1,0,0,0,1", "1,1,0,0,0,11"]),
        # too few, too many, or no numbers
        *((FIRST_COUNTS, new) for new in ["1,1,0,0", "1,1,0,0,1", "1,1,0,0,0,", "1,1,0,0,,1", "1,1,0,0,0,1,", "1,1,0,0,0,1,0", "1,-1,0,0,0,1", "1,1,0,0,-1,2", "1,1,0,0,0,1x",
                                          "1, 1,0,0,0,1", "1,1,0,0,0, 1", "1,1,0,0,0,1e0"]),
        *((f"{LAST_COUNTS}\n", new) for new in ["0,0,0,0,0,0\n", "0,0,0,10,0,0\n", LAST_COUNTS, f"{LAST_COUNTS}\0", f"{LAST_COUNTS}\n\n", f"{LAST_COUNTS}\n{LAST_COUNTS}\n",
                                                f"{LAST_COUNTS}\ngarbage", f"{LAST_COUNTS}\n\0"])]


def torn():
    for old, new in TORN:
        expect(f"{new!r} for {old!r}", lay({**TRIMMED, "t.trimmed": ANSWER.replace(old, new)}), ["--wipe", *AGAIN], 2, says="t.trimmed is no whole trimmed file: ")
    for length in range(len(ANSWER)):
        expect(f"cut after {length} bytes", lay({**TRIMMED, "t.trimmed": ANSWER[:length]}), ["--wipe", *AGAIN], 2, says="t.trimmed is no whole trimmed file: ")
    # a file of versions 1, with four counts, is whole; cut short or with four counts in one line alone it isn't
    old = ANSWER.replace(HEADING, OLD_HEADING).replace(FIRST_COUNTS, "1,1,0,0").replace(LAST_COUNTS, "0,0,0,1")
    for args in [AGAIN, ["--wipe", *AGAIN]]:
        expect(f"a file of version 1, {args}", lay({**TRIMMED, "t.trimmed": old}), args)
    for torn_old in [old[:length] for length in range(len(old))] + [old.replace("1,1,0,0", FIRST_COUNTS), old.replace("0,0,0,1", LAST_COUNTS), old.replace("1,1,0,0", "2,1,0,0")]:
        expect(f"a file of version 1: {torn_old!r}", lay({**TRIMMED, "t.trimmed": torn_old}), ["--wipe", *AGAIN], 2, says="t.trimmed is no whole trimmed file: ")
    # of names alone, and of another mark
    expect("no readings", lay({**TRIMMED, "t.trimmed": f"rain\n{HEADING}\n0,0,0,0,0,0\n"}), AGAIN)
    expect("another mark", lay({**TRIMMED, "t.jobs": "round,7,7CF00002\n"}), AGAIN, 2, says="t.trimmed is no whole trimmed file: ")
    # files of Windows
    for name, ending in itertools.product(TRIMMED, ["\r\n", "\n\r", "\r"]):
        expect(f"{name} with {ending!r}", lay({**TRIMMED, name: TRIMMED[name].replace("\n", ending)}), ["--wipe", *AGAIN], 2, says=f"{name} is no ")
        expect(f"{name} with {ending!r}, in words", lay({**TRIMMED, name: TRIMMED[name].replace("\n", ending)}), AGAIN, 2, says="carriage returns")
    # a line of the user's
    for names, reason in [("rain,Ozone", "line 1: a name has "), ("rain,ozone\r", "line 1 ends in a carriage return")]:
        expect(f"the names {names!r}", lay({**TRIMMED, "t.trimmed": ANSWER.replace("rain,ozone", names)}), AGAIN, 1, says=f"t.trimmed: refused,9: {reason}")
    text = "a\n" + "3F800000\n" * 513 + f"{HEADING}\n0,0,0,0,0,0\n"
    expect("513 lines", lay({**TRIMMED, "t.trimmed": text}), AGAIN, 1, says="refused,9: line 514: more than 512 lines")
    # nobody may write to it, but its owner may to what is made of it
    folder = lay(TEXT)
    (folder / "t").chmod(0o444)
    run(FIRST, folder)
    verdict("the mode 0444", [] if {(folder / name).stat().st_mode & 0o777 for name in TRIMMED} == {0o644} else ["other modes"])


def nothing_done():
    for (files, spoiled, what, spoil, args), wipe in itertools.product(situations(), [[], ["--wipe"]]):
        folder = lay(files)
        spoil(folder / spoiled)
        # with --wipe nothing is kept as t.trimmed.1
        expect(f"{spoiled} is {what}: {wipe + args}", folder, wipe + args, *([] if wipe and spoiled == "t.trimmed.1" else [2]))
        folder.chmod(0o755)
    for text, number in REFUSED:
        expect(f"refusal {number}", lay({"t": text, "t.jobs": JOB}), ["--wipe", "t"], 1, says=str(number))
    for method, setting, number in [("cut", "6", 1), ("round", "24", 2), ("round", "+6", 9), ("ROUND", "6", 9), ("round", "", 9)]:
        expect(f"refusal {number}, again", lay(TRIMMED), ["--wipe", "--again", "t.trimmed", method, setting], 1, says=str(number))
    for words in USAGES:
        expect(f"usage {words}", lay({**TEXT, **TRIMMED}), words.split(), 2, says="usage: ")
    got = run(["--help"], lay(TEXT))
    verdict("--help", [] if got[0] == 0 and got[1].startswith("usage: ") and not got[2] else [str(got)])


def more_jobs():
    kinds = {"shave": 0, "set": 0, "groom": 0, "halfshave": 0, "round": 1, "absolute": 1, "digits": 2}
    for old, new, wipe in itertools.product(["groom", "absolute", "digits"], kinds, [[], ["--wipe"]]):
        folder = lay({"t.trimmed": ANSWER, "t.jobs": f"{old},5,7CF00000\n"})
        mixed = kinds[old] != kinds[new] or new == "digits"
        expect(f"{old}, then {new} {wipe}", folder, [*wipe, "--again", "t.trimmed", new, "4"], *([2] if mixed and wipe else []))
        if not wipe:
            out = run(["--again", "t.trimmed", new, "3"], lay({"t.trimmed": ANSWER, "t.jobs": f"{old},5,7CF00000\n"}))[1]
            verdict(f"the note on {old}, then {new}", [] if ("mixture" in out) == mixed else [out])
    # a copy that a killed one left is taken for the one that is due
    expect("t.trimmed.1 is there", lay({**TRIMMED, "t.trimmed.1": ANSWER}), AGAIN)


def steps_in_turn():
    """What a failing step alone doesn't show."""
    # a list of jobs has its own mode again where it is put back
    folder = lay(FORMS[0][0])
    (folder / "t.jobs").chmod(0o600)
    expect("the mode of t.jobs", folder, FORMS[0][1], 2, **going_wrong("sync", 4, "fails"))
    for at in [2, 3, 4, 5]:
        expect(f"the disk says no, sync number {at}", lay(TEXT), ["--wipe", "t"], 2, **going_wrong("sync", at, "fails"))
    # what changes after everything is in place isn't wiped
    expect("a late change", lay(TEXT), ["--wipe", "t"], 2, {"t": plain(EXAMPLE + "x\n")}, **going_wrong("sync", 4, "changes"), CHANGE="echo x >>t")
    # a list of jobs that somebody else changes once it is in place stays as it is then; one that is gone is put back
    for (files, args), late in itertools.product(FORMS, [0, 1]):
        # what is kept is synced before
        at = 4 + (args == AGAIN) + late
        more = model(picture(lay(files)), args)[1]["t.jobs"][2].decode() + "x\n"
        for change, now in {"echo x >>t.jobs": more, "umask 027; echo x >u; mv u t.jobs": "x\n", "rm t.jobs": files.get("t.jobs")}.items():
            says = "t.jobs was changed meanwhile" if "x" in change else ""
            expect(f"{args}, {change} at sync {at}", lay(files), args, 2, {"t.jobs": plain(now)} if now else {}, says, **going_wrong("sync", at, "changes"), CHANGE=change)
    for files, args in FORMS:
        folder = lay(files, args, 4 + (args == AGAIN))
        (folder / "t.jobs").write_text(files.get("t.jobs", "") + JOB + JOB)
        want = model(picture(folder, work=False), args)
        got = run(args, folder)
        verdict(f"{args}, killed, and jobs changed", difference(want[1], picture(folder)) + ([] if got[0] == want[0] == 0 else [str(got)]))
    # an answer like the file before it is in place only once it was moved there
    same = {"t.trimmed": ANSWER.replace(FIRST_COUNTS, "0,1,0,0,0,0"), "t.jobs": JOB}
    for how in ["killed", "killed late"]:
        cut(same, ["--again", "t.trimmed", "round", "7"], "mv", 4, how)
    # the answer is on the disk before it takes its place, and its place before the text is removed
    how = going_wrong("sync", 0, "")
    run(["--wipe", "t"], lay(TEXT), **how)
    said = Path(how["COUNT"] + ".said").read_text().splitlines()
    early = any("/answer" in line and "/jobs.new" in line and "t.trimmed" not in line for line in said)
    late = any("./t.trimmed ./t.jobs" in line and " has other t " in line for line in said)
    verdict("what is synced", [] if early and late else said)
    verdict("what is synced first", [] if said[1].split(" has ")[0] == "./t.trimming/process ./t.trimming" and said[1].endswith("t.trimming/process") else said)


# What `uname -n` and /proc/self/ns/pid say elsewhere.
ELSEWHERE = {"uname": "echo elsewhere", "readlink": '[ "$1" = /proc/self/ns/pid ] && echo "pid:[1]" || exec "$tool" "$@"'}


def elsewhere():
    """A folder of another machine or container is never cleared: who knows whether that one is at work. A folder that can't be cleared is told of."""
    for (files, args), (tool, code) in itertools.product(FORMS, ELSEWHERE.items()):
        there = room / "fakes" / f"{tool} elsewhere"
        there.mkdir(exist_ok=True)
        (there / tool).write_text(f'#!/bin/sh\nPATH=${{PATH#*:}}; tool={tool}\n{code}\n')
        (there / tool).chmod(0o755)
        # two that were killed there with their job in place
        folder, twin = [lay(files, args, at=4 + (args == AGAIN), also=there) for _ in range(2)]
        want = model(picture(lay(files)), args)
        expect(f"{args}, left where {tool} says another", folder, args, 2, says="another machine or container")
        # one that died here, and one there that clears after it
        process = folder / "t.trimming" / "process"
        if not process.exists():
            continue
        process.rename(process.with_name("clearing"))
        process.write_text(subprocess.run(["sh", "-c", 'echo 999999999 "$(uname -n) $(readlink /proc/self/ns/pid)"'], capture_output=True, text=True).stdout)
        expect(f"{args}, being cleared where {tool} says another", folder, args, 2, says="another machine or container")
        process.with_name("clearing").unlink()
        for name, place, how in [("here, once that one is gone", folder, {}), ("there", twin, {"first": there})]:
            got = run(args, place, **how)
            verdict(f"{args}, left where {tool} says another, and run {name}", difference(want[1], picture(place)) + ([] if got[0] == want[0] else [str(got)]))
    for number in ["", "12\n", "999999999\n", "999999999 \n", "x\n"]:
        folder = lay(TEXT)
        (folder / "t.trimming").mkdir()
        for name, content in {"process": number, "before": EXAMPLE}.items():
            (folder / "t.trimming" / name).write_text(content)
        # an empty number goes, and the folder stays
        run(FIRST, folder)
        expect(f"a folder with the number {number!r}", folder, ["--wipe", *FIRST], 2, says="look at t.jobs, which may have a job too many")


# ---- Fake trimlists: what the shell code writes is no whole answer, to the first form's text or the second's

FAKES = """kill -9 $$|real; kill -9 $$|real; exit 3|echo refused,9; exit 1|:|echo|real | head -c 40|real | sed 2d|real | sed 3d|real | sed 2p|real; echo 1,0,0,0,0,1|real; echo
printf %s "$(real)"|printf '%s\\0' "$(real)"|real | sed 's/$/\\r/'|real; echo oops >&2|real | sed 1s/rain/snow/|real | sed 1s/,.*//|real | sed s/clipped/cut/
real | sed '3{h;d};4G'|real | sed 4d|real | sed 4p|real | sed '$d'|real | sed '$p'|real | sed '5{h;d};6G'|real | sed '$s/^0/1/'|real | sed '$s/.*/1,0,0,1,0,1/'
real | sed '$s/1/0/'|real | sed '$s/,0//'|real | sed '$s/,0,0$//'|real | sed 's/,risen,fallen//'|real | sed 's/,risen,fallen//;5,6s/,[^,]*,[^,]*$//'
real | sed '5s/0,1$/1,0/'|real | sed '5s/1$/0/'|real | sed '5s/0,1$/1,1/'|real | sed '5s/1$/2/'|real | sed '5s/1,0,0,0,1$/1,0,0,,1/'
real | sed '5s/1/one/'|real | sed '5s/0/-1/'|real | sed 3s/3F800000/3F800001/|real | sed 2s/7CF00000/7CF00001/|real | sed '2{s/40480000/40490000/;t;s/40490000/40490FDB/}'
real | sed 2s/404[89]0000/4049000a/|real | sed 2s/404[89]0000/4049000/|real | sed 2s/404[89]0000/040490000/|real | sed '2s/$/,00000000/'|real | sed '3s/,.*//'
echo refused,9; echo 'trimlist: the text could not be read' >&2|echo refused,9; echo more|echo refused,|echo refused,nine|echo refused,9x|printf refused,9"""
# What happens to the folder while trimlist is at work: nothing of that may be overwritten or removed.
MEANWHILE = ["echo x >>t", "echo x >u; mv u t", "echo x >t.trimmed", "mkdir t.trimmed", "ln -s nowhere t.trimmed", "mkdir u; ln -s u t.trimmed", "echo x >t.jobs"]


def fake_program(code):
    tool = copy_to(room / f"fake {next(numbers)}", "tools/trimlist")
    tool.with_name("trimlist").write_text(f"#!/bin/sh\numask 027\nreal() {{ '{beside}/trimlist'; }}\n{code}\n")
    return tool


def fakes():
    # a program that a fake doesn't spoil is taken
    expect("trimlist is right", lay(TEXT), ["--wipe", "t"], tool=fake_program("real"))
    for code in FAKES.replace("\n", "|").replace(" | ", " @ ").split("|"):
        tool = fake_program(code.replace("@", "|"))
        expect(f"trimlist is {code}", lay(TEXT), ["--wipe", "t"], 2, tool=tool)
        expect(f"trimlist is {code}, again", lay(TRIMMED), AGAIN, 2, tool=tool)
    # a program of version 1
    expect("trimlist is old", lay(TEXT), FIRST, 2, tool=fake_program("real | sed 's/,risen,fallen//;5,6s/,[^,]*,[^,]*$//'"), says="trimlist is of version 1")
    for code, wipe in itertools.product(MEANWHILE, [[], ["--wipe"]]):
        twin = lay(TEXT)
        subprocess.run(["sh", "-c", f"umask 027; {code}"], cwd=twin)
        expect(f"meanwhile {code} {wipe}", lay(TEXT), [*wipe, "t"], 2, picture(twin), tool=fake_program(f"real; {code}"))
    expect("meanwhile jobs grow", lay(TRIMMED), AGAIN, 2, {"t.jobs": plain(JOB + "x\n")}, tool=fake_program("real; echo x >>t.jobs"))


# ---- Steps that fail, and a tool that is killed, stopped or overtaken at a step

# In the file $COUNT the calls are counted. The call $AT goes wrong, as $HOW says.
FAKE_TOOL = """#!/bin/sh
read n <"$COUNT"; n=$((n + 1)); echo $n >"$COUNT"
PATH=${PATH#*:}; tool=${0##*/}
[ $tool != sync ] || echo "$@" has * t.trimming/* >>"$COUNT.said"
case $HOW,$((n - AT)) in *,0 | 'fails on',[1-9]*) ;; *) exec "$tool" "$@" ;; esac
case $HOW in *late) "$tool" "$@"; status=$? ;; esac
case $HOW in
    fails* | late) exit 1 ;;
    killed*) kill -9 $TOOL_ID; exit 1 ;;
    changes) (eval "$CHANGE") ;;
    waits*) echo >"$COUNT.here"; turns=0; while [ ! -e "$COUNT.go" ] && [ $turns -lt 2000 ]; do sleep 0.02; turns=$((turns + 1)); done ;;
    *) kill -s $HOW $TOOL_ID ;;
esac
[ -z "${status-}" ] || exit $status
exec "$tool" "$@"
"""
CHANGING, READING = "mv ln cp sync rm rmdir mkdir chmod cmp".split(), "awk cat sed head tail readlink".split()


def going_wrong(tool, at, how):
    """What `start` needs for a fake of this tool alone."""
    count = room / f"count {next(numbers)}"
    count.write_text("0\n")
    return {"first": room / "fakes" / tool, "COUNT": str(count), "AT": str(at), "HOW": how}


def calls(tool, files, args, left=None):
    """The numbers of a tool's calls in a run in which nothing fails."""
    how = going_wrong(tool, 0, "")
    run(args, lay(files, left), **how)
    return range(1, int(Path(how["COUNT"]).read_text()) + 1)


def stages(before, args):
    """The pictures that a run may leave where it is cut off: with what is kept, the job, the answer, and without the text, one after the other."""
    done = model(before, args)[1]
    pictures = [before]
    for name in ["t.trimmed.1", "t.jobs", "t.trimmed"]:
        pictures.append({**pictures[-1], **({name: done[name]} if name in done else {})})
    return pictures + [done]


def cut(files, args, tool, at, how, left=None):
    """A run in which a call goes wrong; and then another, where it was killed or had to leave its folder."""
    folder = lay(files, left)
    before = picture(folder, work=False)
    pictures = stages(before, args)
    status, _, err = run(args, folder, **going_wrong(tool, at, how))
    rest, stays = picture(folder, work=False), (folder / "t.trimming").exists()
    name = f"{args}, {tool} number {at} {how}{', left before' if left else ''}"
    killed, lasting = how.startswith("killed"), how == "fails on"
    # where cmp says that everything differs, the list of jobs seems changed by somebody else, and stays with a job too many
    many = {**before, "t.jobs": pictures[-1]["t.jobs"]} if lasting and tool == "cmp" else before
    faults = [] if rest in [*pictures, many] else ["a reading or a job is lost"]
    if status not in ([-9] if killed else [0, 2]) or status == 0 and rest != pictures[-1] or status == 2 and rest not in (before, many) and not (lasting and stays):
        faults += [f"status {status}: {err!r}", *difference(before, rest)]
    # only what can't be put back or removed may leave the folder to the next run
    if stays and not killed and not lasting and (tool not in ("rm", "rmdir") or how != "fails"):
        faults.append("its folder was left")
    verdict(name, faults)
    if stays or killed:
        in_place = rest.get("t.trimmed") == pictures[-1]["t.trimmed"] and not ("--again" in args and (folder / "t.trimming" / "answer").exists())
        want = model(rest if in_place else before, args)
        status, _, err = run(args, folder)
        verdict(f"{name}, and once more", difference(want[1], picture(folder)) + ([f"status {status}: {err!r}"] if status != want[0] else []))


def at_once(name, files, left, args, runs):
    """Of some runs as many end well as there are jobs more; the others change nothing."""
    folder = lay(files, left)
    want, again = picture(folder, work=False), 0
    runs = list(runs(folder))
    errors = [run.communicate(timeout=60)[1].decode() for run in runs]
    statuses = [run.returncode for run in runs]
    for _ in range(statuses.count(0)):
        again, want = model(want, args)
    faults = [] if {0} <= set(statuses) <= {0, 2} and not again else [f"{statuses}: {errors}"]
    verdict(f"{args}, {name}", faults + difference(want, picture(folder)))


def overtaken(files, args, tool, at, how, left):
    """A run that waits at a step until another has ended."""
    def runs(folder):
        wrong_step = going_wrong(tool, at, how)
        one = start(args, folder, **wrong_step)
        while one.poll() is None and not Path(wrong_step["COUNT"] + ".here").exists():
            time.sleep(0.01)
        yield (two := start(args, folder))
        two.wait(60)
        Path(wrong_step["COUNT"] + ".go").touch()
        yield one
    at_once(f"another while {tool} number {at} {how}, left: {left}", files, left, args, runs)


def step_tasks():
    for (files, args), tool in itertools.product(FORMS, CHANGING):
        for at, how in itertools.product(calls(tool, files, args), ["fails", "fails on", "late", "killed", "killed late", "TERM", "INT"]):
            if how not in ("TERM", "INT") or (how == "INT") == at % 2:
                yield cut, files, args, tool, at, how
    for (files, args), tool in itertools.product(FORMS[:2], READING):
        for at, how in itertools.product(calls(tool, files, args), ["fails", "killed", "TERM"]):
            yield cut, files, args, tool, at, how
    for (files, args), left in [(form, left) for form in FORMS[:2] for left in (None, form[1])]:
        for tool in ["mkdir", "cat", "cmp", "mv", "ln", "rm", "rmdir"]:
            for at, how in itertools.product(calls(tool, files, args, left), ["waits", "waits late"]):
                yield overtaken, files, args, tool, at, how, left
                if left:
                    yield cut, files, args, tool, at, how.replace("waits", "killed"), left
        for _ in range(10):
            yield at_once, "three at once", files, left, args, lambda folder, args=args: [start(args, folder) for _ in range(3)]


# ---- A full disk


def file_limits():
    text = text_of("round,7", 8, 100)
    # 512 bytes of jobs: one more than a block holds
    jobs = JOB * 16 + "round,0007,7CF00000\n" * 12
    for files, args in [({"t": text, "t.jobs": JOB}, ["--wipe", "t"]), ({"t.trimmed": answer_to(text), "t.jobs": JOB * 40}, AGAIN), ({**TEXT, "t.jobs": jobs}, FIRST)]:
        for blocks in [0, 1, 2, 8, 14, 15, 40]:
            longest = max(len(content) + 17 * name.endswith("jobs") for name, content in files.items())
            expect(f"files of {blocks} blocks, {args}", lay(files), args, *([] if blocks * 512 >= longest else [2]), code=f"ulimit -f {blocks}")


def full_disks():
    """In a mount space of its own: a small disk with so many blocks, or files, free."""
    global room
    for (limit, size), (files, args) in itertools.product([("size=128k", 4096), ("nr_inodes=40", 0)], FORMS):
        statuses = []
        for free in range(14):
            room = Path(tempfile.mkdtemp(dir=beside.parent))
            subprocess.run(["mount", "-t", "tmpfs", "-o", limit, "room", room], check=True)
            folder = lay(files)
            with contextlib.suppress(OSError):
                for number in itertools.count():
                    (room / f"full {number}").write_bytes(b"x" * size)
            for number in range(number - free, number + 1):
                (room / f"full {number}").unlink(missing_ok=True)
            before = picture(folder)
            statuses.append(run(args, folder)[0])
            verdict(f"{args}, {limit}, {free} free", difference(before if statuses[-1] else model(before, args)[1], picture(folder)))
            subprocess.run(["umount", room], check=True)
        verdict(f"{args}, {limit}", [] if statuses == sorted(statuses, reverse=True) and set(statuses) == {0, 2} else [str(statuses)])


def start_full_disks():
    """The same script once more, where a small disk can be mounted."""
    for options in ["-rm", "-m"]:
        if shutil.which("unshare") and subprocess.run(["unshare", options, "mount", "-t", "tmpfs", "room", room], capture_output=True).returncode == 0:
            return subprocess.Popen(["unshare", options, sys.executable, *sys.argv[:3], "--full-disks"], stdout=subprocess.PIPE, text=True)
    return None


def end_full_disks(process):
    global total, wrong
    if process:
        *lines, last = process.communicate()[0].splitlines() or ["trim-file: 1 cases, 1 wrong"]
        print(*lines, sep="\n", end="\n" if lines else "")
        total, wrong = total + int(last.split()[1]), wrong + int(last.split()[3])
    print(f"trim-file: full disks {'tried' if process else 'not tried: no small disk can be mounted'}; read-only folders tried as user {os.getuid()}")


def all_cases():
    """As nobody where that can be, since root may write to a read-only folder."""
    process = start_full_disks()
    if os.getuid() == 0:
        for path in [room, beside]:
            os.chown(path, NOBODY, NOBODY)
        os.setgroups([])
        os.setgid(NOBODY)
        os.setuid(NOBODY)
    for tool in CHANGING + READING:
        (room / "fakes" / tool).mkdir(parents=True)
        (room / "fakes" / tool / tool).write_text(FAKE_TOOL)
        (room / "fakes" / tool / tool).chmod(0o755)
    with ThreadPoolExecutor(4) as pool:
        tasks = [pool.submit(part) for part in [good_texts, places, nothing_done, more_jobs, steps_in_turn, fakes, file_limits, torn, elsewhere]]
        for task in tasks + [pool.submit(*task) for task in step_tasks()]:
            task.result()
    end_full_disks(process)


def main():
    global room, beside
    # a test that was started with signals ignored would hand that on
    for number in (signal.SIGINT, signal.SIGTERM, signal.SIGHUP):
        signal.signal(number, signal.SIG_DFL)
    room = Path(tempfile.mkdtemp())
    beside = room / "beside"
    beside.mkdir()
    for path, name in zip(sys.argv[1:3], ["trim-file", "trimlist"]):
        shutil.copy(path, beside / name)
        (beside / name).chmod(0o755)
    try:
        full_disks() if sys.argv[3:] else all_cases()
    finally:
        shutil.rmtree(beside.parent, ignore_errors=True)
    print(f"trim-file: {total} cases, {wrong} wrong")
    sys.exit(wrong > 0)


main()
