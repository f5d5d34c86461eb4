#!/usr/bin/env python3
"""Checks docs/TRACE.md and docs/PAPERS.md: what they refer to must exist. And docs/PROOFS.md's list of calls open to users: a
library crate stands there with each of its public functions, or says in its first lines that it is internal.

A row of the trace is `| clause | definition | contract or theorem | must-fail edit | test |`. Each cell after the first holds references in
backticks, parted by a space or <br>, and nothing else; under must-fail edit these are .edit files. Where nothing stands, the cell holds one
key, `docs/DECISIONS.md#gap: KEY`, and the entry there begins with **gap: KEY.** An empty cell is a fault, and so is an entry that no cell names.

A reference is `path` or `path#identifier`, with the path from the repository's root. The identifier must be declared in an .antt or .rt file;
in any other file the text must occur. In docs/PAPERS.md every `file.antt#name` is such a reference, with the path from crates/papers/specs,
and for PROVED from crates/papers/proofs, where it doesn't begin with crates/."""
import re
import sys
from pathlib import Path

ROOT = Path(__file__).resolve().parent.parent
TABLE = ROOT / "docs" / "TRACE.md"
PAPERS = ROOT / "docs" / "PAPERS.md"
PROOFS = ROOT / "docs" / "PROOFS.md"
PROVED = "Papers.antt#papers"
GAP = "docs/DECISIONS.md#gap: "
COLUMNS = ["definition", "contract or theorem", "must-fail edit", "test"]
RESERVED = {"let", "in", "use", "module", "where", "record", "data", "open"}


def declared_in_antt(text):
    """The names with a signature (fields and constructors have one too), and those of records and data types."""
    text = re.sub(r"\{-.*?-\}", " ", text, flags=re.S)
    text = re.sub(r"(?m)(^|\s)--.*", "", text)
    name = r"[^\s(){}.;,@\"]+"
    names = set(re.findall(rf"(?m)^ *(?:pub )?(?:record|data) ({name})", text))
    marks = r"(?:(?:unfoldable|abbrev|axiom|pub) )*"
    for words in re.findall(rf"(?m)^ *{marks}({name}(?: {name})*)(?: \{{[^}}]*\}})? :(?:\s|$)", text):
        if words.split()[0] not in RESERVED:
            names.update(words.split())
    return names


def declared_in_rt(text):
    """The names after fn, struct, enum and const, and the variants of each enum."""
    text = re.sub(r"//.*", "", text)
    names = set(re.findall(r"\b(?:fn|struct|enum|const) (\w+)", text))
    for body in re.findall(r"\benum \w+\s*\{((?:[^{}]|\{[^{}]*\})*)\}", text):
        bare = re.sub(r"\{[^{}]*\}|\([^()]*\)", "", body)
        names.update(variant.strip() for variant in bare.split(","))
    return names - {""}


def fault(reference):
    """Why a reference doesn't resolve, or nothing."""
    path, mark, identifier = reference.partition("#")
    if path.startswith("/") or ".." in path.split("/") or not (ROOT / path).is_file():
        return "there is no such file"
    if not mark:
        return None
    text = (ROOT / path).read_text(encoding="utf8")
    if path.endswith(".antt"):
        return None if identifier in declared_in_antt(text) else "not declared there"
    if path.endswith(".rt"):
        return None if identifier in declared_in_rt(text) else "not declared there"
    return None if identifier and identifier in text else "the text does not occur there"


def rows():
    """The trace's rows, each with its line's number and its cells."""
    for number, line in enumerate(TABLE.read_text(encoding="utf8").splitlines(), 1):
        line = line.strip()
        cells = [cell.strip() for cell in re.split(r"(?<!\\)\|", line)[1:-1]]
        if line.startswith("|") and cells[1:] != COLUMNS and not set(line) <= set("|-: "):
            yield number, cells


def papers():
    """The references of docs/PAPERS.md, each with its path from the root."""
    for name in re.findall(r"`([^`\s]+\.antt#[^`]+)`", PAPERS.read_text(encoding="utf8")):
        folder = "proofs" if name == PROVED else "specs"
        yield name if name.startswith("crates/") else f"crates/papers/{folder}/{name}"


def calls():
    """docs/PROOFS.md's list of calls open to users: each crate with the names that stand there. 'there' is the crate of the row before."""
    section = PROOFS.read_text(encoding="utf8").split("## The calls open to users")[1].split("\n## ")[0]
    listed, crate = {}, None
    for cell in re.findall(r"(?m)^\| ([^|]*`[^|]*) \|", section):
        crate = (re.search(r"`crates/(\w+)/src/lib\.rt`", cell) or [None, crate])[1]
        listed.setdefault(crate, set()).update(re.findall(r"`(\w+)`", cell.partition(" in ")[0].partition(" there")[0]))
    return listed


def opened():
    """Faults of that list: a library with functions stands there, each public function by its name and none with a 'requires', or its first lines say 'Internal:'."""
    listed = calls()
    if not listed:
        yield "docs/PROOFS.md: no call is open to users"
    for path in sorted(ROOT.glob("crates/*/src/lib.rt")):
        name, text = path.parts[-3], path.read_text(encoding="utf8")
        first = re.match(r"(?://.*\n)*", text)[0]
        public = dict(re.findall(r'(?ms)^ *pub (?:extern "C" )?fn (\w+)(.*?)^ *\{', text))
        if name not in listed:
            if re.search(r"\b(?:fn|mod|const) \w", text) and "Internal:" not in first:
                yield f"crates/{name}/src/lib.rt: it is not on docs/PROOFS.md's list of calls, and its first lines don't say that it is internal"
            continue
        if set(public) != listed[name] or "Internal:" in first:
            yield f"crates/{name}/src/lib.rt: its public functions, and docs/PROOFS.md's list of calls, differ: {set(public) ^ listed[name] or 'Internal'}"
        for call in (call for call, contract in public.items() if "requires" in contract):
            yield f"crates/{name}/src/lib.rt: {call}: a call open to users has a 'requires'"
    for name in listed.keys() - {path.parts[-3] for path in ROOT.glob("crates/*/src/lib.rt")}:
        yield f"docs/PROOFS.md: {name}: no such crate"


def main():
    sys.stdout.reconfigure(encoding="utf8")
    faults = []
    count = references = 0
    decided = re.findall(r"\*\*gap: ([^.*]+)\.\*\*", (ROOT / "docs" / "DECISIONS.md").read_text(encoding="utf8"))
    gaps = dict.fromkeys(decided, 0)
    for number, cells in rows():
        count += 1
        if len(cells) != 5:
            faults.append(f"docs/TRACE.md:{number}: {len(cells)} cells in this row, and not 5")
            continue
        for column, cell in zip(COLUMNS, cells[1:]):
            at = f"docs/TRACE.md:{number}: {column}"
            found = re.findall(r"`([^`]*)`", cell)
            rest = re.sub(r"`[^`]*`|<br>|\s", "", cell)
            if rest:
                faults.append(f"{at}: {rest}: not a reference in backticks")
            if not found:
                faults.append(f"{at}: the cell is empty")
            elif len(found) == 1 and found[0].startswith(GAP):
                key = found[0][len(GAP):]
                if key in gaps:
                    gaps[key] += 1
                else:
                    faults.append(f"{at}: {key}: no decision has this key")
            else:
                references += len(found)
                faults += [f"{at}: {text}: {why}" for text in found if (why := fault(text))]
                faults += [f"{at}: {text}: a key stands alone" for text in found if text.startswith(GAP)]
                if column == COLUMNS[2]:
                    faults += [f"{at}: {text}: not an edit" for text in found if not text.endswith(".edit")]
    faults += [f"docs/DECISIONS.md: gap: {key}: no cell names it" for key, cells in gaps.items() if cells == 0]
    claims = list(papers())
    faults += [f"docs/PAPERS.md: {text}: {why}" for text in claims if (why := fault(text))]
    faults += opened()
    for line in faults:
        print(line)
    print(f"trace: {count} rows, {references} references")
    print(f"trace: {sum(gaps.values())} cells with a decision:", ", ".join(f"{n} {key}" for key, n in gaps.items()))
    print(f"trace: {len(claims)} references in docs/PAPERS.md")
    print(f"trace: {len(faults)} faults")
    sys.exit(1 if faults or not references or not claims else 0)


main()
