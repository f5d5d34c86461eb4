#!/usr/bin/env python3
"""Brings the repository's own definitions, lemmas, fields and constructors to one spelling: words in snake case. Types and modules, in
camel case, stay, and so do the names of src/, of goals and of the library. `length-f`, a law of the length of what f gives, keeps its
dash, which joins two names.

usage: python3 tools/respell.py [--list]      at the top of the repository, once, after port.py; --list prints the names and changes nothing

It turns the files of specs/, proofs/ and src/, the edits of must-fail/, and in README.md and docs/ what no English word is or stands between backticks.
"""

import collections
import glob
import re
import sys

# A name as a proof file has it, beside comments, texts and what stands between « and ».
TOKEN = re.compile(r"--[^\n]*|«[^»]*»|[^\s(){}.;,@\"«»\[\]\\]+")
RUST = re.compile(r"//[^\n]*|b?\"(?:[^\"\\]|\\.)*\"|b?'(?:[^'\\]|\\.)'|[^\s(){}.;,@\"\[\]\\']+'*")
DECLARED = re.compile(r"^\s*(?:(?:unfoldable|abbrev|pub) )*([^\s(){}\[\]:;,]+) :(?:$| )")
QUOTED = re.compile(r"`([^`\n]*)`")
NAME = re.compile(r"[^\s(){}.;,@\"«»\[\]\\`:]+")


def read(path):
    with open(path, encoding="utf-8", newline="") as it:
        return it.read()


def proof_files():
    return sorted(glob.glob("crates/*/specs/*.antt") + glob.glob("crates/*/proofs/**/*.antt", recursive=True))


def declared():
    """The names that the repository declares, with the files. What a function's own proof gives to Rattle has Rattle's name."""
    found = collections.defaultdict(set)
    for path in proof_files():
        own = len(path.split("/")) > 4
        for line in read(path).split("\n"):
            if line.lstrip().startswith("--"):
                continue
            m = DECLARED.match(line)
            if m and not (own and re.search(r"\b(tie|goal)\.|→ statement M|invariant-|decreases-", line)):
                found[m.group(1)].add(path)
    return found


def snake(name):
    """`isNan`, `counts-forC` and `A-below` as `is_nan`, `counts_for_c` and `A_below`."""
    name = re.sub(r"(?<=[a-z0-9])([A-Z])", lambda m: "_" + m.group(1).lower(), name) if re.match(r"[a-z]", name) else name
    if name.startswith("length-"):
        return "length-" + name[len("length-") :].replace("-", "_")
    return name.replace("-", "_")


# Two names that would fall together: a lemma that would have its function's name gets `_lem`.
APART = {n: n.replace("-", "_") + "_lem" for n in """
    absolute-size area-series asked-number bit-xor codes-known cut-limit digit-count exponent-of field-tail filling-after flat-map half-unit job-line
    layer-at old-doubles one-kind or-top part-at quick-code round-over settled-by settled-tail spacing-at stored-layer
""".split()} | {"missing-code": "is_missing_code", "keepBits": "keep_bits_of", "inOrder": "in_order_sum"}


def plan():
    found = declared()
    turned = {n: snake(n) for n in found if re.match(r"[A-Za-z]", n) and re.fullmatch(r"[\w'-]+", n) and snake(n) != n}
    turned |= {n: new for n, new in APART.items() if n in found}
    return found, turned


def of_library(text):
    """The names that a file has from the library."""
    return {n for mod, names in re.findall(r"^use ([^\s{]+)\.\{([^}]*)\}", text, re.M) if not own_module(mod) for n in re.split(r",\s*", names)}


def own_module(mod):
    return mod.startswith("Rattle.") and mod.split(".")[1] in OWN


OWN = {p.split("/")[1] for p in glob.glob("crates/*/src")}


def turn_proof(text, turned):
    others = of_library(text)

    def one(m):
        it = m.group(0)
        if it.startswith("--"):
            return turn_comment(it, turned)
        return it if it in others else turned.get(it, it)

    return TOKEN.sub(one, text)


def turn_comment(text, turned):
    """Only what can be no English word, or stands between backticks."""
    text = QUOTED.sub(lambda m: "`" + NAME.sub(lambda n: turned.get(n.group(0), n.group(0)), m.group(1)) + "`", text)
    return re.sub(r"\b[a-z]+[0-9]*[A-Z]\w*", lambda m: turned.get(m.group(0), m.group(0)), text)


def turn_source(text, turned):
    def one(m):
        it = m.group(0)
        if it.startswith("//"):
            return turn_comment(it, turned)
        if it[0] in "\"'" or it[:2] in ('b"', "b'"):
            return it
        return turned.get(it, it)

    return RUST.sub(one, text)


# What port.py turns in a whole file, for the single lines of an edit.
PLAIN = {
    "getD": "get_or",
    "zipWith": "zip_with",
    "flatMap": "flat_map",
    "subℕ": "sub_ℕ",
    "ltZ": "lt_z",
    "eqZ": "eq_z",
    "leZ": "le_z",
    "addZ": "add_z",
    "subZ": "sub_z",
    "mulZ": "mul_z",
    "negZ": "neg_z",
}


def turn_edit(text, turned):
    out = []
    path = ""
    for line in text.split("\n"):
        if line.startswith("file: "):
            path = line[len("file: ") :]
        head = re.match(r"(old: ?|new: ?)", line)
        if head:
            body = line[head.end() :]
            if path.endswith(".antt"):
                body = re.sub(r"(?<=[\w)\]']) \.(?=[\w])", ".", body)
                body = re.sub(r"(?<![\w◌])_([≡≢≤<+*/%^∷&|-]+)_(?![\w◌])", r"◌\1◌", body)
                body = TOKEN.sub(lambda m: turned.get(PLAIN.get(m.group(0), m.group(0)), PLAIN.get(m.group(0), m.group(0))), body)
            else:
                body = turn_source(body, turned)
            line = head.group(0) + body
        out.append(line)
    return "\n".join(out)


def main():
    found, turned = plan()
    tokens = {p: set(TOKEN.findall(read(p))) for p in proof_files()}
    for name, new in sorted(turned.items()):
        if "--list" in sys.argv:
            print(name, new)
        for p, has in tokens.items():
            if name in has and new in has:
                print(f"falls together: {name} and {new} in {p}")
    print(f"{len(turned)} names")
    if "--list" in sys.argv:
        return
    for pattern, turn in [
        ("crates/*/specs/*.antt", turn_proof),
        ("crates/*/proofs/**/*.antt", turn_proof),
        ("crates/*/src/*.rt", turn_source),
        ("crates/*/must-fail/*.edit", turn_edit),
        ("docs/*.md", turn_comment),
        ("README.md", turn_comment),
    ]:
        for path in sorted(glob.glob(pattern, recursive=True)):
            text = read(path)
            new = turn(text, turned)
            if new != text:
                with open(path, "w", encoding="utf-8", newline="") as it:
                    it.write(new)


if __name__ == "__main__":
    main()
