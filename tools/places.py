#!/usr/bin/env python3
"""Counts the places of docs/DESIGN-PASS.md in src/, a list for each point. python3 tools/places.py [-v]: with -v each place by its line."""
import re
import sys
from collections import Counter, defaultdict
from pathlib import Path

TOP = Path(__file__).resolve().parent.parent
FILES = sorted(TOP.glob('crates/*/src/*.rt'))


def code_of(path):
    return [re.sub(r'//.*', '', line) for line in path.read_text().splitlines()]


def lines_with(pattern, skip=None):
    for path in FILES:
        for number, line in enumerate(code_of(path), 1):
            if re.search(pattern, line) and not (skip and re.search(skip, line)):
                yield f'{path.relative_to(TOP)}:{number}: {line.strip()[:110]}'


def enums_like_option():
    """Enums with a variant that means none, wrong or refused, beside one or more that hold the value."""
    for path in FILES:
        text = '\n'.join(code_of(path))
        for found in re.finditer(r'enum (\w+) \{(.*?)\n\}', text, re.S):
            if re.search(r'\b(Refused|Bad\w*|No[A-Z]\w*|None|Nothing|Wrong|Done)\b', found[2]):
                yield f'{path.relative_to(TOP)}: enum {found[1]}'


def functions():
    """Crate, name and head of each function: all up to its body, or to the semicolon of a trait's."""
    for path in FILES:
        lines = code_of(path)
        for number, line in enumerate(lines):
            found = re.search(r'\bfn (\w+)', line)
            if not found:
                continue
            head = []
            for text in lines[number:]:
                head.append(text)
                if text.strip() == '{' or text.rstrip().endswith((' {', ';', '{}')):
                    break
            yield path, found[1], '\n'.join(head)


def facts_of(clause):
    """The facts that a clause joins by ×, without the brackets around them."""
    depth, part, parts = 0, '', []
    for char in clause:
        depth += (char in '([{') - (char in ')]}')
        if char == '×' and depth == 0:
            parts.append(part)
            part = ''
        else:
            part += char
    parts = [p.strip() for p in parts + [part]]
    if len(parts) == 1:
        inner = parts[0]
        return facts_of(inner[1:-1]) if inner.startswith('(') and inner.endswith(')') and inner.count('(') and '×' in inner else [inner]
    return [fact for p in parts for fact in facts_of(p)]


def twins():
    """Functions and structs that stand once for singles and once for doubles, or for bytes, pairs and words, by their names."""
    groups = defaultdict(set)
    for path in FILES:
        for found in re.finditer(r'\b(?:fn|struct) (\w+)', '\n'.join(code_of(path))):
            crate, name = path.parts[-3], found[1]
            key = re.sub(r'single|double|Single|Double', '*', f'{crate}::{name}')
            key = re.sub(r'_(bytes|pairs|words)$|(byte|pair|word)_of$|^(array_halves::wide)_\w+$', r'\3_#', key)
            key = re.sub(r'64$', '', key)
            groups[key].add(f'{crate}::{name}')
    for key, names in sorted(groups.items()):
        if len(names) > 1:
            yield ' = '.join(sorted(names))


def repeated_facts():
    """Facts that three or more functions of one crate require or ensure word for word, once each."""
    seen = defaultdict(set)
    for path, name, head in functions():
        for clause in re.findall(r'(?:requires|ensures)[ \w]*\{\s*(.*?)\s*\}(?=\s*(?:requires|ensures|\{|;|$))', head, re.S):
            for fact in facts_of(re.sub(r'\s+', ' ', clause)):
                seen[path.parts[-3], fact].add(name)
    for (crate, fact), names in sorted(seen.items()):
        if len(names) > 2:
            yield f'{crate}: {len(names)} functions: {fact[:100]}'


def long_lists():
    """Functions with six parameters or more."""
    for path in FILES:
        text = '\n'.join(code_of(path))
        for found in re.finditer(r'\bfn (\w+)(?:<[^(]*>)?\(([^{]*?)\)\s*(?:->|\{|$|requires|ensures|;)', text, re.S | re.M):
            count = len([p for p in re.split(r',(?![^<(\[]*[>)\]])', found[2]) if p.strip()])
            if count > 5:
                yield f'{path.relative_to(TOP)}: fn {found[1]}: {count} parameters'


POINTS = {
    '1 enums like Option or Result': enums_like_option,
    '1 numbers for kinds and refusals': lambda: lines_with(
        r'Refused\(\w+\)|refusal: u32|refusal: \d|method: u32|method (==|<|<=) \d|\d < method|\.method == \d|refused\(\d\)|return \d+;$|const (PLAIN|SPARED|CLIPPED|MISSING|REFUSED|CONTRADICTORY)'),
    '1 a flag beside its value': lambda: lines_with(r'^\s*(pub )?(found|counted|added|ended|refused|clipped): (bool|u32|u64),'),
    '2 twins': twins,
    '3 loops that count by hand': lambda: lines_with(r'^\s*while '),
    '4 equality, order and copies by hand': lambda: lines_with(r'fn (same_\w+|smaller|larger|capped|at_most|difference|flag|choose\w*|over|word_is)\b'),
    '4 conversions by as': lambda: lines_with(r'\bas (u8|u16|u32|u64|usize|i32|i64|f32|f64)\b'),
    '4 printing by hand': lambda: lines_with(r'fn put_\w+'),
    '5 facts in the contracts of three or more functions': repeated_facts,
    '5 six parameters or more': long_lists,
    '6 buffers with a place or a length beside': lambda: lines_with(r'\bat: usize|\bfrom: usize|\[\w+; 4\], \w+: usize|\bn: usize|lines: usize'),
    '7 switches by a number or a letter': lambda: lines_with(r"match (initial|form|method|fate|digit|number)\b"),
}

if __name__ == '__main__':
    for title, places in POINTS.items():
        found = list(places())
        print(f'{len(found):5}  {title}')
        if '-v' in sys.argv:
            for place in found:
                print(f'           {place}')
