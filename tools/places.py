#!/usr/bin/env python3
"""Lists the places in crates/*/src that may read like an older language, a heading for each kind.

    tools/places.py [FOLDER]      FOLDER holds crates/ (none: the repository)

It goes by text, so a line that it prints is a place to look at and not a fault; docs/DESIGN-PASS.md
says what became of each.
"""
import itertools
import os
import re
import sys

ROOT = sys.argv[1] if len(sys.argv) > 1 else os.path.join(os.path.dirname(__file__), "..")


def sources():
    for folder, _, names in sorted(os.walk(os.path.join(ROOT, "crates"))):
        parts = folder.split(os.sep)
        if "src" not in parts or "out" in parts or "target" in parts:
            continue
        for name in sorted(names):
            if name.endswith(".rt"):
                path = os.path.join(folder, name)
                with open(path, encoding="utf-8") as f:
                    yield os.path.relpath(path, os.path.join(ROOT, "crates")), f.read().split("\n")


FILES = list(sources())


def code(line):
    return "" if line.lstrip().startswith("//") else line


def grep(pattern, comments=False):
    found = []
    for path, lines in FILES:
        for number, line in enumerate(lines, 1):
            text = line if comments else code(line)
            if "ghost use" not in text and re.search(pattern, text):
                found.append(f"{path}:{number}: {line.strip()}")
    return found


def functions():
    """Each function: path, name, parameters, and its body with names, numbers and types erased."""
    for path, lines in FILES:
        text = "\n".join(code(line) for line in lines)
        for m in re.finditer(r"\bfn (\w+)(?:<[^>]*>)?\(", text):
            depth, at = 1, m.end()
            while depth and at < len(text):
                depth += {"(": 1, ")": -1}.get(text[at], 0)
                at += 1
            parameters = text[m.end():at - 1]
            start = re.compile(r"^\s*\{|\)[^\n;{]*\{", re.M).search(text, at)
            opening = None
            for found in re.finditer(r"(requires|ensures)[^{]*\{|\{|;", text[at:]):
                if found.group(0) == ";":
                    break
                if found.group(0) == "{":
                    opening = at + found.start()
                    break
                # step over the clause
                depth, skip = 1, at + found.end()
                while depth:
                    depth += {"{": 1, "}": -1}.get(text[skip], 0)
                    skip += 1
                text = text[:at + found.start()] + " " * (skip - at - found.start()) + text[skip:]
            if opening is None:
                continue
            depth, end = 1, opening + 1
            while depth and end < len(text):
                depth += {"{": 1, "}": -1}.get(text[end], 0)
                end += 1
            body = text[opening:end]
            keep = {"if", "else", "for", "in", "while", "loop", "match", "return", "let", "mut", "as", "break"}
            shape = re.sub(r"[A-Za-z_]\w*|\d[\d_]*", lambda w: w.group(0) if w.group(0) in keep else "x", body)
            shape = re.sub(r"x\s*::\s*", "", re.sub(r"\s+", " ", shape))
            yield path, m.group(1), parameters, shape


FUNCTIONS = list(functions())


def twins():
    """Functions of one shape, short ones left out, and arms of a match counted once."""
    groups = {}
    for path, name, _, shape in FUNCTIONS:
        shape = re.sub(r"(x => x(?:\(x(?:\.x)?\))?,? ?)+", "arms ", shape)
        if len(shape) >= 16 and "#" not in shape:
            groups.setdefault(shape, []).append(f"{path} {name}")
    return [" = ".join(g) for g in groups.values() if len(g) > 1]


def together():
    """Pairs of parameters that stand in three or more functions, and never one without the other."""
    counts, alone = {}, {}
    for _, _, parameters, _ in FUNCTIONS:
        flat = re.sub(r"\s+", " ", parameters)
        names = [p.strip() for p in re.split(r",(?![^<]*>)", flat) if ":" in p]
        names = sorted({re.sub(r"<.*>", "", p.replace("mut ", "")) for p in names})
        for p in names:
            alone[p] = alone.get(p, 0) + 1
        for pair in itertools.combinations(names, 2):
            counts[pair] = counts.get(pair, 0) + 1
    return [f"{a}; {b}: {n} functions" for (a, b), n in sorted(counts.items())
            if n >= 3 and n == min(alone[a], alone[b])]


def facts():
    """Facts of a requires that stand in three or more functions of a crate."""
    counts = {}
    for path, lines in FILES:
        for line in lines:
            m = re.match(r"\s*requires (?:\w+ )?\{ (.*) \}$", line)
            for fact in re.split(r" × ", m.group(1)) if m else []:
                key = (path.split(os.sep)[0], fact.strip("() ").replace(".old", ".now"))
                counts[key] = counts.get(key, 0) + 1
    return [f"{crate}: {fact}: {n} functions" for (crate, fact), n in sorted(counts.items()) if n >= 3]


KINDS = [
    ("1a flags: bool as a parameter or a field", lambda: grep(r"\b\w+: bool\b")),
    ("1b a number that stands for none", lambda: grep(
        r"//.*\b(0|99|255|\(0, 0\)|0/0)\b.*\b(none|absent|ended|means|no such|no number|accepted|Where)|, or (0|99)\.|0/0", True)
        + grep(r"=> \(?(0|99)(, (0|99))?\)?,$|None => 0")),
    ("1c numbers for kinds and refusals", lambda: grep(
        r"match (value|rule|groupings|self\.number\(\))|rule: u8|groupings: usize|-> \(u8, u32\)")),
    ("2 functions of one shape", twins),
    ("3 loops that count by hand", lambda: grep(r"for \w+ in .*\.\.|\bwhile |\b(place|number|position|count|cases|apart|refused|at|have|record)\b (\+|-)= 1;|saturating_add\(1\)")),
    ("4 conversions, comparisons and printing by hand", lambda: grep(
        r"fn (from_value|rule_of_number|is_less|number|layer|layer_name|spell|\w*_count|put\w*|\w+_len|copied|card|signed|byte|short|number16|number32|told\w*)\b")),
    ("5a facts in three or more contracts", facts),
    ("5b parameters that travel together", together),
    ("6 buffers with a length beside, parallel arrays", lambda: grep(r"^\s*(pub |pub\(crate\) )?(count|at|have|len): usize,?$|^\s*(pub |pub\(crate\) )?\w+: \[\w+; \w+\],$|\bat: usize\b")),
    ("7 a switch on the next step", lambda: grep(r"match (groupings|action)|\bANY\b|\bdyn\b")),
]

for title, find in KINDS:
    found = find()
    print(f"{title}: {len(found)}")
    for line in found:
        print(f"    {line}")
