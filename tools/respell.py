#!/usr/bin/env python3
"""Brings the repository's own definitions and lemmas to today's spelling: words in snake case, types and modules in camel case.

tools/respell.py         run once at the top of a checkout, after the kit's port.py

tools/respell.txt has a line for each name, old and new. All names are changed at once, so that none is changed twice.
Code, specs, proofs and must-fail edits are respelled everywhere but in strings; a name with a dash is left alone in
comments, where it may be a plain word. Pages and other files are respelled only between backticks.
"""
import os
import re

HERE = os.path.dirname(os.path.realpath(__file__))
NAMES = dict(line.split() for line in open(os.path.join(HERE, "respell.txt"), encoding="utf-8"))
# what ends a name in a source file
BREAK = " \t\n(){}[].,;:\"`|λ→↦⌜⌝∗×«»"
TOKEN = re.compile("[^" + re.escape(BREAK) + "]+")
STRING = re.compile(r'"(?:\\.|[^"\\\n])*"')


def words(text, dashes=True):
    return TOKEN.sub(lambda m: NAMES.get(m.group(), m.group()) if dashes or "-" not in m.group() else m.group(), text)


def line_of_code(line, mark):
    """Strings stay; after the mark of a comment only names with no dash are changed."""
    out, at = [], 0
    while at < len(line):
        string = STRING.match(line, at)
        if string:
            out.append(string.group())
            at = string.end()
        elif line.startswith(mark, at) and (mark != "--" or at == 0 or line[at - 1] == " "):
            out.append(words(line[at:], dashes=False))
            at = len(line)
        else:
            end = at + 1
            while end < len(line) and line[end] != '"' and not (line.startswith(mark, end) and line[end - 1] == " "):
                end += 1
            out.append(words(line[at:end]))
            at = end
    return "".join(out)


def source(text, mark):
    text = "\n".join(line_of_code(line, mark) for line in text.split("\n"))
    # an import under its own name
    return re.sub(r"(\w+) as \1;", r"\1;", text)


def page(text):
    return re.sub(r"`[^`\n]+`", lambda m: words(m.group()), text)


def main():
    for folder, dirs, files in os.walk("."):
        dirs[:] = sorted(d for d in dirs if d not in (".git", "out", "target", "data", "tools"))
        for name in sorted(files):
            path = os.path.join(folder, name)
            if name.endswith((".antt", ".rt", ".edit")):
                turn = lambda t: source(t, "--" if name.endswith(".antt") else "//")
            elif name.endswith(".md") and name != "PORT.md":
                turn = page
            else:
                continue
            with open(path, encoding="utf-8") as f:
                old = f.read()
            new = turn(old)
            if new != old:
                with open(path, "w", encoding="utf-8") as f:
                    f.write(new)


main()
