#!/usr/bin/env python3
"""Spells the repository's own definitions, lemmas, fields and constructors in snake case.

usage: python3 tools/spell.py [ROOT]      ROOT: the top of the repository; none: the current folder

A name that a file of specs/ or proofs/ declares with a dash gets an underscore in its place, wherever it stands: in
specs, proofs, clauses, must-fail edits, and between backticks in comments and pages. Text between double quotes and
the names that the toolchain makes for goals stay. In edits and pages, names that are declared with an underscore
lose their dashes too. It stops where two names would fall together.
"""

import os
import re
import sys

DECLARED = re.compile(r"\s*(?:abbrev |unfoldable |pub )*([^\s(){}:=.,]+) :(?= |$)(.*)")
WORD = r"(?<![\w'-]){}(?![\w'-])"
ODD = {"leZ-true": "le_z_true"}


def files(root, *endings):
    for top in ("crates", "docs", "tools"):
        for folder, dirs, names in os.walk(os.path.join(root, top)):
            dirs[:] = sorted(d for d in dirs if d != "out")
            for n in sorted(names):
                if n.endswith(endings):
                    yield os.path.join(folder, n)
    if "README.md".endswith(endings):
        yield os.path.join(root, "README.md")


def read(path):
    with open(path, encoding="utf-8") as f:
        return f.read()


def declared(root):
    """The names with a dash that specs/ and proofs/ declare, but for those of goals."""
    names, plain = set(), set()
    for path in files(root, ".antt"):
        for line in read(path).splitlines():
            m = DECLARED.match(line)
            if m and not re.match(r" (goal|need|record)\b", m.group(2)):
                (names if "-" in m.group(1) else plain).add(m.group(1))
    return {n for n in names if "◌" not in n}, plain


def spelled(name):
    return ODD.get(name, name.replace("-", "_"))


def pairs(names):
    """Each name's pattern with its new spelling, the longer names first."""
    return [(re.compile(WORD.format(re.escape(n))), spelled(n)) for n in sorted(names, key=lambda n: (-len(n), n))]


def turn(text, words):
    for pattern, new in words:
        text = pattern.sub(new, text)
    return text


def turn_code(line, words, mark):
    """The line with the names turned: all over its code, and between backticks after the comment's mark."""
    code, sign, comment = line.partition(mark)
    pieces = re.split(r'("(?:[^"\\]|\\.)*")', code)
    pieces[::2] = [turn(p, words) for p in pieces[::2]]
    return "".join(pieces) + sign + turn_page(comment, words)


def turn_page(text, words):
    """The text with the names turned between backticks alone."""
    return re.sub(r"`[^`\n]+`", lambda m: turn(m.group(0), words), text)


def main():
    root = sys.argv[1] if len(sys.argv) > 1 else "."
    names, plain = declared(root)
    new = {}
    for n in sorted(names):
        other = new.setdefault(spelled(n), n)
        if other != n or spelled(n) in plain:
            sys.exit(f"spell: {n} and {other} would fall together")
    words = pairs(names)
    both = pairs(names | {n.replace("_", "-") for n in plain if "_" in n})
    turned = 0
    for path in files(root, ".antt", ".rt", ".edit", ".md"):
        old = read(path)
        if path.endswith(".md"):
            text = turn_page(old, both)
        elif path.endswith(".edit"):
            text = turn(old, both)
        else:
            mark = "//" if path.endswith(".rt") else "-- "
            text = "".join(turn_code(line, words, mark) for line in old.splitlines(keepends=True))
        if text != old:
            turned += 1
            with open(path, "w", encoding="utf-8") as f:
                f.write(text)
    print(f"spell: {len(names)} names, {turned} files")


if __name__ == "__main__":
    main()
