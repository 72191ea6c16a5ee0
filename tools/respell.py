#!/usr/bin/env python3
"""Respells this repository's own definitions and lemmas: words in snake case, types in camel case.

usage: python3 tools/respell.py [--list]      at the top of a checkout, once, after the kit's port.py

It collects each name that a file of specs/ or proofs/ declares, fields and constructors too, and each name that an import gives
(answers to goals of the check are left, since the check makes their names). Of these it takes the names with a dash, the words in
camel case and those with an old `getD` in them, and respells every whole token that is such a name in .rt and .antt files,
in must-fail edits, and between backticks in pages. `--list` prints the names and what they become, and changes nothing.
It stops if two names would fall together.
"""

import os
import re
import sys

TOP = os.getcwd()
SIGNATURE = re.compile(r"^\s*(?:(?:abbrev|unfoldable|pub|axiom)\s+)*(?:(record|data)\s+)?([^\s(){}\[\].;,:]+)(?:\s+[({].*?)?\s+:(?:\s+(.*))?$")
ALIAS = re.compile(r"\bas\s+([^\s(){}\[\].;,:]+)")
MADE = re.compile(r"^(?:goal|given|need)\.")
TOKEN = re.compile(r"[^\s(){}\[\].;,:`]+")
CAMEL = re.compile(r"[a-z][a-z0-9]*(?:[A-Z][a-z0-9]*)+$")


def files(*ends):
    for folder, dirs, names in os.walk(TOP):
        dirs[:] = sorted(d for d in dirs if d not in ("out", ".git", "target", "tools"))
        for name in sorted(names):
            if name.endswith(ends):
                yield os.path.join(folder, name)


def read(path):
    with open(path, encoding="utf-8") as f:
        return f.read()


def respelled(name):
    name = name.replace("getD", "get_or")
    if CAMEL.match(name):
        return re.sub(r"[A-Z]", lambda m: "_" + m.group(0).lower(), name)
    if "-" not in name:
        return name
    parts = name.split("-")
    if name[0].isupper():
        return "".join(p[0].upper() + p[1:] for p in parts if p)
    return "_".join(parts)


def declared():
    """Every name that a file of antt declares, and those of them that the check makes."""
    names, made = set(), set()
    for path in files(".antt"):
        for line in read(path).split("\n"):
            m = SIGNATURE.match(line)
            if m:
                (made if MADE.match(m.group(3) or "") else names).add(m.group(2))
            if line.lstrip().startswith(("use ", "pub use ")):
                names.update(ALIAS.findall(line))
    for path in files(".rt"):
        for line in read(path).split("\n"):
            if line.startswith("ghost use "):
                names.update(ALIAS.findall(line))
    return names - made


def main():
    names = declared()
    new = {n: respelled(n) for n in names if respelled(n) != n}
    seen = {}
    clash = []
    for n in sorted(names):
        to = new.get(n, n)
        if to in seen:
            clash.append((seen[to], n, to))
        seen[to] = n
    if clash:
        for one, other, to in clash:
            print(f"{one} and {other} would both be {to}", file=sys.stderr)
        raise SystemExit(1)
    if "--list" in sys.argv:
        for n in sorted(new):
            print(n, new[n])
        return

    def turn(text):
        return TOKEN.sub(lambda m: new.get(m.group(0), m.group(0)), text)

    changed = 0
    for path in files(".rt", ".antt", ".edit", ".md"):
        old = read(path)
        text = re.sub(r"`[^`\n]+`", lambda m: turn(m.group(0)), old) if path.endswith(".md") else turn(old)
        if text != old:
            changed += 1
            with open(path, "w", encoding="utf-8") as f:
                f.write(text)
    print(f"respell: {len(new)} names, {changed} files")


main()
