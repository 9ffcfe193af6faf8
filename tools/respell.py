#!/usr/bin/env python3
"""Brings the names of this repository's definitions and lemmas to the spelling of today's Rattle: words in snake case.

usage: python3 tools/respell.py    at the top of the repository, once, after port.py of the kit

A name that an .antt file of the repository defines, and that has a hyphen or a hump inside, is written with underscores
wherever it stands: in .antt files, and in the clauses and ghost members of .rt files. What the library or the checker
names keeps its spelling, and so do functions, types, modules, strings and prose. Where two names would fall together,
they are listed and nothing is written.
"""

import os
import re
import sys

NAME = r"[A-Za-z][\w']*(?:-[\w']+)*"
DEFINED = re.compile(rf"^(\s*)(?:(?:pub|abbrev|unfoldable)\s+)*({NAME})\s*:\s+(.*)")
LOCAL = re.compile(rf"\blet ({NAME})\s*[:=]")
GHOST = re.compile(rf"^\s*ghost ({NAME}):")
TOKEN = re.compile(rf"(?<![\w'◌-])(\.?)({NAME})(?![\w'-])")
HUMP = re.compile(r"[a-z][a-z0-9]*(?:[A-Z][a-z0-9]*)+$")


def wanted(name):
    return name[0].islower() and ("-" in name or HUMP.match(name) is not None)


def snake(name):
    name = name.replace("getD", "get_or").replace("-", "_")
    return re.sub(r"(?<=[a-z0-9])([A-Z])", lambda m: "_" + m.group(1).lower(), name)


def files(ending):
    for folder, dirs, names in os.walk("crates"):
        dirs[:] = sorted(d for d in dirs if d != "out")
        for name in sorted(names):
            if name.endswith(ending):
                yield os.path.join(folder, name)


def read(path):
    with open(path, encoding="utf-8") as f:
        return f.read()


def split(line, mark):
    """The code of a line, and its comment."""
    at = line.find(mark)
    return (line, "") if at < 0 else (line[:at], line[at:])


def definitions():
    """Names that stand for themselves, and names of fields."""
    names, fields = set(), set()
    for path in files(".antt"):
        within = False
        for line in read(path).split("\n"):
            text, _ = split(line, "--")
            if text and not text[0].isspace():
                within = re.match(r"(pub )?record ", text) is not None
            m = DEFINED.match(text)
            if m and not m.group(3).startswith("goal.") and wanted(m.group(2)):
                (fields if within and m.group(1) else names).add(m.group(2))
            names |= {n for n in LOCAL.findall(text) if wanted(n)}
    for path in files(".rt"):
        names |= {m.group(1) for line in read(path).split("\n") if (m := GHOST.match(line)) and wanted(m.group(1))}
    return names, fields


def code(text, names, fields):
    def turn(m):
        known = fields if m.group(1) else names | fields
        return m.group(1) + (snake(m.group(2)) if m.group(2) in known else m.group(2))

    return TOKEN.sub(turn, text)


def comment(text, names):
    """Of a comment only the name that it explains, and names with a hump."""
    m = re.match(rf"(-- )({NAME})(?=[^.]*: )", text)
    head = ""
    if m and m.group(2) in names:
        head, text = m.group(1) + snake(m.group(2)), text[m.end():]
    return head + TOKEN.sub(lambda m: m.group(1) + (snake(m.group(2)) if m.group(2) in names and HUMP.match(m.group(2)) else m.group(2)), text)


def main():
    names, fields = definitions()
    both = {}
    for name in names | fields:
        both.setdefault(snake(name), set()).add(name)
    bad = {k: v for k, v in both.items() if len(v) > 1}
    for k, v in sorted(bad.items()):
        print("falls together:", k, sorted(v))
    if bad:
        return 1
    for mark, ending in (("--", ".antt"), ("//", ".rt")):
        for path in files(ending):
            old = read(path)
            out = []
            for line in old.split("\n"):
                text, rest = split(line, mark)
                if '"' not in text:
                    text = code(text, names, fields)
                out.append(text + comment(rest, names))
            if "\n".join(out) != old:
                with open(path, "w", encoding="utf-8") as f:
                    f.write("\n".join(out))
    for k, v in sorted(both.items()):
        print(sorted(v)[0], "->", k)
    return 0


if __name__ == "__main__":
    sys.exit(main())
