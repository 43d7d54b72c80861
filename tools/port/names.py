#!/usr/bin/env python3
"""Brings the repository's own definitions and lemmas to today's spelling, after the kit's port.py.

usage: python3 tools/port/names.py [FOLDER]     (the top of a checkout; this one, if none is given)

names.txt beside it has a name and its new one on each line: definitions and lemmas in snake case; a lemma that would fall on a definition of its name
ends in _lem. In proofs and definitions each whole word is turned, in sources and edits the definitions alone, in pages what stands in backticks.
Names of functions, paths of modules, strings, inputs and outputs stay.
"""

import os
import re
import sys

HERE = os.path.dirname(os.path.realpath(__file__))
TOP = sys.argv[1] if len(sys.argv) > 1 else os.path.join(HERE, "..", "..")
with open(os.path.join(HERE, "names.txt"), encoding="utf-8") as f:
    TABLE = dict(l.split() for l in f)
CAMEL = {old: new for old, new in TABLE.items() if re.search("[A-Z]", old) and "-" not in old}
WORD = re.compile(r"[^\s(){}\[\],;.:«»`\"]+")
PATH = re.compile(r"^(\s*(?:unfoldable )?(?:pub )?use )(Rattle\.[\w.+]+)(.*)$")
TICKS = re.compile(r"`[^`\n]*`")
SPEC = re.compile(r"\b(\w+)-spec\b")


def turned(text, table):
    def one(m):
        if m.start() >= 4 and text[m.start() - 4 : m.start()] == "tie.":
            return m.group(0)
        return table.get(m.group(0), m.group(0))

    return WORD.sub(one, text)


def antt_line(line):
    if line.lstrip().startswith("--"):
        return TICKS.sub(lambda m: turned(m.group(0), TABLE), turned(line, CAMEL))
    m = PATH.match(line)
    if m:
        return m.group(1) + m.group(2) + turned(m.group(3), TABLE)
    return turned(line, TABLE)


def antt(text, path):
    lines = [antt_line(l) for l in text.split("\n")]
    if os.path.basename(path) == "Proof.antt":
        made = re.sub(r"\W", "_", os.path.basename(os.path.dirname(path))) + "_spec"
        lines = [re.sub(r"(?<![\w-])" + re.escape(made[:-5].replace("_", "-")) + "-spec(?![\\w-])", made, l) for l in lines]
    return "\n".join(lines)


def source(text, path):
    out = []
    for l in text.split("\n"):
        m = PATH.match(l.replace("ghost use", "use", 1)) if l.startswith("ghost use") else None
        out.append("ghost " + m.group(1) + m.group(2) + turned(m.group(3), CAMEL) if m else turned(l, CAMEL))
    return "\n".join(out)


def page(text, path):
    return TICKS.sub(lambda m: turned(m.group(0), TABLE), text)


def kind_of(path):
    if path.endswith(".antt"):
        return antt
    if path.endswith((".rt", ".edit")):
        return source
    if path.endswith(".md"):
        return page
    return None


def main():
    changed = 0
    for top in ("crates", "tests", "docs"):
        for folder, dirs, files in os.walk(os.path.join(TOP, top)):
            dirs[:] = sorted(d for d in dirs if d not in ("out", "target"))
            for name in sorted(files):
                changed += turn(os.path.join(folder, name))
    for name in ("README.md", "CONTRIBUTING.md"):
        changed += turn(os.path.join(TOP, name))
    print(f"names: {changed} files changed")


def turn(path):
    kind = kind_of(path)
    if not kind or os.path.basename(path).startswith("PORT"):
        return 0
    with open(path, encoding="utf-8") as f:
        old = f.read()
    new = kind(old, path)
    if new == old:
        return 0
    with open(path, "w", encoding="utf-8") as f:
        f.write(new)
    return 1


main()
