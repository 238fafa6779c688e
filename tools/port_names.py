#!/usr/bin/env python3
"""Brings this repository's own names to the spelling of today's Rattle: run once, at the top, right after the kit's port.py.

port.py respells the names that come from Rattle, and only some of the repository's own. This script respells the others by the table
port-names.tsv beside it: where (the start of a path, empty for everywhere), the old name, the new one. Words and lemmas are in snake
case; a dash stays where it joins the names of two definitions. A lemma that would get its definition's name ends in `_lem`. It goes by
whole names, in crates/ (the must-fail edits too), and in README.md and docs/ inside of backquotes. What follows a dot is a name as any
other: fields and members of modules are respelled with their definition.
"""

import os
import re

HERE = os.path.dirname(os.path.realpath(__file__))
ROOT = os.path.dirname(HERE)
NAME = re.compile(r"[^\s(){}\[\].,;:|`\"→×]+")
QUOTED = re.compile(r"`[^`\n]+`")


def table():
    with open(os.path.join(HERE, "port-names.tsv"), encoding="utf-8") as f:
        return [line.rstrip("\n").split("\t") for line in f]


def respelled(text, names):
    return NAME.sub(lambda m: names.get(m.group(), m.group()), text)


def files():
    for top in ("crates", "docs"):
        for folder, inside, names in os.walk(os.path.join(ROOT, top)):
            inside[:] = sorted(d for d in inside if d != "out")
            for name in sorted(names):
                if name.endswith((".rt", ".antt", ".edit", ".md")):
                    yield os.path.join(folder, name)
    yield os.path.join(ROOT, "README.md")


def main():
    rows = table()
    changed = 0
    for path in files():
        short = os.path.relpath(path, ROOT)
        names = {old: new for where, old, new in rows if short.startswith(where)}
        with open(path, encoding="utf-8") as f:
            text = f.read()
        if path.endswith(".md"):
            new = QUOTED.sub(lambda m: respelled(m.group(), names), text)
        else:
            new = respelled(text, names)
        if new != text:
            changed += 1
            with open(path, "w", encoding="utf-8") as f:
                f.write(new)
    print(f"port_names: {len(rows)} names, {changed} files changed")


if __name__ == "__main__":
    main()
