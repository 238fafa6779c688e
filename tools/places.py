#!/usr/bin/env python3
"""Counts in crates/*/src the places that docs/DESIGN-PASS.md speaks of, point by point; by the text of the code alone.

    python3 tools/places.py                 how many there are of each kind
    python3 tools/places.py --list KIND..   and where they stand, of these kinds ('all': of all)
    python3 tools/places.py --at COMMIT     the same at a commit

A place with a line `// kept: ..` above it, in it or in the comment above its function is counted once more, as kept; and so is, of the kinds 1, 2
and 5, each in a file whose head has such a line.
"""

import argparse
import collections
import re
import subprocess

FUNCTION = re.compile(r"^( *)(?:pub(?:\(crate\))? )?(?:extern \"C\" )?fn (\w+)(?:<[^>]*>)?\((.*?)\)(?: -> ([^\n{]+?))?(?=\n| \{)", re.S | re.M)
ENUM = re.compile(r"^(?:pub(?:\(crate\))? )?enum (\w+) \{\n(.*?)^\}", re.S | re.M)
STRUCT = re.compile(r"^(?:pub(?:\(crate\))? )?struct (\w+)(?:<[^>]*>)? \{\n(.*?)^\}", re.S | re.M)

# Parameters that travel together: a function that takes two of a group takes it apart. A place that C lends for the one number that a call
# finds, `found: &mut u16`, is of no group.
GROUPS = (("plan", "d", "rows"), ("n", "z", "products"), ("members", "owners"), ("found", "slots"), ("heads", "links"),
          ("levels", "sizes"), ("components", "bounds"), ("solutions", "starts", "steps"), ("sums", "products", "struck"),
          ("text", "at"), ("out", "at"), ("m", "size", "zero"),
          ("rows", "lattice"), ("members", "rows"), ("members", "found"), ("d", "found"), ("low", "high"), ("row", "owner"), ("z", "work"),
          ("at", "work"), ("list", "modulus"), ("s", "t"), ("i", "j"), ("n", "struck"))
# The same of which all must be there: two of them alone are another group's.
WHOLE_GROUPS = (("rows", "n", "z"),)
MARK = re.compile(r"(?:swaps|flips|marks?|struck): (?:&(?:mut )?)?\[?u8|taken: (?:&(?:mut )?)?\[u16")
# Tables of numbers one of which stands for none, as parameters and as fields; the owners of members are not among them, since each has one.
NONE_TABLE = re.compile(r"\b(?:slots|heads|links|owners|taken|solutions|steps): (?:&(?:mut )?)?\[(?:u16|u32|usize)")
SENTINEL = re.compile(r"\b(?:0|SLOTS|the end|n|ROOM|1|512)(?:,? where| of none|;? for none)|a number above 512|\+ 1 for no room|SOLUTION_ROOM \+ 1|belongs to none")
BY_HAND = re.compile(r"(?:same_\w+|copy|copy_row|clear|clear_\w+|wide|wide32|long|largest|largest_of|largest_last|larger|comes_before|is_gentler|negate|"
                     r"size_of|set_none|set_minus|some_at_least|occurs|end_of|is_digit|stands_at|write_bytes|one_more|one_less|zeros_of|ends_by|tally_of)")


def files(commit):
    if commit:
        names = subprocess.run(["git", "ls-tree", "-r", "--name-only", commit, "crates"], capture_output=True, text=True, check=True).stdout
    else:
        names = subprocess.run(["git", "ls-files", "-co", "--exclude-standard", "crates"], capture_output=True, text=True, check=True).stdout
    for name in names.split("\n"):
        if "/src/" in name and name.endswith(".rt"):
            if commit:
                yield name, subprocess.run(["git", "show", commit + ":" + name], capture_output=True, text=True, check=True).stdout
            else:
                yield name, open(name).read()


def places(name, text):
    """Each place of a file: its kind, where it starts and ends, and a word on it."""
    for m in ENUM.finditer(text):
        if re.search(r"^ *(?:Refused|Bad|NoRoom|None|Nothing)\b", m[2], re.M):
            yield "1 enums like Option or Result", m.start(), m.end(), m[1]
    for m in STRUCT.finditer(text):
        if re.search(r"^ *(?:pub(?:\(crate\))? )?(?:whole|found|is_\w+): bool", m[2], re.M):
            yield "1 a flag with a value", m.start(), m.end(), m[1]
        if NONE_TABLE.search(m[2]) and m[1] != "Members":
            yield "1 tables with a number for none", m.start(), m.end(), m[1]
    for m in FUNCTION.finditer(text):
        indent, fn, inside, result = m.groups()
        end = text.find("\n" + indent + "}\n", m.end())
        params = [p.strip() for p in re.split(r",(?![^<\[(]*[>\])])", inside) if p.strip()]
        names = [p.split(":")[0].replace("mut ", "").strip() for p in params if not re.match(r"found: &mut u", p)]
        comment = text[:m.start()].rsplit("\n\n", 1)[-1]
        if result == "u8" and "byte" not in comment:
            yield "1 numbers for refusals", m.start(), end, fn
        if "plan: u8" in params:
            yield "1 numbers for plans", m.start(), end, fn
        if result in ("usize", "u16", "u32") and SENTINEL.search(comment):
            yield "1 numbers for none", m.start(), end, fn
        if any(MARK.match(p) for p in params):
            yield "1 marks as numbers", m.start(), end, fn
        if any(NONE_TABLE.match(p) and not ("owners" in p and "members" in names) for p in params):
            yield "1 tables with a number for none", m.start(), end, fn
        if BY_HAND.fullmatch(fn):
            yield "4 functions that the library has", m.start(), end, fn
        for group in GROUPS:
            if len([g for g in group if g in names]) >= 2:
                yield "5 parameters that travel together", m.start(), end, fn + " " + ",".join(group)
        for group in WHOLE_GROUPS:
            if all(g in names for g in group):
                yield "5 parameters that travel together", m.start(), end, fn + " " + ",".join(group)
        if len(params) > 7:
            yield "5 more than seven parameters", m.start(), end, fn
        if any(re.match(r"count: usize", p) for p in params) and any("[" in p for p in params):
            yield "6 a buffer with a count beside it", m.start(), end, fn
    for m in re.finditer(r"^ *(?:'\w+: )?while .*\{$", text, re.M):
        yield "3 while", m.start(), m.end(), m[0].strip()
    for m in re.finditer(r"^ *(?:'\w+: )?loop \{$", text, re.M):
        yield "3 loop", m.start(), m.end(), m[0].strip()
    for m in re.finditer(r"^ *(?:'\w+: )?for (\w+) in [^\n&]*\.\.[^\n\]]*\{$", text, re.M):
        yield "3 for over numbers", m.start(), m.end(), m[0].strip()
    for m in re.finditer(r"^[^/\n]*\b(?:at|j|t|from|next|e|count|v|w|n) [+-]= (?!.*usize::from).*$", text, re.M):
        yield "3 a counter moved by hand", m.start(), m.end(), m[0].strip()
    for m in re.finditer(r"^[^/\n]* as (?:u8|u16|u32|u64|usize|i16|i32|i64)\b.*$", text, re.M):
        if not m[0].lstrip().startswith(("use ", "ghost ")):
            yield "4 conversions by as", m.start(), m.end(), m[0].strip()


def shape(text, m, end):
    """The body of a function with its names, numbers and types replaced by where they first stand."""
    body = re.sub(r"\s+", " ", text[text.find("\n" + m[1] + "{\n", m.end() - 1):end])
    seen = {}
    words = "let mut if else for while return match true false in as loop break continue".split()
    return re.sub(r"b?'.'|\b\w+\b", lambda w: w[0] if w[0] in words else "#" if re.fullmatch(r"\d\w*|[iu]\d+|[iu]size|b?'.'", w[0]) else seen.setdefault(w[0], "v%d" % len(seen)), body)


def twins(sources):
    """Functions whose bodies have one shape: each after the first of its shape."""
    first = {}
    for name, text in sources:
        for m in FUNCTION.finditer(text):
            end = text.find("\n" + m[1] + "}\n", m.end())
            body = shape(text, m, end)
            if len(body) > 30 and body in first:
                kind = "2 functions of one shape"
                yield kind, name, text.count("\n", 0, m.start()) + 1, m[2] + " as " + first[body], kept(kind, text, m.start(), end)
            first.setdefault(body, name + " " + m[2])


def kept(kind, text, start, end):
    above = text[:start].rsplit("\n\n", 1)[-1]
    head = text.split("\n\n", 1)[0].split("\n#![", 1)[0]
    return "kept:" in above or "kept:" in text[start:end] or (kind[0] in "125" and "kept:" in head)


def main():
    parser = argparse.ArgumentParser(description=__doc__, formatter_class=argparse.RawDescriptionHelpFormatter)
    parser.add_argument("--list", nargs="+", default=[], metavar="KIND")
    parser.add_argument("--at", metavar="COMMIT")
    args = parser.parse_args()
    counts, stays, lines = collections.Counter(), collections.Counter(), collections.defaultdict(list)
    sources = list(files(args.at))
    for kind, name, line, word, stay in twins(sources):
        counts[kind] += 1
        stays[kind] += stay
        lines[kind].append("    %s:%d %s" % (name, line, word))
    for name, text in sources:
        for kind, start, end, word in places(name, text):
            counts[kind] += 1
            stays[kind] += kept(kind, text, start, end)
            lines[kind].append("    %s:%d %s" % (name, text.count("\n", 0, start) + 1, word))
    for kind in sorted(counts):
        print("%4d %s, %d of them kept" % (counts[kind], kind, stays[kind]))
        if "all" in args.list or any(kind.startswith(k) for k in args.list):
            print("\n".join(lines[kind]))


if __name__ == "__main__":
    main()
