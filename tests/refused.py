"""Sees each wrong program of the must-fail edits refused by itself, at the fact that no longer holds.

rt ci tries an edit file as a whole, is content with any error, and keeps no log. Most edit files here hold many wrong programs, one for each
`file:`, each in a function of its own. So this script checks them, and reads what the check says. A line `# refused at: PLACE NAME` above a
wrong program says where the prover must refuse it: PLACE is a file of proofs/ and NAME a declaration there, or PLACE is `fn` and the path of
a function and NAME a goal of it that `search` is to prove. `by_itself` and `left_open` say what counts.

Goals and steps are named after the tests in the code. So a test of another number goes by another name, and the proof, which cites the old
one, is refused for the name alone. Where nothing else tells, a line `# renames: OLD NEW` has the proof in the folder of PLACE read with that
part of its names exchanged: then it is refused for what the test says.

First all wrong programs of an edit file are checked at once. The goals of a function may not be tried where it calls one that is not proved,
so each wrong program that is not seen refused there is then checked alone. The logs stay in target/refused/, and serve again until something
changes that they were made of.

    python3 tests/refused.py                    every crate; `rt` must be on the PATH
    python3 tests/refused.py CRATE..            the named ones
    python3 tests/refused.py --jobs N CRATE..   with N checks at a time (else as many as there are processors)
"""

import argparse
import glob
import hashlib
import os
import re
import shutil
import subprocess
import sys
import tempfile
import threading
from concurrent.futures import ThreadPoolExecutor

HERE = os.path.dirname(os.path.abspath(__file__))
ROOT = os.path.dirname(HERE)

# What an error says where a fact was asked for and does not follow: what was given in its place is another fact (three wordings of it), its
# arithmetic fails at numbers that the prover names, or nothing at hand proves it.
FACT_FAILS = re.compile(r"as printed, the two types |computed as far as they go, the two types |expected type `|`search`: no proof of `|"
                        r"`omega`: the (goal|part `[^`]+` of the goal) does not follow from what it read\.")

# A step of the proof asked for an equation, say, between anything and anything, and got no equation at all: the step no longer fits, and
# nothing is said of the fact that the proof is for.
OPEN_STEP = re.compile(r"expected type `\S+(?: \{[^{}]*\})*(?: \(?\?\d+[^()`]*\)?)+`")

# Messages of the prover, whole or their beginnings, and whether they count.
SAMPLES = (
    # the fact fails
    (True, "expected type `s ≢ zero_row 0`, but this has type `s ≢ zero_row (length s)`"),
    (True, "as printed, the two types differ only where one has `4 ∷ 2 ∷ []` (expected), right after `point_line 2 5 (1 ∷ 2 ∷ []) 3 ≡`"),
    (True, "computed as far as they go, the two types differ only where one has `1` (expected) and the other has `0` (found)"),
    (True, "computed as far as they go, the two types are `Prim.⊥` (expected) and `Prim.Unit {?ℓ1}` (found)"),
    (True, "as printed, the two types first differ where one has `◌<◌` (expected)\n  expected type `◌<◌ (?11 c) c.loop.n`, but this has type `◌≤◌ 1 c.loop.n`"),
    (True, "`omega`: the goal does not follow from what it read. All of that holds, and the goal fails, at `a` = 0."),
    (True, "`omega`: the part `.fits` of the goal does not follow from what it read. All of that holds, and the part fails, at `a` = 65536."),
    (True, "`search`: no proof of `slice_index c.args.flips 3 ≡ 0`\n  was found."),
    # it follows from another error: a declaration that this one uses was refused
    (False, "`returns` was not admitted (it has holes or undetermined implicits, or was rejected), so this cannot be checked"),
    # the proof no longer fits: a rewrite does not find its term or leaves two sides that differ, a step gets something of another form,
    # a name is gone, a comparison that the prover had put off comes out false
    (False, "`rw`: no occurrence of the path's left endpoint in the goal: write the family yourself and transport"),
    (False, "give a proof of that as the last argument, `rw L t` (`rw L ?` shows it as a hole's goal), or add what is missing to the list"),
    (False, "expected type `mathlib.Core.Path.◌≡◌ {?ℓ4} {A = ?11 c} (?12 c) (?13 c)`, but this has type `◌≤◌ c.args.n 9`"),
    (False, "`goal.returns-then-d-gt6`: module `Rattle.refusal.proofs.axes_refusal.Goals` has no `returns-then-d-gt6` that can be named from here"),
    (False, "record `Rattle.refusal.proofs.longer_length_refusal.Lts.After-length_refusal` has no field `if-row-d` (nearest: .if-row)"),
    (False, "`to_z (?30 c) (of_z (?30 c) c.args.x)`\n  ≟ `to_z w16 c.args.y`\n  does not hold (this comparison had to wait for a metavariable)"),
)


def by_itself(message):
    """Whether an error says that the fact asked for does not follow, and not only that an earlier error, or the proof's form, is in the way."""
    return bool(FACT_FAILS.match(message)) and not OPEN_STEP.search(message)


# What a log says of a goal that is left to `search`, or of what a type keeps (`invariant_of-..`): of which function is only said at the end
# of what belongs to it.
OPEN_GOAL = re.compile(r"note: (?:\./)?src/\S+:\d+:\d+: (?:it is not proved that .*\(`([^`]+)`\)|`search` found no proof \(`(invariant_of-[^`]+)`\))(.*)")
FUNCTION = re.compile(r"fn (\S+): (?:not proved|no proof)(.*)")
FALSE_THERE = "the facts known there allow values at which this goal is false"


def left_open(log):
    """The goals of functions, as pairs, that are left to `search` and whose fact does not hold. Where the prover has values at which a goal is
    false, that is so. Where `search` only did not find a proof, it is so if it finds one in the right program: of a function whose proof names
    a goal or step that is gone nobody knows that, since the goal may have gone by another name there, and have had an answer. And nothing is
    known of a function that calls one that is not proved."""
    gone = {it.replace("+", "") for it in re.findall(r"^(?:\./)?proofs/(\S+)/\w+\.antt:\d+:\d+: error: .*(?:that can be named from here|has no field|is not in scope)", log, re.M)}
    found, goals = set(), []
    for line in log.split("\n"):
        goal, function = OPEN_GOAL.match(line), FUNCTION.match(line)
        if goal:
            goals.append((goal[1] or goal[2], FALSE_THERE in goal[3]))
        elif line.startswith("fn "):
            if function and "it calls" not in function[2]:
                is_gone = function[1].split("::", 1)[-1].replace("::", "/") in gone
                found |= {(function[1], name) for name, is_false in goals if is_false or not is_gone}
            goals = []
    return found


def refused(log, place, name):
    """Whether the log has NAME refused by itself at PLACE."""
    if place.startswith("fn "):
        return (place[len("fn "):], name) in left_open(log)
    errors = re.findall(r"^(?:\./)?%s:\d+:\d+: error: `%s`: (.*(?:\n  .*)*)" % (re.escape(place), re.escape(name)), log, re.M)
    return any(map(by_itself, errors))


def read(path):
    with open(path, encoding="utf-8") as file:
        return file.read()


def write(folder, texts):
    for file, text in texts.items():
        with open(os.path.join(folder, file), "w", encoding="utf-8") as it:
            it.write(text)


class Wrong(Exception):
    """An edit that is not as this script wants it."""


class Program:
    """A wrong program: one line of a file of the crate is another one."""

    def __init__(self, title, file, place, name, renames, line, text):
        self.title, self.file, self.place, self.name, self.renames, self.line, self.text = title, file, place, name, renames, line, text

    def function(self, crate):
        """The path of the function that is to be refused, or of the module where that is one of a cycle of calls; None for a lemma's file."""
        if self.place.startswith("fn "):
            return self.place[len("fn "):]
        folders = self.place.split("/")[1:-1]
        return "::".join([crate, *(it for it in folders if not it.startswith("+"))]) if folders else None


def function_at(text, line):
    """The name of the function that a line of a source file stands in."""
    names = [re.match(r"\s*(?:pub(?:\(\w+\))? )?(?:extern \"C\" )?fn (\w+)", row) for row in text.split("\n")[:line + 1]]
    return next((it[1] for it in reversed(names) if it), None)


def named_at(place):
    """The name of the function whose goal or proof file a place is."""
    return place.split("::")[-1] if place.startswith("fn ") else place.split("/")[-2].lstrip("+")


def programs(crate, edit):
    """The wrong programs of an edit file. Each pair applies to what the pairs before it made, so where a line stands is known only then."""
    texts, found, title, at, renames, file, old = {}, [], "it", [], [], None, None
    for row in read(edit).split("\n"):
        if row.startswith("# refused at: "):
            at.append(row[len("# refused at: "):])
        elif row.startswith("# renames: "):
            renames.append(tuple(row[len("# renames: "):].split()))
        elif re.match(r"# \w+: ", row):
            title = row[2:].split(":")[0]
        elif row.startswith("file: "):
            file = row[len("file: "):].strip()
            if len(at) != 1:
                raise Wrong("not one line `refused at` for each `file:` (%s)" % title)
        elif row.startswith("old: "):
            old = row[len("old: "):]
        elif row.startswith("new:"):
            new = row[len("new:"):][1:]
            if file not in texts:
                texts[file] = read(os.path.join(ROOT, "crates", crate, file))
            if texts[file].count(old) != 1 or not at:
                raise Wrong("an `old:` does not stand once, or has no `file:` of its own: %s" % old)
            line = texts[file][:texts[file].index(old)].count("\n")
            inside = function_at(texts[file], line) if file.endswith(".rt") else None
            texts[file] = texts[file].replace(old, new)
            place, name = at.pop().rsplit(" ", 1)
            if new == old:
                raise Wrong("%s changes nothing" % title)
            if inside and inside != named_at(place):
                raise Wrong("%s is in the function %s, and is not refused at it but at %s" % (title, inside, place))
            if any((place, name) == (it.place, it.name) for it in found):
                raise Wrong("%s is refused where another wrong program of this file is: %s %s" % (title, place, name))
            found.append(Program(title, file, place, name, renames, line, texts[file].split("\n")[line]))
            renames = []
    if at or not found:
        raise Wrong("it has no wrong program, or a line `refused at` without one")
    return found


def below(crate):
    """The crate and the libraries of the repository that it stands on, with their lines of crates.txt."""
    lines = {}
    for row in read(os.path.join(ROOT, "crates.txt")).split("\n"):
        if row.strip() and not row.startswith("#"):
            lines[row.split(":")[0].split()[0]] = row
    found, todo = {}, [crate]
    while todo:
        name = todo.pop()
        if name in lines and name not in found:
            found[name] = lines[name]
            todo += lines[name].split(":", 1)[1].split()
    return found


def sources(crate):
    for part in ("src", "specs", "proofs"):
        for path in sorted(glob.glob(os.path.join(ROOT, "crates", crate, part, "**", "*"), recursive=True)):
            if os.path.isfile(path):
                yield path


class Crate:
    """Checks wrong programs of a crate, on copies of it and of what it stands on."""

    def __init__(self, name, version, jobs, room):
        self.name, self.lines, self.jobs, self.room = name, below(name), jobs, room
        made = hashlib.sha256(version.encode())
        for crate in sorted(self.lines):
            for path in sources(crate):
                made.update(("%s\0%s\0" % (os.path.relpath(path, ROOT), read(path))).encode())
        self.key, self.free, self.lock, self.turn, self.is_proved = made, [], threading.Lock(), threading.Semaphore(jobs), None

    def copy(self):
        """A copy that no check works in at the moment. Its folders out/ begin with what `rt ci` proved here, and keep what checks there prove:
        what the checker finds there serves it only for the very same declarations, so nothing old can stand for something new."""
        try:
            return self.free.pop()
        except IndexError:
            pass
        top = tempfile.mkdtemp(dir=self.room)
        with open(os.path.join(top, "crates.txt"), "w", encoding="utf-8") as file:
            file.write("\n".join(self.lines.values()) + "\n")
        for crate in self.lines:
            for path in sources(crate):
                to = os.path.join(top, os.path.relpath(path, ROOT))
                os.makedirs(os.path.dirname(to), exist_ok=True)
                shutil.copyfile(path, to)
            kept = os.path.join(ROOT, "crates", crate, "out")
            if os.path.isdir(kept):
                shutil.copytree(kept, os.path.join(top, "crates", crate, "out"), symlinks=True)
        return top

    def check(self, folder, words):
        jobs = ["--jobs", "1"] if self.jobs > 1 else []
        with self.turn:
            return subprocess.run(["rt", "check", *jobs, *words], cwd=folder, stdin=subprocess.DEVNULL, stdout=subprocess.PIPE,
                                  stderr=subprocess.STDOUT, text=True, errors="replace")

    def begin(self):
        """Checks the crate as it stands, once. It must be proved, and the checks of wrong programs begin with what was proved here."""
        with self.lock:
            if self.is_proved is None:
                top = self.copy()
                ran = self.check(os.path.join(top, "crates", self.name), [])
                self.free.append(top)
                self.is_proved = ran.returncode == 0
                if not self.is_proved:
                    print(ran.stdout)
        if not self.is_proved:
            raise Wrong("the crate is not proved as it stands")

    def log(self, label, wrong, words):
        """What rt check says of the crate with these wrong programs: as it was kept, or from a check now."""
        kept, key = os.path.join(ROOT, "target", "refused", self.name, label + ".log"), self.key.copy()
        key.update(repr([words, [(it.file, it.line, it.text, it.renames and (it.place, it.renames)) for it in wrong]]).encode())
        head = "made of %s\n" % key.hexdigest()
        if os.path.exists(kept) and read(kept).startswith(head):
            return read(kept)
        self.begin()
        top = self.copy()
        folder, texts = os.path.join(top, "crates", self.name), {}
        for it in wrong:
            rows = texts.setdefault(it.file, read(os.path.join(folder, it.file)).split("\n"))
            rows[it.line] = it.text
        texts = {file: "\n".join(rows) for file, rows in texts.items()}
        for it in wrong:
            for old, new in it.renames:
                for path in glob.glob(os.path.join(folder, os.path.dirname(it.place), "*.antt")):
                    file = os.path.relpath(path, folder)
                    texts[file] = re.sub(r"%s%s(?!\w)" % ("" if old.startswith(".") else "(?<=-)", re.escape(old)), new, texts.get(file) or read(path))
        was = {file: read(os.path.join(folder, file)) for file in texts}
        write(folder, texts)
        ran = self.check(folder, words)
        write(folder, was)
        self.free.append(top)
        if ran.returncode not in (0, 1):
            raise Wrong("the check of %s ended with status %d, so nothing was judged" % (label, ran.returncode))
        text = head + ran.stdout.replace(top, "") + "status %d\n" % ran.returncode
        os.makedirs(os.path.dirname(kept), exist_ok=True)
        aside = "%s.%d" % (kept, os.getpid())
        with open(aside, "w", encoding="utf-8") as it:
            it.write(text)
        os.replace(aside, kept)
        return text

    def tries(self, label, wrong, each):
        """Yields the wrong programs that are not seen refused, each with the log that should show it."""
        whole = self.log(label, wrong, [])
        left = [it for it in wrong if not refused(whole, it.place, it.name)]

        def alone(it):
            function = it.function(self.name)
            if len(wrong) == 1 or not function:
                return whole
            return self.log("%s.%s" % (label, it.title), [it], ["--only", function])

        for it, log in zip(left, each(alone, left)):
            if not refused(log, it.place, it.name):
                yield it


def main():
    for counts, message in SAMPLES:
        assert by_itself(message) == counts, message
    given = argparse.ArgumentParser(description=__doc__, formatter_class=argparse.RawDescriptionHelpFormatter)
    given.add_argument("--jobs", type=int, default=len(os.sched_getaffinity(0)))
    given.add_argument("crates", nargs="*", metavar="CRATE")
    given = given.parse_args()
    version = subprocess.run(["rt", "version"], stdout=subprocess.PIPE, text=True, check=True).stdout
    edits = {}
    for path in sorted(glob.glob(os.path.join(ROOT, "crates", "*", "must-fail", "*.edit"))):
        crate = path.split(os.sep)[-3]
        if not given.crates or crate in given.crates:
            edits.setdefault(crate, []).append(path)
    if not edits or not set(given.crates) <= set(edits):
        sys.exit("refused: no edit of a crate that was named")
    wrong, seen = [], 0
    with tempfile.TemporaryDirectory(prefix="refused-") as room, ThreadPoolExecutor(given.jobs) as files, ThreadPoolExecutor(given.jobs) as alone:
        for name, paths in edits.items():
            crate = Crate(name, version, given.jobs, room)

            def tried(path):
                label = os.path.basename(path)[:-len(".edit")]
                try:
                    found = programs(name, path)
                    left = list(crate.tries(label, found, alone.map))
                    told = ["%s/%s: %s not refused by itself at %s %s" % (name, label, it.title, it.place, it.name) for it in left]
                    return len(found) - len(left), told
                except Wrong as why:
                    return 0, ["%s/%s: %s" % (name, label, why)]

            for count, told in files.map(tried, paths):
                seen, wrong = seen + count, wrong + told
    for line in wrong:
        print(line)
    print("refused: %d wrong programs, each at its fact" % seen if not wrong else "refused: %d, and %d not as they say" % (seen, len(wrong)))
    return 1 if wrong else 0


if __name__ == "__main__":
    sys.exit(main())
