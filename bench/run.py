"""Speed of the program `plan`, side by side with a planner in plain C++ (peer.cpp), with an earlier `plan` and with the brute force, in one run.

    python3 bench/run.py                    builds `plan` and the peer, runs every request on both, checks that the answers are the same,
                                            prints the tables
    python3 bench/run.py --before PATH      runs the `plan` of an earlier commit too: PATH is its executable, built beside this one. It must give
                                            the same modulus; its vector may be another, since the order changed with request f
    python3 bench/run.py --write            also writes the tables into bench/README.md, with the plots bench/rows.svg and bench/axes.svg
    python3 bench/run.py --only PART        only the requests whose names have PART in them, nothing else
    python3 bench/run.py --plan PATH        builds no `plan` but takes this executable

A time is that of the whole process (reading, searching, writing), the least of a few turns, in each of which `plan` and the peer run one
after the other; a ratio is plan's time over the peer's, a gain the earlier program's time over plan's. Nothing here is part of the gate.
"""

import argparse
import collections
import itertools
import math
import os
import platform
import subprocess
import sys
import time

HERE = os.path.dirname(os.path.abspath(__file__))
ROOT = os.path.dirname(HERE)
sys.dont_write_bytecode = True
sys.path.insert(0, os.path.join(ROOT, "tests"))
import brute
import large

PLAN = os.path.join(ROOT, "crates", "plan", "out", "plan")
PEER = os.path.join(ROOT, "target", "peer")
NAMES = {0: "0", 1: "1", 2: "A", 3: "B", 4: "C"}
LIMIT = 60                              # seconds after which the earlier program is stopped
COUNTS = 0.020                          # seconds of the peer above which a ratio counts
BOUND = 1.5                             # what the ratios that count may be

Request = collections.namedtuple("Request", "name plan rows ceiling", defaults=(8192,))


# Requests

def signed_rows(d, k):
    """All rows of whole numbers, of any sign, whose sizes add up to at most k."""
    return [row for row in itertools.product(range(-k, k + 1), repeat=d) if sum(map(abs, row)) <= k]


def mixed_degree(tops):
    """The zero row, main effects up to a top for each axis, and the products of two different axes."""
    d = len(tops)
    rows = {row for row in large.two_factor(d, max(tops)) if sum(1 for x in row if x) == 2}
    rows |= {row for row in large.main_effects(d, max(tops)) if all(x <= top for x, top in zip(row, tops))}
    return sorted(rows)


def requests():
    degree6 = large.total_degree(6, 2)
    mixed = mixed_degree((4, 3, 2, 2, 1, 1))
    without_lower = [row + (1,) for row in large.block((2, 2, 2))]
    for plan in (2, 3, 4):
        yield Request("six axes, total degree 2", plan, degree6)
    for plan in (2, 3, 4):
        yield Request("six axes, total degree 2 and (2, 1, 0, 0, 0, 0)", plan, degree6 + [(2, 1, 0, 0, 0, 0)])
    for plan in (2, 3, 4):
        yield Request("six axes, main effects to 3", plan, large.main_effects(6, 3))
    for plan in (2, 3, 4):
        yield Request("six axes, mixed degree", plan, mixed)
    yield Request("six axes, hyperbolic cross 4", 2, large.hyperbolic_cross(6, 4))
    yield Request("six axes, hyperbolic cross 5", 2, large.hyperbolic_cross(6, 5))
    yield Request("five axes, total degree 2", 4, large.total_degree(5, 2))
    yield Request("five axes, total degree 3", 2, large.total_degree(5, 3))
    for plan in (2, 4):
        yield Request("four axes, total degree 3", plan, large.total_degree(4, 3))
    for plan in (2, 3, 4):
        yield Request("four axes, rows (a, b, c, 1), a, b, c to 2", plan, without_lower)
    for d, plan, bases in ((5, 2, (2, 3)), (5, 3, (2, 3, 5, 7, 11)), (6, 4, (2, 3, 5, 7, 11))):
        rows = [tuple(pow(a, j, 251) for j in range(1, d + 1)) for a in bases]
        yield Request("%s axes, %d rows (a, a², a³, ..) mod 251" % ({5: "five", 6: "six"}[d], len(rows)), plan, rows)
    for count in (40, 80, 100, 150):
        for plan in (2, 4):
            yield Request("three axes, %d weighted rows" % count, plan, large.weighted(3, large.WEIGHTS[3], count))
    yield Request("two axes, block 5 by 6", 2, large.block((5, 6)))
    yield Request("two axes, triangle 8", 2, large.triangle(8))
    yield Request("three axes, signed, degree 3", 1, signed_rows(3, 3))
    yield Request("six axes, total degree 2", 1, degree6)
    yield Request("four axes, total degree 3", 0, large.total_degree(4, 3))
    for plan in (2, 4):
        yield Request("six axes, 512 rows, ceiling 511", plan, wide_block(8, 8, 8, 1, 1, 1), 511)


def wide_block(*tops):
    """Every row from 1 on each axis up to its top: no component is zero, so a row has all the mirrors it can have."""
    return list(itertools.product(*[range(1, top + 1) for top in tops]))


def full_tables():
    """Requests with more differences, or more mirrors to take them from, than `plan` has room for."""
    curve = [(a, a * a % 251) for a in range(251)]
    odd = list(range(1, 160, 2))
    odd_cross = [(0, 0)] + [(x, 0) for x in odd] + [(0, x) for x in odd]
    signed_curve = [(a ** 2 % 251 - 125, a ** 5 % 251 - 125) for a in range(170)]
    yield Request("two axes, signed rows (a² mod 251, a⁵ mod 251) - 125", 1, signed_curve)
    yield Request("two axes, rows (a, a² mod 251)", 2, curve[:60])
    yield Request("two axes, rows (a, a² mod 251)", 4, curve[:80])
    for plan in (2, 3, 4):
        yield Request("two axes, main effects odd to 159", plan, odd_cross)
    yield Request("four axes, rows from 1 to (4, 4, 4, 5), ceiling 340", 4, wide_block(4, 4, 4, 5), 340)
    yield Request("six axes, rows from 1 to (2, 2, 2, 2, 2, 3), ceiling 200", 3, wide_block(2, 2, 2, 2, 2, 3), 200)
    yield Request("six axes, rows from 1 to (2, 2, 2, 2, 2, 3), ceiling 100", 4, wide_block(2, 2, 2, 2, 2, 3), 100)
    yield Request("six axes, rows (a, 1, 1, 1, 1, 1), a to 255", 4, [(a, 1, 1, 1, 1, 1) for a in range(256)])
    yield Request("six axes, rows from 1 to (8, 8, 8, 1, 1, 1), ceiling 516", 4, wide_block(8, 8, 8, 1, 1, 1), 516)


# Running

def build(plan_too):
    if plan_too:
        folder = os.path.join(ROOT, "crates", "plan")
        subprocess.run(["rt", "run"], cwd=folder, check=True, stdin=subprocess.DEVNULL, stdout=subprocess.DEVNULL, stderr=subprocess.DEVNULL)
    os.makedirs(os.path.dirname(PEER), exist_ok=True)
    subprocess.run(["g++", "-O3", "-march=native", "-o", PEER, os.path.join(HERE, "peer.cpp")], check=True)


class Run:
    """The runs of one program on one request: its answer, the least seconds, and what it said of itself."""

    def __init__(self, program, text, limit=None):
        self.command, self.text, self.limit = [program], text, limit
        self.seconds, self.answer, self.said = math.inf, None, ""

    def again(self):
        start = time.perf_counter()
        try:
            done = subprocess.run(self.command, input=self.text, capture_output=True, check=True, timeout=self.limit)
        except subprocess.TimeoutExpired:
            return
        self.seconds = min(self.seconds, time.perf_counter() - start)
        self.answer, self.said = done.stdout, done.stderr.decode()

    def shown(self):
        return "> %d" % self.limit if self.answer is None else "%.3f" % self.seconds

    def modulus(self):
        """The first word of the answer: the modulus, or 'refused'."""
        return self.answer.split()[0].decode()


def in_turns(*runs):
    """Runs the programs one after the other, and again while they are short: 5 turns below half a second, 3 below five, else 1."""
    for turn in range(5):
        for run in runs:
            run.again()
        longest = max(run.seconds for run in runs)
        if longest > 5 or longest > 0.5 and turn == 2:
            break


def members(request):
    """How many rows or mirrors the differences are taken from."""
    return len(request.rows) if request.plan < 2 else len(brute.all_mirrors(tuple(request.rows)))


def compared(request, before):
    """The cells of a request's line, and the ratio where it counts."""
    text = large.ticket(request.plan, request.rows, request.ceiling)
    plan, peer = Run(PLAN, text), Run(PEER, text)
    in_turns(plan, peer)
    assert plan.answer == peer.answer, (request.name, request.plan, plan.answer[:80], peer.answer[:80])
    words = peer.said.split()
    ratio = plan.seconds / peer.seconds
    cells = [request.name, NAMES[request.plan], len(request.rows), members(request), words[5], plan.modulus(), words[1],
             plan.shown(), peer.shown(), "%.2f" % ratio]
    if before:
        earlier = Run(before, text, LIMIT)
        in_turns(earlier)
        assert earlier.answer is None or earlier.modulus() == plan.modulus(), (request.name, request.plan, plan.answer[:80], earlier.answer[:80])
        gain = (LIMIT if earlier.answer is None else earlier.seconds) / plan.seconds
        cells += [earlier.shown(), ("> " if earlier.answer is None else "") + ("%.1f" % gain if gain < 10 else "%.0f" % gain)]
    return cells, ratio if peer.seconds > COUNTS else None


def line(cells):
    return "| " + " | ".join(map(str, cells)) + " |"


def table_of_requests(items, before):
    """A line for each request, then what the largest ratio is among those that count."""
    names = ["request", "plan", "rows", "members", "differences", "n", "prefixes", "plan, s", "peer, s", "ratio"]
    names += ["before, s", "gain"] if before else []
    lines = [line(names), line(["---"] * len(names))]
    print(lines[0], flush=True)
    counted = []
    for request in items:
        cells, ratio = compared(request, before)
        if ratio is not None:
            counted.append((ratio, request))
        lines.append(line(cells))
        print(lines[-1], flush=True)
    worst = "Requests that take the peer longer than %d ms: none." % (1000 * COUNTS)
    if counted:
        ratio, request = max(counted, key=lambda pair: pair[0])
        worst = "Largest ratio among the %d requests that take the peer longer than %d ms: %.2f (%s, plan %s); %s %.1f." % (
            len(counted), 1000 * COUNTS, ratio, request.name, NAMES[request.plan], "at most" if ratio <= BOUND else "ABOVE", BOUND)
    print(worst, flush=True)
    return lines + ["", worst]


def table_of_brute_force():
    lines = [line(["request", "plan", "plan, s", "brute force, s", "ratio"]), line(["---"] * 5)]
    for name, plan, rows in (("three axes, total degree 2", 4, large.total_degree(3, 2)), ("two axes, triangle 4", 2, large.triangle(4))):
        text = large.ticket(plan, rows, 8192)
        run = Run(PLAN, text)
        in_turns(run)
        start = time.perf_counter()
        assert brute.answer(text) == run.answer
        theirs = time.perf_counter() - start
        lines.append(line([name, NAMES[plan], "%.4f" % run.seconds, "%.2f" % theirs, "%.5f" % (run.seconds / theirs)]))
    return lines


# How the time grows

def growth(label, items):
    lines = [line([label, "plan A, s", "plan C, s"]), line(["---"] * 3)]
    points = {2: [], 4: []}
    for size, rows in items:
        cells = [size]
        for plan in (2, 4):
            run = Run(PLAN, large.ticket(plan, rows, 8192))
            in_turns(run)
            points[plan].append((size, run.seconds))
            cells.append(run.shown())
        lines.append(line(cells))
        print(lines[-1], flush=True)
    return lines, points


def svg(path, label, points):
    """Seconds over a size, seconds on a logarithmic scale, as a plain SVG."""
    width, height, left, bottom = 520, 320, 60, 40
    sizes = sorted({x for part in points.values() for x, _ in part})
    low = min(math.floor(math.log10(max(y, 1e-4))) for part in points.values() for _, y in part)
    high = max(math.ceil(math.log10(max(y, 1e-4))) for part in points.values() for _, y in part)
    high = max(high, low + 1)

    def place(x, y):
        across = (x - sizes[0]) / max(sizes[-1] - sizes[0], 1)
        up = (math.log10(max(y, 1e-4)) - low) / (high - low)
        return left + across * (width - left - 20), height - bottom - up * (height - bottom - 20)

    out = ['<svg xmlns="http://www.w3.org/2000/svg" width="%d" height="%d" font-family="sans-serif" font-size="12">' % (width, height),
           '<rect width="100%" height="100%" fill="white"/>']
    for power in range(low, high + 1):
        x, y = place(sizes[0], 10.0 ** power)
        out.append('<line x1="%d" y1="%.1f" x2="%d" y2="%.1f" stroke="#ddd"/><text x="6" y="%.1f">%g s</text>' % (left, y, width - 20, y, y + 4, 10.0 ** power))
    for size in sizes:
        x, _ = place(size, 10.0 ** low)
        out.append('<text x="%.1f" y="%d" text-anchor="middle">%d</text>' % (x, height - bottom + 16, size))
    out.append('<text x="%d" y="%d" text-anchor="middle">%s</text>' % ((left + width - 20) / 2, height - 6, label))
    for plan, colour in ((2, "#1f77b4"), (4, "#d62728")):
        drawn = [place(x, y) for x, y in points[plan]]
        out.append('<polyline fill="none" stroke="%s" stroke-width="2" points="%s"/>' % (colour, " ".join("%.1f,%.1f" % p for p in drawn)))
        out.append('<text x="%.1f" y="%.1f" fill="%s">plan %s</text>' % (drawn[-1][0] - 44, drawn[-1][1] + (16 if plan == 2 else -6), colour, NAMES[plan]))
    out.append("</svg>")
    with open(path, "w") as file:
        file.write("\n".join(out) + "\n")


# The page

def machine():
    name = ""
    with open("/proc/cpuinfo") as file:
        for text in file:
            if text.startswith("model name"):
                name = text.split(":", 1)[1].strip()
                break
    return "%s, %d processors, %s" % (name or platform.processor(), os.cpu_count(), platform.system())


def page(before, tables):
    requested, full, forced, by_rows, by_axes = tables
    earlier = ["`before` is the program before request f (commit 438c460), which gives the first vector in dictionary order, stopped after %d s;" % LIMIT,
               "gain is its time over plan's."]
    return "\n".join(
        ["# Speed", "", "Made by `python3 bench/run.py --write` on: %s." % machine(), "",
         "Times are of whole processes, the least of 5 turns below half a second, of 3 below five, else of 1; in a turn the programs run one",
         "after the other. `plan` is the proved program, the peer is bench/peer.cpp (plain C++, the same search, g++ -O3 -march=native), ratio",
         "plan's time over the peer's. Members are the rows or mirrors that differences are taken from, differences those that the peer keeps (all),",
         "prefixes those whose next component it sieved. Where the compiled recursion lies in memory moves times by up to a quarter",
         "(docs/DECISIONS.md, \"Speed\"), so a change far from the search may do it."] + (earlier if before else [])
        + ["", "## Beside the peer", ""] + requested
        + ["", "## Beside the peer, where the table of differences is full", "",
           "`plan` keeps part of the differences there and the peer all of them; the answers are the same.", ""] + full
        + ["", "## Beside the brute force", ""] + forced
        + ["", "## How the time grows", ""] + by_rows + ["", "![seconds over rows](rows.svg)", ""]
        + by_axes + ["", "![seconds over axes](axes.svg)", ""])


def main():
    global PLAN
    words = argparse.ArgumentParser(description=__doc__, formatter_class=argparse.RawDescriptionHelpFormatter)
    words.add_argument("--before", metavar="PATH")
    words.add_argument("--plan", metavar="PATH")
    words.add_argument("--only", metavar="PART")
    words.add_argument("--write", action="store_true")
    given = words.parse_args()
    PLAN = given.plan or PLAN
    build(given.plan is None)
    if given.only is not None:
        table_of_requests([request for request in [*requests(), *full_tables()] if given.only in request.name], given.before)
        return
    requested = table_of_requests(requests(), given.before)
    full = table_of_requests(full_tables(), given.before)
    forced = table_of_brute_force()
    sizes = (20, 40, 60, 80, 100, 125, 150)
    by_rows, row_points = growth("rows, three axes", [(count, large.weighted(3, large.WEIGHTS[3], count)) for count in sizes])
    by_axes, axis_points = growth("axes, total degree 2", [(d, large.total_degree(d, 2)) for d in range(2, 7)])
    if given.write:
        svg(os.path.join(HERE, "rows.svg"), "rows, three axes, least weighted degree", row_points)
        svg(os.path.join(HERE, "axes.svg"), "axes, all rows of total degree 2", axis_points)
        with open(os.path.join(HERE, "README.md"), "w") as file:
            file.write(page(given.before, (requested, full, forced, by_rows, by_axes)))


if __name__ == "__main__":
    main()
