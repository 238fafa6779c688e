"""Requests for the planner, with the answers the brute-force planner gives. The same bytes on every run (fixed seeds).

    python3 tests/requests.py pack FILE      all requests of at most 2,000 bytes as one stream: for each a header of 2 bytes (its
                                             length, low byte first) and its bytes; at the end the header FF FF
    python3 tests/requests.py expect FILE    the answers to those requests, one after the other
    python3 tests/requests.py list DIR       every request, the large ones too, as DIR/0000.in with its answer DIR/0000.out, and so on
    python3 tests/requests.py long DIR       the same for those that are not packed
    python3 tests/requests.py costs          a table: requests, answers, refusals and seconds for each kind

Several of these may stand on one command line (pack FILE expect FILE list DIR); the work is then done once.
"""

import itertools
import math
import operator
import os
import random
import sys
import time

sys.dont_write_bytecode = True
import brute
import large

# What the brute force may be asked: for each d the largest modulus it has to try in vain. What follows from it (vectors up to that
# modulus; seconds on one core for a list of 24 to 68 rows that has no answer there, under plan 1 and under plan 4; the random lists
# below are shorter and mostly take less than 0.1 s each):
#   d   vectors   plan 1   plan 4
#   1    45,150    (the lists on one axis have few rows: 25 rows take 0.3 s, 40 would take 3.5 s, 256 over a minute)
#   2    22,140     0.55     1.14
#   3    18,496     0.20     0.35
#   4    15,333     0.11     0.20
#   5     4,425     0.02     0.03
#   6     4,890     0.02     0.03
# The whole of it, `costs` says by kind; it took about 50 s. The dearest single request is total degree 2 on three axes, plan 4: 4.6 s.
LARGEST = {1: 300, 2: 40, 3: 16, 4: 9, 5: 5, 6: 4}
EASY = {1: 60, 2: 24, 3: 11, 4: 7}                       # the same where many lists are drawn for one that is kept

# The most rows of a random list, for each plan by d; plans 2 and 3 have fewer because mirrors fill the residues up.
MOST_ROWS = {
    0: {1: 20, 2: 24, 3: 30, 4: 30},
    1: {1: 12, 2: 11, 3: 10, 4: 8},
    2: {1: 9, 2: 7, 3: 5, 4: 4},
    3: {1: 9, 2: 8, 3: 6, 4: 5},
    4: {1: 10, 2: 9, 3: 8, 4: 6},
}
TOP = {1: 30, 2: 6, 3: 4, 4: 3}                          # the largest component of a random list
ZEROS = {0: 0.3, 1: 0.3, 2: 0.6, 3: 0.55, 4: 0.4}        # how often a component is zero
LONGEST_PACKED = 2000
EXAMPLE = b"4 1 3 10\n0\n1\n2\n"


# Lists

def draw_component(rng, top, zeros, signed):
    if rng.random() < zeros:
        return 0
    size = rng.randrange(1, top + 1)
    return -size if signed and rng.random() < 0.5 else size


def draw_rows(rng, d, m, top, zeros, signed):
    """At most m different rows, in the order drawn."""
    rows = []
    for _ in range(20 * m):
        row = tuple(draw_component(rng, top, zeros, signed) for _ in range(d))
        if row not in rows:
            rows.append(row)
        if len(rows) == m:
            break
    return tuple(rows)


def draw_list(rng, plan, d):
    m = rng.randrange(1, MOST_ROWS[plan][d] + 1)
    top = rng.randrange(1, TOP[d] + 1) if d > 1 else rng.randrange(m, TOP[d] + 1)
    return draw_rows(rng, d, m, top, ZEROS[plan], plan <= 1)


def swap(row, i, j):
    row = list(row)
    row[i], row[j] = row[j], row[i]
    return tuple(row)


def close(rng, rows, moves):
    """The rows with everything the moves lead to, shuffled. A move takes a row to a row."""
    rows = list(rows)
    for row in rows:                                     # the list grows while it is walked
        for move in moves:
            if move(row) not in rows:
                rows.append(move(row))
    rng.shuffle(rows)
    return tuple(rows)


def is_lower(rows):
    """Whether every row without sign below a row of the list is in it."""
    for row in rows:
        for j, component in enumerate(row):
            if component < 0 or component > 0 and row[:j] + (component - 1,) + row[j + 1:] not in rows:
                return False
    return True


def fits(plan, rows, reach=LARGEST):
    """Whether counting leaves hope for an answer the brute force can reach; only to save time, it decides no answer."""
    needed = len(brute.all_mirrors(rows)) if plan == 2 else 2 * len(rows) - 1 if plan == 3 else len(rows) if plan else 1
    return needed <= reach[len(rows[0])]


def plan_of(plan, rows, reach=LARGEST):
    """The smallest plan within the brute force's reach, or None."""
    try:
        return brute.smallest(plan, len(rows[0]), rows, reach[len(rows[0])])
    except brute.Refused:
        return None


def first_below(plan, rows, n, bound):
    """The first admissible vector at n in dictionary order among those with components below the bound, or None."""
    vectors = itertools.product(range(bound), repeat=len(rows[0]))
    return next((z for z in vectors if brute.admissible(plan, rows, n, z)), None)


def descent(plan, rows, n):
    """The first vector at n in dictionary order, then the first of those below its largest component, and so on: the last is the gentlest."""
    vectors = []
    z = first_below(plan, rows, n, n)
    while z is not None:
        vectors.append(z)
        z = first_below(plan, rows, n, max(z))
    return vectors


def affordable(request):
    """Whether the brute force can answer this text at all: it is refused at sight, or its search ends within reach."""
    try:
        plan, d, rows, ceiling = brute.read_ticket(request)
    except brute.Refused:
        return True
    return ceiling <= LARGEST[d] or not rows or fits(plan, rows) and plan_of(plan, rows) is not None


def under_ceilings(rng, plan, rows):
    """Requests for one list: ceilings at, just below and above the answer; where none is in reach, a ceiling in reach."""
    reach = LARGEST[len(rows[0])]
    found = plan_of(plan, rows) if fits(plan, rows) else None
    if found is None:
        ceilings = [rng.choice([1, 2, rng.randrange(1, reach + 1), reach])]
    else:
        n = found[0]
        ceilings = [n]
        if rng.random() < 0.5:
            ceilings.append(n - 1)                       # 0 where n is 1: then 6, not 9
        if rng.random() < 0.5:
            ceilings.append(rng.choice([n + 1, n + rng.randrange(1, 50), 8191, 8192]))
    return [large.ticket(plan, rows, ceiling) for ceiling in ceilings]


# Kinds of request: each gives a list of byte strings. First the searches.

def documents():
    """Document 01's tickets and examples, each at, below and above its answer."""
    pair = ((0, 0), (1, 0), (0, 1))
    tickets = [
        (1, ((0,), (1,), (2,)), 3), (2, ((0,), (1,), (2,)), 5), (3, ((0,), (1,), (2,)), 5), (4, ((0,), (1,), (2,)), 4),
        (1, pair, 3), (2, pair, 5), (4, pair, 4), (2, ((1, 1),), 5), (3, ((1, 1),), 3), (4, ((1, 1),), 1),
        (0, ((6,),), 4),
    ]
    requests = [EXAMPLE]
    for plan, rows, n in tickets:
        for ceiling in (n - 1, n, n + 1, 100, 8192):
            requests.append(large.ticket(plan, rows, ceiling))
    return requests


def random_lists():
    """Random lists of all plans and d 1 to 4, negative rows under plans 0 and 1, mostly without lower structure."""
    rng = random.Random(101)
    requests = []
    for plan in range(5):
        for d in range(1, 5):
            for _ in range(14):
                rows = draw_list(rng, plan, d)
                requests += under_ceilings(rng, plan, rows)
    return requests


def not_lower():
    """Lists without lower structure for sure, without the zero row and with gaps."""
    rng = random.Random(102)
    requests = []
    for plan in range(5):
        for d in range(1, 5):
            kept = 0
            while kept < 4:
                rows = tuple(row for row in draw_list(rng, plan, d) if any(row))
                if rows and not is_lower(rows) and fits(plan, rows):
                    requests += under_ceilings(rng, plan, rows)
                    kept += 1
    return requests


def lower():
    """Lower sets: all rows from zero up to some corners, in order or shuffled."""
    rng = random.Random(103)
    requests = []
    for plan in range(5):
        for d in range(1, 5):
            kept = 0
            while kept < 4:
                corners = draw_rows(rng, d, rng.randrange(1, 4), 12 if d == 1 else 5 - d, 0.6, False)
                rows = sorted(dict.fromkeys(row for corner in corners for row in large.block(corner)))
                if rng.random() < 0.5:
                    rng.shuffle(rows)
                if fits(plan, tuple(rows)):
                    requests += under_ceilings(rng, plan, tuple(rows))
                    kept += 1
    return requests


def symmetric():
    """Lists closed under swapping two axes, under swapping any two, under turning three axes round."""
    rng = random.Random(104)
    moves = {
        2: [[(0, 1)]],
        3: [[(0, 1)], [(1, 2)], [(0, 2)], [(0, 1), (1, 2)]],
        4: [[(0, 1)], [(2, 3)], [(0, 3)], [(0, 1), (2, 3)], [(0, 2), (1, 3)], [(0, 1), (1, 2), (2, 3)]],
    }
    requests = []
    for plan in range(5):
        for d in (2, 3, 4):
            for pairs in moves[d]:
                steps = [lambda row, i=i, j=j: swap(row, i, j) for i, j in pairs]
                kept = 0
                while kept < (6 if d == 2 else 2):
                    rows = close(rng, draw_list(rng, plan, d)[:3], steps)
                    if fits(plan, rows):
                        requests += under_ceilings(rng, plan, rows)
                        kept += 1
        kept = 0
        while kept < 3:
            rows = close(rng, draw_list(rng, plan, 3)[:2], [lambda row: row[1:] + row[:1]])
            if fits(plan, rows):
                requests += under_ceilings(rng, plan, rows)
                kept += 1
    return requests


def nearly_symmetric():
    """Lists closed under swapping two axes, then one row taken out, put in or changed; or closed only up to signs."""
    rng = random.Random(105)
    requests = []
    for plan in range(5):
        for d in (2, 3, 4):
            kept = 0
            while kept < 5:
                i, j = rng.sample(range(d), 2)
                rows = list(close(rng, draw_list(rng, plan, d)[:3], [lambda row: swap(row, i, j)]))
                way = rng.randrange(4)
                if way == 0 and len(rows) > 1:
                    rows.pop(rng.randrange(len(rows)))
                elif way == 1:
                    rows.append(draw_rows(rng, d, 1, TOP[d], 0.3, plan <= 1)[0])
                elif way == 2 and plan <= 1:
                    rows[-1] = tuple(-x for x in rows[-1])
                else:
                    at = rng.randrange(len(rows))
                    axis = rng.randrange(d)
                    rows[at] = rows[at][:axis] + (rows[at][axis] + 1,) + rows[at][axis + 1:]
                rows = tuple(rows)
                if len(dict.fromkeys(rows)) == len(rows) and fits(plan, rows):
                    requests += under_ceilings(rng, plan, rows)
                    kept += 1
    return requests


def unused_axes():
    """Lists in which an axis, first, middle or last, is zero in every row, or two axes are always equal or opposite."""
    rng = random.Random(106)
    requests = []
    for plan in range(5):
        for d in (2, 3, 4):
            for axis in range(d):
                rows = draw_list(rng, plan, d - 1)
                wider = tuple(row[:axis] + (0,) + row[axis:] for row in rows)
                if fits(plan, wider):
                    requests += under_ceilings(rng, plan, wider)
            doubled = tuple(row + (row[0] * (-1 if plan <= 1 else 1),) for row in draw_list(rng, plan, d - 1))
            if fits(plan, doubled):
                requests += under_ceilings(rng, plan, doubled)
    return requests


def far_components():
    """Components up to 255, and down to -255 under plans 0 and 1."""
    rng = random.Random(107)
    requests = []
    for plan in range(5):
        for d in range(1, 5):
            kept = 0
            while kept < 3:
                rows = draw_rows(rng, d, rng.randrange(1, 5), 255, ZEROS[plan], plan <= 1)
                if fits(plan, rows):
                    requests += under_ceilings(rng, plan, rows)
                    kept += 1
            ends = (255, -255, 254) if plan <= 1 else (255, 254, 128)
            rows = tuple((end,) + (0,) * (d - 1) for end in ends)
            requests += under_ceilings(rng, plan, rows)
    return requests


def first_component_above_one():
    """Lists that have no vector with a first component of 0 or 1 at the answer's n, but one with a divisor of n: rows (a, 1, ..) for many
    a spoil 1."""
    rng = random.Random(108)
    requests = []
    for plan in range(5):
        kept = 0
        while kept < 10:
            if plan == 0 and kept < 8:
                width = rng.randrange(3, 9)
                rows = [(a, 1) for a in range(width)] + [(1, 0)]
                rows += list(draw_rows(rng, 2, rng.randrange(0, 4), 9, 0.2, True))
                rows = tuple(dict.fromkeys(rows))
            else:
                rows = draw_list(rng, plan, rng.choice((2, 2, 3)))
            if not fits(plan, rows):
                continue
            found = plan_of(plan, rows)
            if found is not None and first_below(plan, rows, found[0], found[0])[0] > 1:
                requests += under_ceilings(rng, plan, rows)
                kept += 1
    return requests


def wide():
    """Five and six axes, within the little the brute force can do there; many mirrors sharing one residue under plan 4."""
    rng = random.Random(109)
    requests = []
    for plan in range(5):
        for d in (5, 6):
            requests.append(large.ticket(plan, ((0,) * d,), 8192))
            for _ in range(3):
                zeros = 0.8 if plan in (2, 3) else 0.3
                rows = draw_rows(rng, d, rng.randrange(1, 4), 3, zeros, plan <= 1)
                requests += under_ceilings(rng, plan, rows)
    for d in (5, 6):
        requests.append(large.ticket(4, ((1,) * d,), 8192))
        requests.append(large.ticket(4, ((0,) * d, (1,) * d), 8192))
        requests.append(large.ticket(4, ((2,) * d, (1,) * d), 8192))
    return requests


def named_sets():
    """Sets of document 000 and lists a user would write, as far as the brute force goes."""
    rng = random.Random(110)
    sets = [
        (large.block((2, 3)), (1, 2, 3, 4)), (large.block((1, 1)), (0, 1, 2, 3, 4)), (large.block((1, 1, 1)), (1, 3, 4)),
        (large.cross((3, 4)), (1, 2, 3, 4)), (large.cross((2, 2, 2)), (0, 1, 2, 3, 4)), (large.triangle(3), (1, 2, 3, 4)),
        (large.main_effects(3, 1), (0, 1, 2, 3, 4)), (large.main_effects(4, 1), (0, 1, 2, 3, 4)),
        (large.hyperbolic_cross(2, 5), (1, 3, 4)), (large.hyperbolic_cross(3, 2), (1, 2, 3, 4)),
        (large.weighted(2, (0.9, 0.8), 9), (1, 2, 3, 4)), (large.weighted(3, (0.9, 0.8, 0.7), 6), (0, 1, 2, 3, 4)),
    ]
    requests = []
    for rows, plans in sets:
        for plan in plans:
            requests += under_ceilings(rng, plan, tuple(rows))
    # Two that take longer than the table above allows: total degree 2 on three axes, answers 13 and 27.
    requests.append(large.ticket(1, large.total_degree(3, 2), 8192))
    requests.append(large.ticket(4, large.total_degree(3, 2), 8192))
    return requests


def many_rows():
    """Long lists: up to 512 rows, with small ceilings or on one axis, in form up to nearly 25,000 bytes."""
    rng = random.Random(111)
    requests = []
    for plan in range(5):
        line = tuple((a,) for a in range(25))
        requests.append(large.ticket(plan, line, 100))
        requests.append(large.ticket(plan, line[1:], 26))
        full = draw_rows(rng, 3, 512, 255, 0.2, plan <= 1)
        requests.append(large.ticket(plan, full, 4))
        requests.append(large.ticket(plan, full[:100], 4))
    requests.append(large.ticket(0, tuple((a,) for a in range(1, 128)), 300))
    requests.append(large.ticket(0, tuple((a,) for a in range(-255, 256)), 100))
    requests.append(large.ticket(1, tuple((a,) for a in range(-50, 51)), 8192))
    # 512 rows of the longest fields, in form: 4, not 12.
    requests.append(b"1 6 512 8192\n" + b"-999999 -999999 -999999 -999999 -999999 -999999\n" * 512)
    # Two equal rows among 512, the first and the last.
    full = draw_rows(rng, 2, 511, 255, 0.1, False)
    requests.append(large.ticket(3, full + full[:1], 8192))
    return requests


# Lists for the search by differences: each rule says that no difference of two rows or mirrors that the plan keeps apart has residue 0.

def upright(row):
    """Of a row and its negative the one whose last component that is not zero is above 0; None for the zero row."""
    for component in reversed(row):
        if component:
            return row if component > 0 else tuple(-x for x in row)
    return None


def differences(plan, rows):
    """The differences that the rule forbids to have residue 0, each or its negative once. Plan 0: the rows themselves."""
    zero = (0,) * len(rows[0])
    pairs = [(k, zero) for k in rows] if plan == 0 else brute.forbidden_pairs(plan, rows)
    return {upright(tuple(map(operator.sub, a, b))) for a, b in pairs} - {None}


def open_axes(plan, rows):
    """The axes whose sign change leads out of the differences."""
    known = differences(plan, rows)
    return [j for j in range(len(rows[0])) if any(upright(h[:j] + (-h[j],) + h[j + 1:]) not in known for h in known)]


def last_components(plan, rows):
    """The last components, without the zeros behind them, of the differences."""
    return [next(x for x in reversed(h) if x) for h in differences(plan, rows)]


def draw_few(rng, plan, d):
    """Two to five small rows."""
    return draw_rows(rng, d, rng.randrange(2, 6), 3, ZEROS[plan], plan <= 1)


def draw_single_axis(rng, plan, d):
    """Rows with one component that is not zero: their differences are closed under the sign of every axis."""
    rows = [(0,) * j + (x,) + (0,) * (d - j - 1) for j in range(d) for x in rng.sample(range(1, 7), rng.randrange(1, 4))]
    return tuple(rng.sample(rows, rng.randrange(2, min(len(rows), MOST_ROWS[plan][d]) + 1)))


def above_half(plan, rows, n, z):
    """Whether a component is above n/2 on an axis whose sign change leads out of the differences."""
    return any(2 * z[j] > n for j in open_axes(plan, rows))


# Under plan 4 the gentlest vector is above half for one list of a thousand. Some such lists, by the number of axes.
RARE = {
    2: (((0, 1), (0, 3), (1, 2), (3, 2)), ((1, 2), (2, 1), (2, 3), (3, 2)), ((1, 0), (3, 0), (1, 1), (2, 1), (2, 3))),
    3: (((3, 0, 0), (1, 1, 0), (1, 0, 3), (1, 0, 0)), ((0, 0, 0), (2, 0, 0), (0, 1, 1), (0, 1, 0), (3, 3, 2)),
        ((0, 0, 1), (0, 0, 2), (0, 0, 3), (0, 2, 1), (1, 0, 3))),
}


def draw_tight(rng, plan, d):
    """A list that may well be above half: a few rows, and under plan 4 a rare list with its axes and rows in another order."""
    if plan != 4:
        return draw_few(rng, plan, d)
    rows = rng.choice(RARE[d])
    axes = rng.sample(range(d), d)
    return tuple(tuple(row[axis] for axis in axes) for row in rng.sample(rows, len(rows)))


def draw_with_axis(rng, plan, d):
    """A few rows on d - 1 axes whose answer is above half, and one or two rows on one more axis alone, so that its sign is closed."""
    found = None
    while found is None or not above_half(plan, rows, *found):
        rows = draw_tight(rng, plan, d - 1)
        found = plan_of(plan, rows, {d - 1: EASY[d]})
    axis = rng.randrange(d)
    alone = [(0,) * axis + (x,) + (0,) * (d - axis - 1) for x in rng.sample(range(1, 4), rng.randrange(1, 3))]
    return tuple(row[:axis] + (0,) + row[axis:] for row in rows) + tuple(alone)


def draw_mirrored(rng, plan, d):
    """A few rows of any sign and their mirrors on some axes."""
    axes = rng.sample(range(d), rng.randrange(1, d + 1))
    moves = [lambda row, j=j: row[:j] + (-row[j],) + row[j + 1:] for j in axes]
    return close(rng, draw_rows(rng, d, rng.randrange(1, 4), 4, 0.3, True), moves)


def keep(rng, plan, d, count, draw, wanted):
    """Requests for the first `count` lists drawn that have an answer in easy reach and are `wanted`, given the list and n and z once known."""
    requests = []
    kept = set()
    while len(kept) < count:
        rows = draw(rng, plan, d)
        if rows in kept or not fits(plan, rows, EASY) or not wanted(plan, rows):
            continue
        found = plan_of(plan, rows, EASY)
        if found is not None and wanted(plan, rows, *found):
            kept.add(rows)
            requests.append(large.ticket(plan, rows, rng.choice((found[0], 8192))))
            requests.append(large.ticket(plan, rows, found[0] - 1))
    return requests


def sign_changes():
    """Lists whose differences are closed under the sign of every axis, of some and of none. On an axis that is not, the answer has a
    component above n/2, so that it is missed where that axis is taken for closed."""
    rng = random.Random(116)

    def closed(plan, rows, n=None, z=None):
        return not open_axes(plan, rows)

    def half_closed(plan, rows, n=None, z=None):
        return 0 < len(open_axes(plan, rows)) < len(rows[0]) and (n is None or above_half(plan, rows, n, z))

    def not_closed(plan, rows, n=None, z=None):
        return len(open_axes(plan, rows)) == len(rows[0]) and (n is None or above_half(plan, rows, n, z))

    requests = []
    for plan in range(5):
        for d in (2, 3):
            requests += keep(rng, plan, d, 2, draw_mirrored if plan <= 1 else draw_single_axis, closed)
            if plan != 2:                                # plan A keeps all mirrors apart: always closed
                requests += keep(rng, plan, d, 2, draw_tight, not_closed)
            if plan != 2 and d == 3:                     # on two axes both are closed, or neither
                requests += keep(rng, plan, d, 3, draw_mirrored if plan <= 1 else draw_with_axis, half_closed)
    return requests


def gentler():
    """Lists whose answer is not the first vector in dictionary order (document 02, f). In some the answer is found after several others,
    each below the largest component of the one before; in some its first component is no divisor of n, so that scaling would miss it."""
    rng = random.Random(122)

    def another(plan, rows, n=None, z=None):
        return n is None or descent(plan, rows, n)[0] != z

    def several(plan, rows, n=None, z=None):
        return n is None or len(descent(plan, rows, n)) > 2

    def no_divisor(plan, rows, n=None, z=None):
        return n is None or z[0] > 0 and n % z[0] > 0

    requests = [large.ticket(2, ((1, 0), (1, 1)), ceiling) for ceiling in (6, 7, 8, 8192)]
    for plan in range(5):
        draw = draw_list if plan == 0 else draw_few      # plan 0 has few such lists of few rows
        for d in (2, 3, 4):
            requests += keep(rng, plan, d, 3, draw, another)
        for d in (2, 3):
            requests += keep(rng, plan, d, 2, draw, no_divisor)
        requests += keep(rng, plan, 2, 1, draw_list, several)
    return requests


def shared_factors():
    """Rows of components 2, 3, 4 and 6: the answer is composite and shares a factor with last components. The values that such a
    difference forbids are several, or none."""
    rng = random.Random(117)

    def draw(rng, plan, d):
        signs = (1, -1) if plan <= 1 else (1,)
        rows = [tuple(rng.choice((0, 2, 3, 4, 6)) * rng.choice(signs) for _ in range(d)) for _ in range(rng.randrange(2, MOST_ROWS[plan][d] + 1))]
        return tuple(dict.fromkeys(rows))

    def wanted(plan, rows, n=None, z=None):
        if n is None:
            return sum(1 for row in rows if row[-1]) > 1
        shared = {t for t in last_components(plan, rows) if math.gcd(t, n) > 1}
        return any(n % q == 0 for q in range(2, n)) and len(shared) > 1

    return [request for plan in range(5) for d in (2, 3) for request in keep(rng, plan, d, 4, draw, wanted)]


def large_differences():
    """Components from 128 to 255: differences have many last components, up to 510."""
    rng = random.Random(118)

    def draw(rng, plan, d):
        rows = draw_rows(rng, d, rng.randrange(2, MOST_ROWS[plan][d] // 2 + 2), 128, ZEROS[plan] / 2, plan <= 1)
        return tuple(tuple(x + 127 if x > 0 else x - 127 if x < 0 else 0 for x in row) for row in rows)

    def wanted(plan, rows, n=None, z=None):
        return plan == 0 or len(set(last_components(plan, rows))) >= 3 and max(last_components(plan, rows)) > 255

    return [request for plan in range(5) for d in (1, 2, 3) for request in keep(rng, plan, d, 2, draw, wanted)]


def same_end():
    """Rows (a, .., 1): none ends early, yet their differences do."""
    rng = random.Random(119)

    def draw(rng, plan, d):
        rows = draw_rows(rng, d - 1, rng.randrange(3, MOST_ROWS[plan][d] + 2), 2 if d > 2 else 6, 0.4, plan <= 1)
        return tuple(row + (1,) for row in rows)

    def wanted(plan, rows, n=None, z=None):
        return len(rows) > 2

    axes = {plan: (2, 3) if plan in (2, 3) else (2, 3, 4) for plan in range(5)}
    return [request for plan in range(5) for d in axes[plan] for request in keep(rng, plan, d, 2, draw, wanted)]


def found_late():
    """Lists whose answer is far above what counting allows, so that many moduli are searched in vain."""
    rng = random.Random(120)
    beyond = {0: {1: 6, 2: 5, 3: 4}, 1: {1: 8, 2: 4, 3: 2}, 2: {1: 20, 2: 13, 3: 5}, 3: {1: 20, 2: 13, 3: 5}, 4: {1: 20, 2: 13, 3: 5}}

    def wanted(plan, rows, n=None, z=None):
        return n is None or n >= (1 if plan == 0 else len(rows)) + beyond[plan][len(rows[0])]

    return [request for plan in range(5) for d in (1, 2, 3) for request in keep(rng, plan, d, 2, draw_list, wanted)]


def single_rows():
    """One row: the zero row, a unit row, and one with a component on every axis."""
    rng = random.Random(121)
    requests = []
    for plan in range(5):
        for d in range(1, 5):
            for row in ((0,) * d, (0,) * (d - 1) + (1,), tuple(rng.randrange(1, 7) for _ in range(d))):
                requests.append(large.ticket(plan, (row,), 8192 if plan_of(plan, (row,)) else LARGEST[d]))
    return requests


def no_rows():
    """Tickets without terms (document 02, a): under every plan on one to six axes, with ceilings in and out of range; line 1 at its
    limits beside them; anything behind line 1."""
    requests = []
    for plan in range(6):
        for d in range(8):
            for ceiling in (0, 1, 2, 10, 8192, 8193):
                requests.append(b"%d %d 0 %d\n" % (plan, d, ceiling))
    for plan in range(5):
        for d in (1, 2, 6):
            for behind in (b" ".join([b"0"] * d) + b"\n", b"0\n", b"\n", b" ", b"\0", b"\r\n", b"0", b"%d %d 0 10\n" % (plan, d)):
                requests.append(b"%d %d 0 10\n" % (plan, d) + behind)
    return requests + [b"2 2 0 10", b"2 2 0 10 ", b"2 2 0 10 \n", b"2 2 0 10\r\n", b"2 2 00 10\n", b"2 2 -0 10\n", b"2 2  10\n", b"2 2 10\n"]


# Then the refusals.

def line_1():
    """Fields of line 1 at and past their limits: 1, 2, 3 and 6, and their neighbours that are in range."""
    requests = []
    for plan in (5, 6, 9, 10, 255, 256, 65535, 65536, 999999):
        requests.append(b"%d 1 1 5\n1\n" % plan)
    for d in (0, 7, 8, 256, 65537, 999999):
        for plan in range(5):
            requests.append(b"%d %d 1 5\n%s\n" % (plan, d, b" ".join([b"1"] * min(d, 9))))
    for m in (0, 513, 514, 65537, 999999):
        for plan in range(5):
            requests.append(b"%d 1 %d 5\n1\n" % (plan, m))
    requests.append(b"1 1 0 5\n")
    requests.append(b"1 1 513 5\n" + b"".join(b"%d\n" % a for a in range(513)))
    for ceiling in (0, 8193, 8194, 65536, 65537, 999999):
        for plan in range(5):
            requests.append(b"%d 1 1 %d\n1\n" % (plan, ceiling))
    for ceiling in (1, 2, 8191, 8192):
        for plan in range(5):
            requests.append(b"%d 2 2 %d\n0 0\n1 2\n" % (plan, ceiling))
    return requests


def rows_and_m_apart():
    """m and the rows given do not agree, or a row has too few or too many fields: 12."""
    rng = random.Random(112)
    requests = []
    for _ in range(40):
        plan, d = rng.randrange(5), rng.randrange(1, 5)
        rows = draw_list(rng, plan, d)
        first, rest = large.ticket(plan, rows, 20).split(b"\n", 1)
        claimed = rng.choice([1, 2, len(rows) - 1, len(rows) + 1, 512])
        if claimed != len(rows):
            requests.append(b"%d %d %d 20\n" % (plan, d, claimed) + rest)
        other = rng.choice([x for x in range(1, 7) if x != d])
        requests.append(b"%d %d %d 20\n" % (plan, other, len(rows)) + rest)
    return requests


def components():
    """Components at and past their limits in any place: 4 (or an answer), never 12."""
    requests = []
    for plan in range(5):
        for component in (255, 256, 257, 1000, 65536, 999999, -1, -254, -255, -256, -257, -65536, -999999):
            for row in ((component,), (0, component), (component, 0), (1, component, 2)):
                text = large.ticket(plan, ((0,) * len(row), row), 3 if len(row) > 1 else 300)
                if affordable(text):
                    requests.append(text)
    return requests


def equal_rows():
    """Two equal rows, near or far apart: 5; and rows that only look alike."""
    rng = random.Random(113)
    requests = [large.ticket(plan, rows, 10) for plan in range(5) for rows in (
        ((3,), (3,)), ((0,), (0,)), ((1, 2), (2, 1), (1, 2)), ((1, 12), (11, 2)), ((1, 2), (2, 1)))]
    requests += [large.ticket(plan, rows, 10) for plan in (0, 1) for rows in (
        ((-3,), (-3,)), ((-3,), (3,)), ((1, -2), (-1, 2)), ((1, -2), (1, -2)))]
    for plan in range(5):
        for d in range(1, 5):
            for _ in range(2):
                rows = list(draw_list(rng, plan, d))
                rows.insert(rng.randrange(len(rows) + 1), rng.choice(rows))
                requests.append(large.ticket(plan, tuple(rows), rng.choice((1, 20, 8192))))
    return requests


FAULTS = ("bytes", "line 1", "1", "2", "3", "rest", "4", "5", "6", "9")    # in the order in which the program has to see them


def faulty(faults):
    """A request with just these faults; but for them it would be plan 0, row (6), which has the answer 4, (1)."""
    plan, d, rows, ceiling = 0, 1, [(6,)], 4
    if "1" in faults:
        plan = 5
    if "4" in faults:
        rows.append((256,))
    if "5" in faults:
        rows.append((6,))
    if "9" in faults:
        ceiling = 3
    if "6" in faults:
        ceiling = 0
    if "2" in faults:
        d = 7
    m = 513 if "3" in faults else len(rows)
    first = b"%d %d %d %d\n" % (plan, d, m, ceiling)
    if "line 1" in faults:
        first = first.replace(b" ", b"  ", 1)
    rest = b"".join(b"%d\n" % row for row in rows)
    if "rest" in faults:
        rest = rest[:-1] + b"\r\n"
    text = first + rest
    if "bytes" in faults:
        text += b"7\n" * (brute.MOST_BYTES // 2)
    return text


def several_faults():
    """One, two and three faults at a time: the first in document 01's order is the one that is said."""
    requests = []
    for count in (0, 1, 2, 3):
        for faults in itertools.combinations(FAULTS, count):
            if "6" in faults and "9" in faults or count == 3 and "bytes" in faults:
                continue
            request = faulty(faults)
            expected = {"bytes": b"12", "line 1": b"12", "rest": b"12"}.get(faults[0], faults[0].encode()) if faults else None
            assert brute.answer(request) == (b"refused %s\n" % expected if faults else b"4 1\n"), faults
            requests.append(request)
    return requests


def damaged():
    """Every form rule broken, on line 1, in a row, at the end."""
    requests = []
    good = [b"4 1 3 10\n0\n1\n2\n", b"1 2 3 10\n0 0\n-1 0\n0 12\n", b"0 3 2 9\n1 0 -2\n10 3 4\n"]
    for text in good:
        first, rest = text.split(b"\n", 1)
        rows = rest[:-1].split(b"\n")
        # line ends
        requests += [text.replace(b"\n", end) for end in (b"\r\n", b"\r", b"\n\n", b" \n", b"\n ", b"\x0b", b"\x0c", b"\x85", b"\0", b"")]
        requests += [first + b"\r\n" + rest, first + b"\n" + rest.replace(b"\n", b"\r\n"), text[:-1], text[:-1] + b"\r\n", first, first + b"\n"]
        # spaces
        requests += [text.replace(b" ", gap) for gap in (b"\t", b"  ", b" \t", b",", b"\xa0", b"_", b"\0", b"\n")]
        requests += [b" " + text, first + b" \n" + rest, first + b"\n " + rest, text[:-1] + b" \n", first + b"\n" + rest.replace(b"\n", b" \n", 1)]
        requests += [first.replace(b" ", b"\t", 1) + b"\n" + rest, first.replace(b" ", b"  ", 1) + b"\n" + rest]
        # after the last row, before line 1, empty lines
        requests += [text + tail for tail in (b"\n", b" ", b"\0", b"0", b"0\n", rows[-1] + b"\n", b"\r", b"\x1a", b"\xff", b"end\n", text)]
        requests += [head + text for head in (b"\n", b"\xef\xbb\xbf", b"\0", b"#\n", b"\xff\xfe", b"\r\n")]
        requests += [first + b"\n\n" + rest, first + b"\n" + rows[0] + b"\n\n" + b"\n".join(rows[1:]) + b"\n"]
        # fields of line 1
        for place in range(4):
            for change in (lambda f: b"0" + f, lambda f: b"00" + f, lambda f: b"-" + f, lambda f: b"+" + f, lambda f: b"-0", lambda f: b"",
                           lambda f: b"1234567", lambda f: b"1000000", lambda f: b"4294967297", lambda f: f + b".0", lambda f: b"0x" + f,
                           lambda f: f + b"e0", lambda f: f + b"\xc2\xb2", lambda f: b"\xd9\xa1", lambda f: b"x", lambda f: b"-",
                           lambda f: b"00", lambda f: b"000000", lambda f: b"18446744073709551617", lambda f: f + b"/", lambda f: b":"):
                fields = first.split(b" ")
                fields[place] = change(fields[place])
                requests.append(b" ".join(fields) + b"\n" + rest)
            fields = first.split(b" ")
            requests.append(b" ".join(fields[:place] + fields[place + 1:]) + b"\n" + rest)
        requests += [first + b" 1\n" + rest, first + b" \n" + rest, b"\n" + rest]
        # fields of rows
        for at in (0, len(rows) - 1):
            for place in range(rows[0].count(b" ") + 1):
                for change in (lambda f: b"0" + f, lambda f: b"-0", lambda f: b"-00", lambda f: b"00", lambda f: b"+1", lambda f: b"-01",
                               lambda f: b"01", lambda f: b"--1", lambda f: b"-", lambda f: b"1-", lambda f: b"1-2", lambda f: b"- 1",
                               lambda f: b"1234567", lambda f: b"-1234567", lambda f: b"1000000", lambda f: b"0000001", lambda f: b"65537999",
                               lambda f: b"", lambda f: b"a", lambda f: b"1a", lambda f: b"\xe2\x88\x921", lambda f: b"\xb2",
                               lambda f: f + b" 1", lambda f: b"1.0", lambda f: b"/", lambda f: b":", lambda f: b"999999", lambda f: b"-999999"):
                    changed = list(rows)
                    fields = changed[at].split(b" ")
                    fields[place] = change(fields[place])
                    changed[at] = b" ".join(fields)
                    requests.append(first + b"\n" + b"\n".join(changed) + b"\n")
        # cut short at every byte
        requests += [text[:length] for length in range(len(text))]
    requests += [b"", b"\n", b" ", b"\n\n", b"0", b"4 1 3", b"4 1 3\n", b"\xff" * 20, b"\0" * 20, b"\n" * 100, b" " * 100, b"1" * 1000]
    return [text for text in requests if affordable(text)]


def mutated():
    """Good requests with one to three bytes changed, put in or taken out at random; most are out of form, some are not."""
    rng = random.Random(114)
    requests = []
    likely = b"0123456789  --\n\n\t\r+x\xff\0"
    while len(requests) < 150:
        plan, d = rng.randrange(5), rng.randrange(1, 4)
        rows = draw_list(rng, plan, d)[:4]
        text = bytearray(large.ticket(plan, rows, rng.choice((5, 12, 8192))))
        for _ in range(rng.randrange(1, 4)):
            at = rng.randrange(len(text))
            byte = rng.choice(likely)
            way = rng.randrange(3)
            if way == 0:
                text[at] = byte
            elif way == 1:
                text.insert(at, byte)
            else:
                del text[at]
        if affordable(bytes(text)):
            requests.append(bytes(text))
    return requests


def noise():
    """Random bytes, of any value and of the values that stand in requests."""
    rng = random.Random(115)
    requests = []
    for _ in range(30):
        requests.append(bytes(rng.randrange(256) for _ in range(rng.randrange(1, 60))))
        requests.append(bytes(rng.choice(b"0123456789 -\n") for _ in range(rng.randrange(1, 30))))
    return [text for text in requests if affordable(text)]


def too_many_bytes():
    """Around 32,768 bytes: one more is 12 whatever the text holds, that many is read."""
    requests = []
    for first in (b"5 1 1 5\n", b"1 0 1 5\n", b"1 1 513 5\n", b"1 1 0 5\n", b"1 1 1 5\n1\n", b"1 1 1 0\n256\n", b"x"):
        for size in (32767, 32768, 32769, 40000):
            requests.append(first + b"1\n" * ((size - len(first)) // 2) + b"1" * ((size - len(first)) % 2))
    requests.append(b"0" * 32769)
    requests.append(b"\n" * 70000)
    requests.append(b"4 1 3 10\n0\n1\n2\n" + b"\0" * 32768)
    return requests


KINDS = (documents, random_lists, not_lower, lower, symmetric, nearly_symmetric, unused_axes, far_components,
         first_component_above_one, wide, named_sets, many_rows, sign_changes, gentler, shared_factors, large_differences, same_end,
         found_late, single_rows, no_rows, line_1, rows_and_m_apart, components, equal_rows, several_faults,
         damaged, mutated, noise, too_many_bytes)


def all_requests():
    """Kind and request, for every kind in turn; a request that came before is left out."""
    seen = set()
    result = []
    for kind in KINDS:
        for request in kind():
            if request not in seen:
                seen.add(request)
                result.append((kind.__name__, request))
    return result


def pack(requests):
    packed = b""
    for request in requests:
        packed += len(request).to_bytes(2, "little") + request
    return packed + b"\xff\xff"


def costs():
    """The table of kinds: how many, with what answers, in how many seconds."""
    columns = ["1", "2", "3", "4", "5", "6", "9", "12"]
    print("%-26s %8s %7s %7s" % ("kind", "requests", "lists", "plans") + "".join("%5s" % c for c in columns) + "  seconds")
    seen = set()
    totals = None
    for kind in KINDS:
        start = time.time()
        fresh = [request for request in dict.fromkeys(kind()) if request not in seen]
        seen.update(fresh)
        counts = dict.fromkeys(["requests", "lists", "plans"] + columns, 0)
        lists = set()
        for request in fresh:
            text = brute.answer(request)
            counts["requests"] += 1
            if text.startswith(b"refused "):
                counts[text[8:-1].decode()] += 1
            else:
                counts["plans"] += 1
            if text[:8] != b"refused " or text == b"refused 9\n":
                plan, d, rows, _ = brute.read_ticket(request)
                lists.add((plan, d, rows))
        counts["lists"] = len(lists)
        seconds = time.time() - start
        row = list(counts.values()) + [seconds]
        totals = row if totals is None else [a + b for a, b in zip(totals, row)]
        print(format_row(kind.__name__, row))
    print(format_row("all", totals))


def format_row(name, row):
    return "%-26s %8d %7d %7d" % (name, *row[:3]) + "".join("%5d" % x for x in row[3:-1]) + "%9.1f" % row[-1]


def main(arguments):
    if arguments == ["costs"]:
        costs()
        return 0
    commands = list(zip(arguments[::2], arguments[1::2]))
    if len(arguments) % 2 or not commands or any(name not in ("pack", "expect", "list", "long") for name, _ in commands):
        print(__doc__, file=sys.stderr)
        return 2
    requests = [request for _, request in all_requests()]
    short = [request for request in requests if len(request) <= LONGEST_PACKED]
    for name, path in commands:
        if name == "pack":
            with open(path, "wb") as file:
                file.write(pack(short))
        if name == "expect":
            with open(path, "wb") as file:
                for request in short:
                    file.write(brute.answer(request))
        if name in ("list", "long"):
            os.makedirs(path, exist_ok=True)
            for number, request in enumerate(requests):
                if name == "long" and len(request) <= LONGEST_PACKED:
                    continue
                with open(os.path.join(path, "%04d.in" % number), "wb") as file:
                    file.write(request)
                with open(os.path.join(path, "%04d.out" % number), "wb") as file:
                    file.write(brute.answer(request))
    return 0


if __name__ == "__main__":
    sys.exit(main(sys.argv[1:]))
