"""A brute-force planner, written from the words of documents 01 and 02 alone, to hold the proved planner against.

It shares nothing with the crates and knows no shortcut: every modulus from 1 upward, every vector there, the gentlest first (document
02, f), every rule pair by pair. A list is a tuple of rows, a row a tuple of d numbers; a list may have no rows.

    python3 tests/brute.py < request      prints the answer, as the program `plan` would
"""

import functools
import itertools
import operator
import re
import sys

MOST_BYTES = 32768
MOST_AXES = 6
MOST_ROWS = 512
MOST_COMPONENT = 255
MOST_MODULUS = 8192


class Refused(Exception):
    """A refusal; `number` is the one in document 01's table."""

    def __init__(self, number):
        super().__init__(number)
        self.number = number


# Lists and vectors

def residue(row, z, n):
    """The number from 0 to n-1 that differs from row·z by a multiple of n (Python's % gives it: -7 % 4 is 1)."""
    return sum(map(operator.mul, row, z)) % n


@functools.lru_cache(maxsize=None)
def mirrors(row):
    """S(row): the different rows got by changing signs of components. A zero has one sign only."""
    return tuple(itertools.product(*[(x, -x) if x != 0 else (0,) for x in row]))


@functools.lru_cache(maxsize=None)
def all_mirrors(rows):
    """M: all mirrors of all rows, each once."""
    return tuple(dict.fromkeys(s for k in rows for s in mirrors(k)))


# The five plan rules

def forbidden_pairs(plan, rows):
    """Plans 1 to 4: the pairs of rows that may not share a residue."""
    if plan == 1:
        yield from itertools.combinations(rows, 2)
    if plan == 2:
        yield from itertools.combinations(all_mirrors(rows), 2)
    if plan == 3:
        for k in rows:
            for other in rows:
                for s in mirrors(other):
                    if s != k:
                        yield k, s
    if plan == 4:
        for k in rows:
            for other in rows:
                if other != k:
                    for s in mirrors(other):
                        yield k, s


def admissible(plan, rows, n, z):
    """Whether the pair n, z meets the plan's rule. The first forbidden pair settles it."""
    if plan == 0:
        for k in rows:
            if any(k) and residue(k, z, n) == 0:
                return False
        return True
    for a, b in forbidden_pairs(plan, rows):
        if residue(a, z, n) == residue(b, z, n):
            return False
    return True


# Search

def all_vectors(d, n):
    """All vectors of d components from 0 to n-1, the gentlest first: by the largest component, then in dictionary order."""
    for largest in range(n):
        for z in itertools.product(range(largest + 1), repeat=d):
            if largest in z:
                yield z


@functools.lru_cache(maxsize=None)
def gentlest_vector(plan, d, rows, n):
    """The gentlest admissible vector of d components at n, or None.

    Components from 0 to n-1 are all there is to try: a residue does not change when a multiple of n is added to a component.
    The result is kept, so that one list under several ceilings costs its moduli only once.
    """
    for z in all_vectors(d, n):
        if admissible(plan, rows, n, z):
            return z
    return None


def gentler(left, right):
    """The winner of two vectors: the shorter, then the one with the smaller largest component, then the first in dictionary order; `min`
    gives the left one on a full tie."""
    return min(left, right, key=lambda z: (len(z), max(z, default=0), z))


def smallest(plan, d, rows, ceiling):
    """The smallest plan: n and z, moduli tried upward from 1 to the ceiling."""
    for n in range(1, ceiling + 1):
        z = gentlest_vector(plan, d, rows, n)
        if z is not None:
            return n, z
    raise Refused(9)


# Map, spread, gather (plans 1 to 4), point list

def own_mirrors(plan, k):
    """S(k) as the three calls read it: for plan 1, k alone."""
    return (k,) if plan == 1 else mirrors(k)


def residue_map(plan, rows, n, z):
    """For each row its residue, and c: how many of its mirrors have that residue."""
    result = []
    for k in rows:
        r = residue(k, z, n)
        c = 0
        for s in own_mirrors(plan, k):
            if residue(s, z, n) == r:
                c += 1
        result.append((r, c))
    return result


def spread(plan, rows, n, z, terms):
    """n sums: a row's term is added once for each of its mirrors, at the mirror's residue."""
    sums = [0] * n
    for k, a in zip(rows, terms):
        for s in own_mirrors(plan, k):
            sums[residue(s, z, n)] += a
    return sums


def gather(plan, rows, n, z, sums):
    """For each row the sum at its residue divided by c; 11 where that does not go, or passes 32 bits."""
    terms = []
    for r, c in residue_map(plan, rows, n, z):
        if sums[r] % c != 0:
            raise Refused(11)
        quotient = sums[r] // c
        if not -2**31 <= quotient <= 2**31 - 1:
            raise Refused(11)
        terms.append(quotient)
    return terms


def line(plan, n, z, i):
    """Line i of the cutting list, listed or not: residues of i times z_j, or tent numerators for plans 2, 3 and 4."""
    residues = [i * component % n for component in z]
    return residues if plan < 2 else [min(2 * r, 2 * n - 2 * r) for r in residues]


def points(plan, n, z):
    """The cutting list: n lines; for plans 2, 3 and 4 those up to half of n, since the others are twins of these."""
    return [line(plan, n, z, i) for i in range(n) if plan < 2 or 2 * i <= n]


# The ticket program

PLAIN_FIELD = re.compile(rb"0|[1-9][0-9]{0,5}")
SIGNED_FIELD = re.compile(rb"0|-?[1-9][0-9]{0,5}")


def read_line(data, count, field):
    """The numbers on the first line of data, and the bytes after its newline; 12 unless it is `count` fields in form."""
    line, newline, rest = data.partition(b"\n")
    if newline == b"":
        raise Refused(12)
    texts = line.split(b" ")
    if len(texts) != count:
        raise Refused(12)
    for text in texts:
        if not field.fullmatch(text):
            raise Refused(12)
    return tuple(int(text) for text in texts), rest


def read_ticket(data):
    """Plan, number of axes, rows and ceiling of a request; its refusals (all but 9) in document 01's order for the program."""
    if len(data) > MOST_BYTES:
        raise Refused(12)
    (plan, d, m, ceiling), rest = read_line(data, 4, PLAIN_FIELD)
    if plan > 4:
        raise Refused(1)
    if not 1 <= d <= MOST_AXES:
        raise Refused(2)
    if m > MOST_ROWS:
        raise Refused(3)

    rows = []
    for _ in range(m):
        row, rest = read_line(rest, d, SIGNED_FIELD)
        rows.append(row)
    if rest != b"":
        raise Refused(12)

    least = -MOST_COMPONENT if plan <= 1 else 0
    for row in rows:
        for component in row:
            if not least <= component <= MOST_COMPONENT:
                raise Refused(4)
    for a, b in itertools.combinations(rows, 2):
        if a == b:
            raise Refused(5)
    if not 1 <= ceiling <= MOST_MODULUS:
        raise Refused(6)
    return plan, d, tuple(rows), ceiling


def answer(data):
    """What the program prints for the bytes read."""
    try:
        plan, d, rows, ceiling = read_ticket(data)
        n, z = smallest(plan, d, rows, ceiling)
    except Refused as refusal:
        return b"refused %d\n" % refusal.number
    lines = [(n,) + z]
    if plan != 0:
        lines += residue_map(plan, rows, n, z)
    return b"".join(b" ".join(b"%d" % field for field in line) + b"\n" for line in lines)


if __name__ == "__main__":
    sys.stdout.buffer.write(answer(sys.stdin.buffer.read()))
