"""Requests a user would really write: index sets by name, as lists of rows, and the request text for them.

Rows come in dictionary order (first component most significant), unless a function says otherwise. Other scripts import this file.

    python3 tests/large.py           prints the names, with plan, axes, rows and bytes
    python3 tests/large.py NAME      prints that request, ready for `plan`
    python3 tests/large.py all       prints all of them, each under a line with its name
"""

import itertools
import sys
from fractions import Fraction


def ticket(plan, rows, ceiling):
    """The request as the program reads it."""
    lines = [(plan, len(rows[0]), len(rows), ceiling)] + list(rows)
    return b"".join(b" ".join(b"%d" % field for field in line) + b"\n" for line in lines)


def block(k):
    """B_k of document 000 (4.9), (4.12): every row from zero up to k."""
    return list(itertools.product(*[range(top + 1) for top in k]))


def cross(k):
    """C_k of document 000 (4.9): on each axis j the multiples 0 to k_j of the unit row; zero once. In dictionary order."""
    rows = {(0,) * len(k)}
    for j, top in enumerate(k):
        for h in range(1, top + 1):
            rows.add((0,) * j + (h,) + (0,) * (len(k) - j - 1))
    return sorted(rows)


def triangle(k):
    """S_{1,k} of document 000 (4.9): two axes, components without sign adding up to at most k."""
    return total_degree(2, k)


def total_degree(d, k):
    """Every row of d components without sign that add up to at most k."""
    return [row for row in itertools.product(range(k + 1), repeat=d) if sum(row) <= k]


def main_effects(d, k):
    """The zero row, then the unit rows, then twice the unit rows, and so on up to k times."""
    rows = [(0,) * d]
    for h in range(1, k + 1):
        for j in range(d):
            rows.append((0,) * j + (h,) + (0,) * (d - j - 1))
    return rows


def two_factor(d, k):
    """Main effects up to k, then the products of two different axes: a unit on each of the two."""
    rows = main_effects(d, k)
    for i, j in itertools.combinations(range(d), 2):
        rows.append(tuple(1 if axis in (i, j) else 0 for axis in range(d)))
    return rows


def hyperbolic_cross(d, bound):
    """Every row of d components without sign for which the product of (component + 1) is at most the bound."""
    def grow(prefix, product):
        if len(prefix) == d:
            yield prefix
            return
        component = 0
        while product * (component + 1) <= bound:
            yield from grow(prefix + (component,), product * (component + 1))
            component += 1
    return list(grow((), 1))


def weighted(d, weights, count):
    """The `count` rows of least weighted degree, as in document 000, section 8.2.

    Weights are read as decimal text, so that 0.9 + 0.7 equals 2 × 0.8. Document 000 breaks ties arbitrarily; here the row earlier in
    dictionary order comes first. Rows come by weighted degree.
    """
    exact = [Fraction(str(weight)) for weight in weights]
    assert len(exact) == d and all(weight > 0 for weight in exact)

    def degree(row):
        return sum(weight * h for weight, h in zip(exact, row))

    bound = max(exact)
    while True:
        # All rows of degree at most the bound; with `count` of them, the least `count` are among these.
        tops = [int(bound / weight) for weight in exact]
        rows = [row for row in itertools.product(*[range(top + 1) for top in tops]) if degree(row) <= bound]
        if len(rows) >= count:
            return sorted(rows, key=lambda row: (degree(row), row))[:count]
        bound += max(exact)


WEIGHTS = {3: (0.9, 0.8, 0.7), 4: (0.9, 0.8, 0.7, 0.6), 5: (0.9, 0.8, 0.7, 0.6, 0.5)}


def named_requests():
    """Name and request text, in a fixed order."""
    lists = [
        ("main6", main_effects(6, 2)),                # 13 rows: six axes, main effects up to the second term
        ("degree6", total_degree(6, 2)),              # 28 rows: six axes, all rows of total degree 2
        ("twofactor6", two_factor(6, 2)),             # the same 28 rows as a user would type them: main effects, then products
        ("hyper3", hyperbolic_cross(3, 6)),           # three axes, hyperbolic cross
        ("hyper4", hyperbolic_cross(4, 4)),
        ("degree3", total_degree(3, 3)),              # three axes, total degree 3
        ("weighted40", weighted(3, WEIGHTS[3], 40)),  # document 000, 8.2.1 (M has 147 to 151 members, as ties are broken; table 2: 149)
        ("block23", block((2, 3))),                   # document 000 (4.9): plan A needs (2·2 + 1)(2·3 + 1) = 35
        ("block112", block((1, 1, 2))),               # document 000 (4.12): plan A needs 3·3·5 = 45
        ("cross34", cross((3, 4))),                   # document 000 (4.9): plan A needs 4·5 + 1 = 21
        ("triangle4", triangle(4)),                   # document 000 (4.9): plan A needs 2·16 + 2·4 + 1 = 41
    ]
    for name, rows in lists:
        for plan in range(1, 5):
            yield "%s-plan%d" % (name, plan), ticket(plan, rows, 8192)


def main(arguments):
    if not arguments:
        for name, text in named_requests():
            plan, d, m, _ = text.split(b"\n")[0].split()
            print("%-20s plan %d, %d axes, %3d rows, %5d bytes" % (name, int(plan), int(d), int(m), len(text)))
        return 0
    if arguments == ["all"]:
        for name, text in named_requests():
            print("# " + name)
            print(text.decode(), end="")
        return 0
    for name, text in named_requests():
        if arguments == [name]:
            sys.stdout.buffer.write(text)
            return 0
    print("no such request", file=sys.stderr)
    return 1


if __name__ == "__main__":
    sys.exit(main(sys.argv[1:]))
