"""Holds the brute-force planner to document 01: its trial tickets, printed example, bad blanks and refusal examples; to document 02,
a, d and f; and to the smallest moduli that document 000 gives in (4.9) and (4.12).

    python3 tests/test_brute.py      prints 'brute: N checks passed'
"""

import functools
import itertools
import sys

sys.dont_write_bytecode = True
import brute
import large

checks = 0


def check(got, expected):
    global checks
    assert got == expected, "got %r, expected %r" % (got, expected)
    checks += 1


def refusal(call, *arguments):
    try:
        call(*arguments)
    except brute.Refused as refused:
        return refused.number
    return None


# Lists and vectors
check(brute.residue((-7,), (1,), 4), 1)
check(brute.residue((7,), (-1,), 4), 1)
check(brute.residue((1, -2), (3, 4), 5), 0)
check(sorted(brute.mirrors((0,))), [(0,)])
check(sorted(brute.mirrors((2,))), [(-2,), (2,)])
check(sorted(brute.mirrors((1, 0, -3))), [(-1, 0, -3), (-1, 0, 3), (1, 0, -3), (1, 0, 3)])
check(len(brute.mirrors((1, 2, 3, 4, 5, 6))), 64)
check(sorted(brute.all_mirrors(((0,), (1,), (2,)))), [(-2,), (-1,), (0,), (1,), (2,)])

# The trial tickets
three = ((0,), (1,), (2,))
pair = ((0, 0), (1, 0), (0, 1))
check(brute.smallest(1, 1, three, 8192), (3, (1,)))
check(brute.smallest(2, 1, three, 8192), (5, (1,)))
check(brute.smallest(3, 1, three, 8192), (5, (1,)))
check(brute.smallest(4, 1, three, 8192), (4, (1,)))
check([c for _, c in brute.residue_map(4, three, 4, (1,))], [1, 1, 2])
check(brute.smallest(1, 2, pair, 8192), (3, (1, 2)))
check(brute.smallest(2, 2, pair, 8192), (5, (1, 2)))
check(brute.smallest(4, 2, pair, 8192), (4, (1, 2)))
check(brute.smallest(2, 2, ((1, 1),), 8192), (5, (1, 2)))
check(brute.smallest(3, 2, ((1, 1),), 8192), (3, (1, 1)))
check(brute.smallest(4, 2, ((1, 1),), 8192), (1, (0, 0)))
check(brute.residue_map(4, ((1, 1),), 1, (0, 0)), [(0, 4)])
check(brute.smallest(0, 1, ((6,),), 4), (4, (1,)))
check(refusal(brute.smallest, 0, 1, ((6,),), 3), 9)
check(brute.spread(4, three, 4, (1,), (5, -3, 2)), [5, -3, 4, -3])
check(brute.gather(4, three, 4, (1,), [5, -3, 4, -3]), [5, -3, 2])
check(brute.points(1, 5, (1, 2))[3], [3, 1])
check(brute.points(2, 5, (1, 2)), [[0, 0], [2, 4], [4, 2]])
for plan, count in ((0, 6), (1, 6), (2, 4), (3, 4), (4, 4)):
    check(len(brute.points(plan, 6, (1, 2))), count)
    check(len(brute.points(plan, 1, (0,))), 1)
# twins: under plans 2, 3 and 4 every line that is not listed is line n - i of the list
for plan in 2, 3, 4:
    for n in range(1, 20):
        for z in itertools.product(range(n), repeat=2):
            listed = brute.points(plan, n, z)
            check([brute.line(plan, n, z, i) for i in range(len(listed), n)], [listed[n - i] for i in range(len(listed), n)])

# The printed example, whole, and the other tickets as text
check(brute.answer(b"4 1 3 10\n0\n1\n2\n"), b"4 1\n0 1\n1 1\n2 2\n")
check(brute.answer(b"1 1 3 10\n0\n1\n2\n"), b"3 1\n0 1\n1 1\n2 1\n")
check(brute.answer(b"2 1 3 10\n0\n1\n2\n"), b"5 1\n0 1\n1 1\n2 1\n")
check(brute.answer(b"4 2 3 10\n0 0\n1 0\n0 1\n"), b"4 1 2\n0 1\n1 1\n2 2\n")
check(brute.answer(b"4 2 1 1\n1 1\n"), b"1 0 0\n0 4\n")
check(brute.answer(b"0 1 1 4\n6\n"), b"4 1\n")
check(brute.answer(b"0 1 1 3\n6\n"), b"refused 9\n")
check(brute.answer(b"0 1 1 8192\n0\n"), b"1 0\n")
check(brute.answer(b"1 1 2 8192\n-7\n1\n"), b"3 1\n2 1\n1 1\n")

# A ticket without terms (document 02, a)
for plan in range(5):
    for d in range(1, 7):
        check(brute.smallest(plan, d, (), 8192), (1, (0,) * d))
    check(brute.admissible(plan, (), 5, (3, 3)), True)
    check(brute.answer(b"%d 2 0 10\n" % plan), b"1 0 0\n")
    check(brute.answer(b"%d 2 0 0\n" % plan), b"refused 6\n")
    for behind in (b"0 0\n", b"\n", b" ", b"1"):
        check(brute.answer(b"%d 2 0 10\n" % plan + behind), b"refused 12\n")
for plan in range(1, 5):
    check(brute.residue_map(plan, (), 5, (1, 2)), [])
    check(brute.spread(plan, (), 3, (1, 2), ()), [0, 0, 0])
    check(brute.gather(plan, (), 3, (1, 2), [5, 6, 7]), [])
check(brute.answer(b"2 2 0 10"), b"refused 12\n")

# Gentler settings (document 02, f): the least largest component wins, then dictionary order
check(list(brute.all_vectors(2, 3)), [(0, 0), (0, 1), (1, 0), (1, 1), (0, 2), (1, 2), (2, 0), (2, 1), (2, 2)])
apart = {
    0: (((0, 2), (1, 3), (3, 0)), 4),
    1: (((0, 1), (1, 0), (1, 1), (2, 0)), 4),
    2: (((1, 0), (1, 1)), 7),
    3: (((1, 0), (1, 2)), 5),
    4: (((0, 3), (1, 2), (1, 3)), 6),
}
for plan, (rows, n) in apart.items():
    check(brute.smallest(plan, 2, rows, 8192), (n, (2, 1)))
    check(brute.gentlest_vector(plan, 2, rows, n), (2, 1))
    # dictionary order would give another
    check([z for z in itertools.product(range(n), repeat=2) if brute.admissible(plan, rows, n, z)][0], (1, 3))
check(brute.smallest(1, 3, ((0, 0, 0), (0, 0, 1), (1, 1, 0)), 8192), (3, (1, 1, 1)))
check(brute.answer(b"2 2 2 10\n1 0\n1 1\n"), b"7 2 1\n2 1\n3 1\n")
# of all that are admissible at a modulus it is the one that wins against every other
for plan, (rows, _) in apart.items():
    for n in range(1, 13):
        found = [z for z in itertools.product(range(n), repeat=2) if brute.admissible(plan, rows, n, z)]
        check(brute.gentlest_vector(plan, 2, rows, n), functools.reduce(brute.gentler, found) if found else None)
        for z in found:
            check(brute.gentler(z, brute.gentlest_vector(plan, 2, rows, n)), brute.gentlest_vector(plan, 2, rows, n))
for left, right, wins in (((2, 1), (1, 3), 0), ((1, 3), (2, 1), 1), ((3, 1), (1, 3), 1), ((0, 2, 2), (2, 0, 0), 0), ((9, 9), (0, 0, 0), 0),
                          ((0, 0, 0), (9, 9), 1), ((), (0,), 0), ((0,), (), 1), ((), (), 0)):
    check(brute.gentler(left, right), (left, right)[wins])
for z in [], [0], [1, 2]:
    same = list(z)
    check(brute.gentler(z, same) is z and brute.gentler(same, z) is same, True)

# Bad blanks: no halving over n
six = ((6,),)
check([n for n in range(1, 8) if brute.gentlest_vector(0, 1, six, n) is not None], [4, 5, 7])
# residue 0 has its opposite at 0, not at place n
check(brute.spread(2, three, 5, (1,), (7, 0, 0)), [7, 0, 0, 0, 0])
# no pruning by shortened rows: (3) and (0) share a residue under the first component 0, and 1 tells them apart later
check(brute.smallest(1, 2, ((3, 0), (0, 1)), 8192), (2, (0, 1)))
# a zero component has one sign only
check(brute.residue_map(4, ((0, 0, 0),), 1, (0, 0, 0)), [(0, 1)])
check(brute.residue_map(4, ((0, 5),), 1, (0, 0)), [(0, 2)])

# The refusal table's examples, as far as the program and the functions here have them
check(brute.answer(b"5 1 1 4\n6\n"), b"refused 1\n")
check(brute.answer(b"1 0 1 4\n\n"), b"refused 2\n")
check(brute.answer(b"1 7 1 4\n1 1 1 1 1 1 1\n"), b"refused 2\n")
check(brute.answer(b"1 1 513 4\n"), b"refused 3\n")
check(brute.answer(b"2 1 1 4\n-1\n"), b"refused 4\n")
check(brute.answer(b"1 1 1 4\n256\n"), b"refused 4\n")
check(brute.answer(b"1 1 1 4\n-256\n"), b"refused 4\n")
check(brute.answer(b"1 1 2 4\n3\n3\n"), b"refused 5\n")
check(brute.answer(b"1 1 1 0\n3\n"), b"refused 6\n")
check(brute.answer(b"1 1 1 8193\n3\n"), b"refused 6\n")
check(brute.admissible(1, ((0,), (1,)), 2, (0,)), False)                            # the example of 10
check(refusal(brute.gather, 4, three, 4, (1,), [0, 0, 3, 0]), 11)                   # c = 2, sum 3
check(refusal(brute.gather, 4, three, 4, (1,), [2**31, 0, 0, 0]), 11)
check(refusal(brute.gather, 4, three, 4, (1,), [-2**31, 0, 0, 0]), None)
check(refusal(brute.gather, 4, three, 4, (1,), [2**31 - 1, 0, 2**32 - 2, 12345]), None)
check(brute.answer(b"4 1 3"), b"refused 12\n")

# Form
for text in (b"", b"\n", b"4 1 3\n", b"4 1 3 10", b"4 1 3 10\n", b"4 1 3 10\n0\n1\n2", b"4 1 3 10\n0\n1\n2\n\n", b"4 1 3 10\n0\n1\n2\n3\n",
             b"4 1 3 10\r\n0\r\n1\r\n2\r\n", b"4\t1\t3\t10\n0\n1\n2\n", b"4  1 3 10\n0\n1\n2\n", b" 4 1 3 10\n0\n1\n2\n", b"4 1 3 10 \n0\n1\n2\n",
             b"04 1 3 10\n0\n1\n2\n", b"4 1 3 010\n0\n1\n2\n", b"4 1 3 10\n00\n1\n2\n", b"1 1 3 10\n0\n-0\n2\n", b"1 1 3 10\n0\n+1\n2\n",
             b"-1 1 1 1\n1\n", b"1 -1 1 1\n1\n", b"1 1 -1 1\n1\n", b"1 1 1 -1\n1\n", b"1 1 1 1234567\n1\n", b"1 1 1 1\n1234567\n",
             b"1 1 1 1\n-1234567\n", b"1 1 1 1\n\n", b"1 1 1 1\n\n1\n", b"1 2 1 1\n1\n", b"1 1 1 1\n1 2\n", b"1 1 1 1\n1 \n", b"1 1 1 1\n--1\n",
             b"1 1 1 1\n-\n", b"1 1 1 1\n\xd9\xa1\n", b"1 1 1 1\n1\n\0", b"\xef\xbb\xbf1 1 1 1\n1\n", b"5 1 1 1", b"5 1 1\n1\n"):
    check(brute.answer(text), b"refused 12\n")

# Order: numbers that are too large have their own refusal, and what comes first is said
check(brute.answer(b"1 1 1 1\n999999\n"), b"refused 4\n")
check(brute.answer(b"1 1 1 1\n-999999\n"), b"refused 4\n")
check(brute.answer(b"999999 1 1 1\n1\n"), b"refused 1\n")
check(brute.answer(b"1 999999 1 1\n1\n"), b"refused 2\n")
check(brute.answer(b"1 1 999999 1\n1\n"), b"refused 3\n")
check(brute.answer(b"1 1 1 999999\n1\n"), b"refused 6\n")
check(brute.answer(b"5 0 513 0\nrubbish"), b"refused 1\n")
check(brute.answer(b"1 0 513 0\nrubbish"), b"refused 2\n")
check(brute.answer(b"1 1 513 0\nrubbish"), b"refused 3\n")
check(brute.answer(b"1 1 0 0\nrubbish"), b"refused 12\n")
check(brute.answer(b"1 1 2 0\n256\n256"), b"refused 12\n")
check(brute.answer(b"1 1 2 0\n256\n256\n"), b"refused 4\n")
check(brute.answer(b"1 1 2 0\n3\n3\n"), b"refused 5\n")
check(brute.answer(b"1 1 2 0\n3\n4\n"), b"refused 6\n")
check(brute.answer(b"1 1 2 1\n3\n4\n"), b"refused 9\n")
check(brute.answer(b"5 1 1 1\n" + b"x" * 32760), b"refused 1\n")                    # 32768 bytes
check(brute.answer(b"5 1 1 1\n" + b"x" * 32761), b"refused 12\n")                   # 32769 bytes

# Document 000: the smallest modulus of plan A for blocks, crosses and triangles
for k1 in range(3):
    for k2 in range(3):
        check(brute.smallest(2, 2, tuple(large.block((k1, k2))), 8192)[0], (2 * k1 + 1) * (2 * k2 + 1))
for k in ((1, 1), (1, 2), (2, 2), (3, 2), (3, 4)):
    check(brute.smallest(2, 2, tuple(large.cross(k)), 8192)[0], (k[0] + 1) * (k[1] + 1) + 1)
for k in range(4):
    check(brute.smallest(2, 2, tuple(large.triangle(k)), 8192)[0], 2 * k * k + 2 * k + 1)

# The index sets of large.py
check(large.main_effects(2, 2), [(0, 0), (1, 0), (0, 1), (2, 0), (0, 2)])
check(len(large.main_effects(6, 2)), 13)
check(len(large.total_degree(6, 2)), 28)
check(sorted(large.two_factor(6, 2)), large.total_degree(6, 2))
check(large.hyperbolic_cross(2, 3), [(0, 0), (0, 1), (0, 2), (1, 0), (2, 0)])
check(large.block((1, 2)), [(0, 0), (0, 1), (0, 2), (1, 0), (1, 1), (1, 2)])
check(sorted(large.cross((2, 2))), sorted(large.main_effects(2, 2)))
check(large.weighted(3, (0.9, 0.8, 0.7), 6), [(0, 0, 0), (0, 0, 1), (0, 1, 0), (1, 0, 0), (0, 0, 2), (0, 1, 1)])
check(large.ticket(4, [(0,), (1,), (2,)], 10), b"4 1 3 10\n0\n1\n2\n")

print("brute: %d checks passed" % checks)
