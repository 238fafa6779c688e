"""Runs the built program `plan` one request at a time and compares what it writes with what it must write.

    python3 tests/program.py          after rt ci, or rt run in crates/plan, which build crates/plan/out/plan

Requests: the examples, a ticket without terms under each plan, one whose answer is not the first vector in dictionary order, those of
tests/requests.py that are too long for `trials` (tests/brute.sh writes them), one for each refusal that the program can give, the same
request written slowly through a pipe, and a few hundred random byte strings, of which each must end with status 0 and one well-formed
answer that the brute-force planner gives too.
"""

import glob
import os
import random
import re
import subprocess
import sys
import time

sys.dont_write_bytecode = True
import brute

HERE = os.path.dirname(os.path.abspath(__file__))
PROGRAM = os.path.join(HERE, "..", "crates", "plan", "out", "plan")
EXAMPLE = b"4 1 3 10\n0\n1\n2\n"
PRINTED = b"4 1\n0 1\n1 1\n2 2\n"
NO_TERMS = b"%d 2 0 10\n"                               # document 02, a: a ticket without terms
APART = b"2 2 2 10\n1 0\n1 1\n"                          # document 02, f: (1, 3) is admissible too, and before (2, 1) in dictionary order
WELL_FORMED = re.compile(rb"refused (?:[1-9]|1[0-2])\n|(?:\d+(?: \d+)+\n)+")

# one request for each number that the program can refuse with
REFUSED = {
    1: b"5 1 1 10\n0\n",
    2: b"1 0 1 10\n0\n",
    3: b"1 1 513 10\n0\n",
    4: b"2 1 1 10\n-1\n",
    5: b"1 1 2 10\n3\n3\n",
    6: b"1 1 1 8193\n0\n",
    9: b"0 1 1 3\n6\n",
    12: b"4 1 3\n",
}


def run(request):
    done = subprocess.run([PROGRAM], input=request, capture_output=True, timeout=120)
    assert done.returncode == 0 and done.stderr == b"", (request[:60], done)
    return done.stdout


def run_slowly(request):
    """The request in pieces of one to three bytes, with pauses."""
    process = subprocess.Popen([PROGRAM], stdin=subprocess.PIPE, stdout=subprocess.PIPE)
    at, size = 0, 1
    while at < len(request):
        process.stdin.write(request[at:at + size])
        process.stdin.flush()
        time.sleep(0.01)
        at, size = at + size, size % 3 + 1
    process.stdin.close()
    answer = process.stdout.read()
    assert process.wait() == 0
    return answer


def main():
    checks = 0

    def same(request, got, wanted):
        nonlocal checks
        assert got == wanted, (request[:200], got[:200], wanted[:200])
        checks += 1

    same(EXAMPLE, run(EXAMPLE), PRINTED)
    same(EXAMPLE, run_slowly(EXAMPLE), PRINTED)
    for plan in range(5):
        same(NO_TERMS % plan, run(NO_TERMS % plan), b"1 0 0\n")
        for behind in (b"\n", b" ", b"0 0\n"):
            same(NO_TERMS % plan + behind, run(NO_TERMS % plan + behind), b"refused 12\n")
    same(APART, run(APART), b"7 2 1\n2 1\n3 1\n")
    for number, request in REFUSED.items():
        same(request, run(request), b"refused %d\n" % number)
        same(request, run_slowly(request[:40]), brute.answer(request[:40]))
    for folder, end, answer_end in (("examples", "request", "answer"), ("target/tests", "in", "out")):
        paths = sorted(glob.glob(os.path.join(HERE, "..", folder, "*." + end)))
        assert paths, folder
        for path in paths:
            with open(path, "rb") as request, open(path[:-len(end)] + answer_end, "rb") as answer:
                text = request.read()
                same(text, run(text), answer.read())
    rng = random.Random(20)
    for _ in range(300):
        text = bytes(rng.choice(b"0123456789 \n-4 1\n") for _ in range(rng.randrange(60)))
        answer = run(text)
        assert WELL_FORMED.fullmatch(answer), (text, answer)
        same(text, answer, brute.answer(text))
    print("program: %d requests answered as they must be" % checks)


main()
