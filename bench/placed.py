"""Where the recursion lies in memory moves its times (docs/DECISIONS.md, "Speed"). So that a form of an inner loop is not judged by one place, this links
the object of a built `plan` four times, with 0, 16, 32 and 48 bytes before it, and runs each beside the peer.

    python3 bench/placed.py                     the object that the last build of crates/plan left there
    python3 bench/placed.py --only PART         only the requests whose names have PART in them
    python3 bench/placed.py OBJECT..            these objects, as of two builds that differ in one form

A time is what the processor gave a program, the least of eight turns, so other work weighs little; a ratio is its time over the peer's.
"""

import argparse
import math
import os
import subprocess
import tempfile

import run

TURNS = 8
PLACES = (0, 16, 32, 48)
OBJECT = os.path.join(run.ROOT, "crates", "plan", "out", "plan.o")


def kit():
    """The folder of the kit, which has the two archives that every program is linked with."""
    guide = subprocess.run(["rt", "doc"], check=True, capture_output=True, text=True).stdout.split()[0]
    return os.path.dirname(guide)


def linked(room, number, item, place):
    """The program of an object with so many bytes before it."""
    program = os.path.join(room, "%d-%d" % (number, place))
    before = program + ".s"
    with open(before, "w", encoding="utf-8") as file:
        file.write('.text\n.p2align 4\n.fill %d, 1, 0x90\n.section .note.GNU-stack, ""\n' % place)
    archives = [os.path.join(kit(), "c", name) for name in ("libos_c.a", "liblibc_c.a")]
    subprocess.run(["gcc", "-o", program, before, item, *archives], check=True)
    return program


def seconds(program, text):
    """What the processor gave one run, and its answer."""
    with tempfile.TemporaryFile() as given:
        given.write(text)
        given.seek(0)
        it = subprocess.Popen([program], stdin=given, stdout=subprocess.PIPE, stderr=subprocess.DEVNULL)
        answer = it.stdout.read()
        _, status, used = os.wait4(it.pid, 0)
        it.returncode = status
        it.stdout.close()
    assert status == 0, (program, status)
    return used.ru_utime + used.ru_stime, answer


def main():
    words = argparse.ArgumentParser()
    words.add_argument("objects", nargs="*", default=[OBJECT])
    words.add_argument("--only", default="")
    told = words.parse_args()
    run.build(False)
    with tempfile.TemporaryDirectory() as room:
        programs = [linked(room, number, item, place) for number, item in enumerate(told.objects) for place in PLACES]
        print(run.line(["request", "plan", "peer, s", *("%d: %d" % (n + 1, place) for n in range(len(told.objects)) for place in PLACES)]), flush=True)
        for request in run.requests():
            if told.only not in request.name:
                continue
            text = run.large.ticket(request.plan, request.rows, request.ceiling)
            least = dict.fromkeys([run.PEER, *programs], math.inf)
            for _ in range(TURNS):
                answers = set()
                for program in least:
                    spent, answer = seconds(program, text)
                    least[program] = min(least[program], spent)
                    answers.add(answer)
                assert len(answers) == 1, (request.name, request.plan)
            peer = least.pop(run.PEER)
            print(run.line([request.name, run.NAMES[request.plan], "%.3f" % peer, *("%.2f" % (spent / peer) for spent in least.values())]), flush=True)


if __name__ == "__main__":
    main()
