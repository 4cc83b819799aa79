#!/usr/bin/env python3
"""Compares `tt sum` with brute force on drawn groups of tiny instances: the least cost of a group over all its relaxed timetables is accepted
as a claim, and one more is refused as too cheap. A group that has no relaxed timetable may claim anything within the limits.

Run by hand, after ./tt has built the program:  python3 bench/groups.py [GROUPS [SEED]]
10,000 groups take a few minutes. Then it checks the files of groups in examples/, and prints how long each took.
"""

import itertools
import math
import random
import subprocess
import sys
import tempfile
import time
from pathlib import Path

HERE = Path(__file__).resolve().parent
PROGRAM = HERE.parent / "crates" / "tt" / "out" / "tt"
EXAMPLES = HERE.parent / "examples"
IMPOSSIBLE = 100
MOST_PLANS = 3_000


class Instance:
    """A tiny instance: courses that may have no lectures, or more wanted days than lectures or days."""

    def __init__(self, draw):
        self.days, self.periods = draw.randint(1, 3), draw.randint(1, 4)
        count = draw.randint(1, 4)
        teachers = draw.randint(1, count)
        self.lectures = [draw.randint(0, 3) for _ in range(count)]
        self.wanted = [draw.randint(1, 4) for _ in range(count)]
        self.teacher = [draw.randrange(teachers) for _ in range(count)]
        self.curricula = [sorted(draw.sample(range(count), draw.randint(1, count))) for _ in range(draw.randint(1, 3))]
        self.slots = list(itertools.product(range(self.days), range(self.periods)))
        self.bars = {(c, *s) for c in range(count) for s in self.slots if draw.random() < 0.15}

    def text(self):
        lines = ["Name: tiny", f"Courses: {len(self.lectures)}", "Rooms: 1", f"Days: {self.days}", f"Periods_per_day: {self.periods}"]
        lines += [f"Curricula: {len(self.curricula)}", f"Constraints: {len(self.bars)}", "", "COURSES:"]
        lines += [f"c{c} t{self.teacher[c]} {n} {self.wanted[c]} 1" for c, n in enumerate(self.lectures)]
        lines += ["", "ROOMS:", "r 1", "", "CURRICULA:"]
        lines += [f"q{q} {len(list_)} " + " ".join(f"c{c}" for c in list_) for q, list_ in enumerate(self.curricula)]
        lines += ["", "UNAVAILABILITY_CONSTRAINTS:"] + [f"c{c} {d} {s}" for c, d, s in sorted(self.bars)] + ["", "END.", ""]
        return "\n".join(lines)

    def conflict(self, a, b):
        return self.teacher[a] == self.teacher[b] or any(a in list_ and b in list_ for list_ in self.curricula)

    def plans(self, courses, taken=()):
        """Each way to place the lectures of the courses."""
        if not courses:
            yield dict(taken)
            return
        course, *rest = courses
        barred = {s for other, slots in taken if self.conflict(course, other) for s in slots}
        open_slots = [s for s in self.slots if (course, *s) not in self.bars and s not in barred]
        for slots in itertools.combinations(open_slots, self.lectures[course]):
            yield from self.plans(rest, (*taken, (course, slots)))

    def is_small(self):
        """Whether brute force is quick."""
        return math.prod(math.comb(len(self.slots), n) for n in self.lectures) <= MOST_PLANS

    def cost(self, plan, curricula, courses):
        cost = sum(5 * max(0, self.wanted[c] - len({d for d, _ in plan[c]})) for c in courses)
        for q in curricula:
            taught = {s for c in self.curricula[q] for s in plan[c]}
            cost += 2 * sum((d, s - 1) not in taught and (d, s + 1) not in taught for d, s in taught)
        return cost

    def least(self, curricula, courses):
        concerned = sorted({*courses, *(c for q in curricula for c in self.curricula[q])})
        return min((self.cost(plan, curricula, courses) for plan in self.plans(concerned)), default=None)


def answer(folder, curricula, courses, value):
    claim = " ".join(["G", str(value), *(f"q{q}" for q in curricula), "/", *(f"c{c}" for c in courses), ";"])
    (folder / "groups").write_text(f"CTTG 1 bound {value}\n{claim}\nend\n")
    done = subprocess.run([PROGRAM, "sum", folder / "instance", folder / "groups"], capture_output=True, text=True)
    return done.stdout + done.stderr


def compare(draw, folder):
    """Draws one group, and returns its least cost, or None."""
    instance = Instance(draw)
    while not instance.is_small():
        instance = Instance(draw)
    curricula = [q for q in range(len(instance.curricula)) if draw.random() < 0.6]
    courses = [c for c in range(len(instance.lectures)) if draw.random() < 0.5]
    (folder / "instance").write_text(instance.text())
    least = instance.least(curricula, courses)
    right = IMPOSSIBLE if least is None else least
    said = answer(folder, curricula, courses, right)
    if said != f"bound {right}\n":
        sys.exit(f"{instance.text()}\n{curricula} {courses}: {right} is a bound, and tt says {said}")
    if least is not None:
        said = answer(folder, curricula, courses, least + 1)
        if said != "refused: proof 1: TooCheap at group 0\n":
            sys.exit(f"{instance.text()}\n{curricula} {courses}: {least + 1} is no bound, and tt says {said}")
    return least


def main():
    if not PROGRAM.exists():
        sys.exit("run ./tt first: the program is not built")
    count = int(sys.argv[1]) if len(sys.argv) > 1 else 10_000
    draw = random.Random(int(sys.argv[2]) if len(sys.argv) > 2 else 1)
    with tempfile.TemporaryDirectory() as folder:
        found = [compare(draw, Path(folder)) for _ in range(count)]
    impossible = found.count(None)
    positive = sum(1 for least in found if least)
    print(f"{count} groups agree with brute force: {impossible} have no timetable, {positive} cost something")
    for groups in sorted(EXAMPLES.glob("*.groups")):
        start = time.perf_counter()
        done = subprocess.run([PROGRAM, "sum", groups.with_suffix(".ctt"), groups], capture_output=True, text=True)
        print(f"{groups.name}: {done.stdout.strip()}{done.stderr.strip()}, {time.perf_counter() - start:.2f} s")
        if done.returncode:
            sys.exit(f"{groups.name} is refused")


if __name__ == "__main__":
    sys.exit(print(__doc__) if sys.argv[1:] == ["--help"] else main())
