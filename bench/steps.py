#!/usr/bin/env python3
"""Prints how many steps a second `tt_moves::change` prices, moves and swaps apart, in the order of the tables and drawn at random,
and how many drawn ones `tt_moves::change_within`, which prices only those that break no more hard rules than the timetable, on a
timetable of 300 lectures that it makes and on the examples like02 and like05, whose curricula are many; and beside it what steps.rs,
plain Rust over the same tables of counts, does.

Run by hand:  python3 bench/steps.py
The Rattle side is the program in steps/: it is proved and built, as rt run builds programs, in a repository made for it, with the
crates that tt_moves stands on; what has been proved of them is taken over. The two programs are run twenty times in turn, and the
least time of each counts. That they agree in the number of steps and in the sums of all changes is checked each time.
"""

import os
import random
import shutil
import subprocess
import sys
import tempfile
from pathlib import Path

from rattle import repository

HERE = Path(__file__).resolve().parent
PROJECT = HERE.parent
EXAMPLES = PROJECT / "examples"
NAMES = ["like02", "like05"]
RUNS = 20
COURSES, ROOMS, DAYS, PERIODS, CURRICULA = 100, 20, 5, 6, 30


def files(rng):
    """An instance and a timetable of it: three lectures a course, each where it collides with none before it, if there is such a place."""
    courses = [(rng.randrange(50), 3, rng.randint(2, 3), rng.randint(10, 150)) for _ in range(COURSES)]
    rooms = [rng.randint(20, 200) for _ in range(ROOMS)]
    curricula = [rng.sample(range(COURSES), 5) for _ in range(CURRICULA)]
    bars = {(rng.randrange(COURSES), rng.randrange(DAYS), rng.randrange(PERIODS)) for _ in range(300)}
    lines = ["Name: Steps", f"Courses: {COURSES}", f"Rooms: {ROOMS}", f"Days: {DAYS}", f"Periods_per_day: {PERIODS}",
             f"Curricula: {CURRICULA}", f"Constraints: {len(bars)}", "", "COURSES:"]
    lines += [f"c{i:03} t{t:03} {n} {m} {s}" for i, (t, n, m, s) in enumerate(courses)]
    lines += ["", "ROOMS:"] + [f"r{i:02} {c}" for i, c in enumerate(rooms)] + ["", "CURRICULA:"]
    lines += [f"q{i:02} {len(ms)} " + " ".join(f"c{m:03}" for m in ms) for i, ms in enumerate(curricula)]
    lines += ["", "UNAVAILABILITY_CONSTRAINTS:"] + [f"c{c:03} {d} {p}" for c, d, p in sorted(bars)] + ["", "END.", ""]

    def excludes(a, b):
        return a == b or courses[a][0] == courses[b][0] or any(a in members and b in members for members in curricula)

    entries, free = [], [(r, d, p) for r in range(ROOMS) for d in range(DAYS) for p in range(PERIODS)]
    for course in range(COURSES):
        for _ in range(courses[course][1]):
            rng.shuffle(free)
            fits = [k for k in free if (course, *k[1:]) not in bars and not any(e[2:] == k[1:] and excludes(course, e[0]) for e in entries)]
            place = (fits or free)[0]
            free.remove(place)
            entries.append((course, *place))
    return "\n".join(lines), "".join(f"c{c:03} r{r:02} {d} {p}\n" for c, r, d, p in entries)


def built(folder, paths):
    """The program of steps/, proved."""
    crate = repository(folder, "steps")
    done = subprocess.run(["rt", "run", "--", *paths], cwd=crate, stdout=subprocess.PIPE, stderr=subprocess.STDOUT, text=True, check=False)
    if done.returncode != 0:
        sys.exit(done.stdout[-4000:])
    return crate / "out" / "tt_steps"


def measured(program, paths):
    """For each way to go through the steps: their number with the sums of their changes, and the nanoseconds."""
    lines = subprocess.run([program, *paths], stdout=subprocess.PIPE, text=True, check=True).stdout.splitlines()
    words = [line.split() for line in lines]
    return {w[0]: (tuple(map(int, w[1:4])), int(w[4])) for w in words}


def compared(programs, paths):
    """Prints the table of both programs on one timetable."""
    best = {}
    for _ in range(RUNS):
        runs = {key: measured(program, paths) for key, program in programs.items()}
        for name, (sums, _) in runs["proved"].items():
            if runs["plain"][name][0] != sums:
                sys.exit(f"{name}: the programs differ: {sums}, {runs['plain'][name][0]}")
            for key in programs:
                best[name, key] = min(best.get((name, key), 1 << 62), runs[key][name][1])
    print("| Steps | How many | Hard changes, cost changes in all | `tt_moves` | Plain Rust | Of its speed |\n|---|---|---|---|---|---|")
    for name, ((steps, hard, cost), _) in runs["proved"].items():
        rates = [steps / best[name, key] * 1000 for key in programs]
        print(f"| {name.replace('-', ' ')} | {steps:,} | {hard:,}, {cost:,} | {rates[0]:.1f} million a second | {rates[1]:.1f} million a second | {rates[0] / rates[1]:.2f} |")


def main():
    for command in ("rt", "rustc"):
        if not shutil.which(command):
            sys.exit(f"there is no {command}")
    with tempfile.TemporaryDirectory() as folder:
        folder = Path(folder)
        paths = [folder / "steps.ctt", folder / "steps.sol"]
        for path, text in zip(paths, files(random.Random(1))):
            path.write_text(text)
        subprocess.run(["rustc", "-O", "-o", folder / "plain", HERE / "steps.rs"], check=True)
        programs = {"proved": built(folder / "repository", paths), "plain": folder / "plain"}
        print("made")
        compared(programs, paths)
        for name in NAMES:
            print(name)
            compared(programs, [EXAMPLES / f"{name}.ctt", EXAMPLES / f"{name}.sol"])
    print(f"cores: {os.cpu_count()}")


if __name__ == "__main__":
    sys.exit(print(__doc__) if sys.argv[1:] == ["--help"] else main())
