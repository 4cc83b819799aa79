#!/usr/bin/env python3
"""Draws weeks that are nearly full and have a timetable, and prints whether `tt solve` finds one from nothing, and its processor time. A week is
drawn around a timetable that is thrown away: lectures fill the share of its rooms and periods, teachers and curricula are courses that don't meet at
the same time there, and periods in which a course doesn't meet are barred. In a hard week teachers are busy nearly all the time, and curricula are
long. With --plain the last columns have the same of annealing in plain Rust with broken rules as the cost (full.rs, by rustc -O), given --plain steps.

Run by hand, after ./tt has built the program; TT names another one:
python3 bench/full.py [--seeds N] [--plain STEPS]
"""

import argparse
import os
import random
import subprocess
import sys
import tempfile
from dataclasses import dataclass
from pathlib import Path

HERE = Path(__file__).resolve().parent
PROGRAM = os.environ.get("TT", HERE.parent / "crates" / "tt" / "out" / "tt")
DAYS = 5


@dataclass
class Kind:
    """A kind of weeks."""

    name: str
    periods: int
    rooms: int
    share: float
    most_taught: int
    members: tuple
    barred: float


KINDS = [
    Kind("95 %", 5, 8, 0.95, 12, (3, 7), 0.12),
    Kind("97 %, large", 6, 16, 0.97, 12, (3, 7), 0.12),
    Kind("100 %", 5, 6, 1.0, 12, (3, 7), 0.12),
    Kind("95 %, hard", 5, 8, 0.95, 23, (6, 10), 0.25),
]


def courses_of(kind, draw):
    """The periods in which each course meets."""
    slots = range(DAYS * kind.periods)
    left = {slot: kind.rooms for slot in slots}
    for _ in range(round((1 - kind.share) * len(slots) * kind.rooms)):
        left[draw.choice([slot for slot in slots if left[slot]])] -= 1
    courses = []
    while any(left.values()):
        free = sorted((slot for slot in slots if left[slot]), key=lambda slot: (-left[slot], draw.random()))
        taken = free[: draw.choice([1, 2, 2, 3, 3, 3, 4, 4, 5])]
        for slot in taken:
            left[slot] -= 1
        courses.append(set(taken))
    return courses


def teachers_of(kind, courses, draw):
    """The teacher of each course."""
    busy, teachers = [], []
    for course in courses:
        free = [at for at, taken in enumerate(busy) if not taken & course and len(taken) < kind.most_taught]
        teacher = draw.choice(free) if free and draw.random() < 0.9 else len(busy)
        if teacher == len(busy):
            busy.append(set())
        busy[teacher] |= course
        teachers.append(teacher)
    return teachers


def curricula_of(kind, courses, draw):
    """The courses of each curriculum."""
    curricula = []
    for _ in range(len(courses) // 2):
        taken, members, most = set(), [], draw.randint(*kind.members)
        for course in draw.sample(range(len(courses)), len(courses)):
            if len(members) < most and not taken & courses[course]:
                members.append(course)
                taken |= courses[course]
        curricula.append(members)
    return curricula


def week(kind, seed):
    """The text of an instance."""
    draw = random.Random(f"{kind.name} {seed}")
    courses = courses_of(kind, draw)
    teachers, curricula = teachers_of(kind, courses, draw), curricula_of(kind, courses, draw)
    slots = range(DAYS * kind.periods)
    barred = [(at, slot) for at, course in enumerate(courses) for slot in slots if slot not in course and draw.random() < kind.barred]
    lines = [f"Name: full{seed}", f"Courses: {len(courses)}", f"Rooms: {kind.rooms}", f"Days: {DAYS}", f"Periods_per_day: {kind.periods}"]
    lines += [f"Curricula: {len(curricula)}", f"Constraints: {len(barred)}", "", "COURSES:"]
    lines += [f"c{at} t{teachers[at]} {len(course)} {draw.randint(1, len(course))} {draw.randint(10, 200)}" for at, course in enumerate(courses)]
    lines += ["", "ROOMS:", *(f"r{at} {draw.choice([30, 60, 100, 200])}" for at in range(kind.rooms)), "", "CURRICULA:"]
    lines += [f"q{at} {len(members)} {' '.join(f'c{it}' for it in members)}" for at, members in enumerate(curricula)]
    lines += ["", "UNAVAILABILITY_CONSTRAINTS:", *(f"c{at} {slot // kind.periods} {slot % kind.periods}" for at, slot in barred), "", "END.", ""]
    return "\n".join(lines)


def said(*words):
    """What a program prints, and the seconds of a processor that it takes."""
    with subprocess.Popen([*map(str, words)], stdout=subprocess.PIPE, stderr=subprocess.DEVNULL, text=True) as run:
        text = run.stdout.read()
        _, _, used = os.wait4(run.pid, 0)
        run.returncode = 0
    return text, used.ru_utime + used.ru_stime


def solved(instance, folder):
    """Whether tt finds a timetable that breaks no hard rule, and its seconds."""
    out = folder / "out.sol"
    text, seconds = said(PROGRAM, "solve", instance, out, folder / "out.proof", "--nodes", 1)
    if text.startswith("cost none"):
        return False, seconds
    if "hard 0\n" not in said(PROGRAM, "validate", instance, out)[0]:
        sys.exit(f"{instance}: the timetable breaks hard rules")
    return True, seconds


def cells(results):
    """How many weeks were solved, and the mean and the greatest time."""
    times = [seconds for _, seconds in results]
    return f"{sum(found for found, _ in results)} of {len(results)} | {sum(times) / len(times):.1f} s, {max(times):.1f} s"


def row(kind, words, plain, folder):
    """Prints the line of a kind."""
    ours, theirs, lectures = [], [], []
    for seed in range(1, words.seeds + 1):
        instance = folder / "week.ctt"
        text = week(kind, seed)
        instance.write_text(text)
        rows = text.split("COURSES:\n")[1].split("\n\n")[0].splitlines()
        lectures.append(sum(int(line.split()[2]) for line in rows))
        ours.append(solved(instance, folder))
        if plain:
            text, seconds = said(plain, instance, seed, words.plain)
            theirs.append((text == "0\n", seconds))
    more = [cells(theirs)] if plain else []
    print(f"| {kind.name} | {lectures[0]} | {' | '.join([cells(ours), *more])} |", flush=True)


def main():
    parser = argparse.ArgumentParser(description=__doc__, formatter_class=argparse.RawDescriptionHelpFormatter)
    parser.add_argument("--seeds", type=int, default=10)
    parser.add_argument("--plain", type=int, default=0)
    words = parser.parse_args()
    print("| Weeks | Lectures | Solved | Mean, most | of plain annealing | Mean, most |" if words.plain else "| Weeks | Lectures | Solved | Mean, most |")
    print("|---|---|---|---|" + "---|---|" * (words.plain > 0))
    with tempfile.TemporaryDirectory() as name:
        folder, plain = Path(name), None
        if words.plain:
            plain = folder / "full"
            subprocess.run(["rustc", "-O", "-o", plain, HERE / "full.rs"], check=True)
        for kind in KINDS:
            row(kind, words, plain, folder)


if __name__ == "__main__":
    main()
