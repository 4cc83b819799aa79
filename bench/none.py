#!/usr/bin/env python3
"""Counts for itself what `tt inspect` says of weeks that have no timetable: of each sentence that begins with `can't be:` the lectures, the
open periods, the places and the conflicts, and that it names no course too many; and that it comes within a second. A week without such a
sentence has to be proved by `tt solve` to have no timetable, and the courses that it names have to be those of the proof's leaves. Then it
draws tiny weeks, and looks at each by brute force: none that has a timetable may be said to have none.

    python3 bench/none.py [--draws N] [--seed N] [INSTANCE..]

Run by hand, after ./tt has built the program, or with another one in the variable TT. 10,000 draws take a minute. It prints a line for each
instance, then how many of the drawn weeks have no timetable, and for how many of these a reason is given; the status is 1 after a wrong one.
"""

import argparse
import itertools
import os
import random
import re
import subprocess
import sys
import tempfile
import time
import unicodedata
from pathlib import Path

HERE = Path(__file__).resolve().parent
PROGRAM = os.environ.get("TT") or HERE.parent / "crates" / "tt" / "out" / "tt"
MOST_SECONDS = 1.0
MOST_SHOWN = 60
COURSES = r"(?P<names>.+)"
NEEDS = r"have (?P<lectures>\d+) lectures?, and together (?P<periods>\d+) periods?(?P<slots>.*?)"
LACK = r"; (?:they lack|it lacks) (?P<lack>\d+) (?:period|place)s?"
SHAPES = {
    "rooms": r"there (?:is|are) (?P<lectures>\d+) lectures?, the rooms have (?P<places>\d+) places? in the week",
    "group": r"(?P<kind>curriculum|teacher) (?P<group>\S+) has (?P<lectures>\d+) lectures?, the week has (?P<periods>\d+) periods?",
    "course": rf"course {COURSES} has (?P<lectures>\d+) lectures? and can meet in (?P<periods>\d+) periods?(?P<slots>.*?){LACK}",
    "clique": rf"no two of {COURSES} can meet at the same time; they {NEEDS}{LACK}",
    "places": rf"{COURSES} {NEEDS}; (?P<rooms>\d+) rooms? ha(?:s|ve) (?P<places>\d+) places? there{LACK}",
    "common": rf"{COURSES} of (?P<kind>curriculum|teacher) (?P<group>\S+) {NEEDS}{LACK}",
}


def is_harmless(letter):
    """Whether `tt inspect` shows a letter: no control character, and none that is invisible or turns the direction of a text."""
    turns = "\u061c\ufeff" + "".join(map(chr, [*range(0x200B, 0x2010), *range(0x2028, 0x202F), *range(0x2060, 0x2070)]))
    return unicodedata.category(letter) != "Cc" and letter not in turns


def shown(name):
    """A name as `tt inspect` shows it: letters that may not be on a terminal as question marks, and no more than some letters."""
    letters = name.encode("utf-8", "surrogateescape").decode("utf-8", "replace")
    text = "".join(it if is_harmless(it) else "?" for it in letters[:MOST_SHOWN])
    return text + (".." if len(letters) > MOST_SHOWN else "")


class Week:
    """An instance, read again."""

    def __init__(self, text):
        words = iter(text.split())
        head = {}
        for word in words:
            if word == "COURSES:":
                break
            if word.endswith(":") and word != "Name:":
                head[word] = int(next(words))
        self.days, self.periods = head["Days:"], head["Periods_per_day:"]
        rows = [[next(words) for _ in range(5)] for _ in range(head["Courses:"])]
        self.names = [row[0] for row in rows]
        self.teacher = [row[1] for row in rows]
        self.lectures = [int(row[2]) for row in rows]
        number = {name: course for course, name in enumerate(self.names)}
        next(words)
        self.rooms = len([(next(words), next(words)) for _ in range(head["Rooms:"])])
        next(words)
        self.curricula = {}
        for _ in range(head["Curricula:"]):
            name = next(words)
            self.curricula[name] = {number[next(words)] for _ in range(int(next(words)))}
        next(words)
        bars = {(number[next(words)], int(next(words)), int(next(words))) for _ in range(head["Constraints:"])}
        self.slots = list(itertools.product(range(self.days), range(self.periods)))
        self.open = [{s for s in self.slots if (course, *s) not in bars} for course in range(len(rows))]
        inside = [set() for _ in rows]
        for name, members in self.curricula.items():
            for course in members:
                inside[course].add(name)
        self.inside = inside

    def conflict(self, a, b):
        return a != b and (self.teacher[a] == self.teacher[b] or bool(self.inside[a] & self.inside[b]))

    def group(self, kind, name):
        """The courses of the curriculum or the teacher that is shown so."""
        if kind == "teacher":
            return {course for course, teacher in enumerate(self.teacher) if shown(teacher) == name}
        return set().union(*(members for other, members in self.curricula.items() if shown(other) == name))

    def need(self, courses):
        return sum(self.lectures[course] for course in courses)

    def open_to(self, courses):
        return set().union(*(self.open[course] for course in courses))

    def lacks(self, courses, at_once):
        """How many lectures more than places these courses have; 0 if they have enough."""
        return max(0, self.need(courses) - at_once * len(self.open_to(courses)))

    def named(self, text):
        """The courses of a row of names; `None` if it doesn't name all."""
        if re.search(r" and \d+ more$", text):
            return None
        numbers = {}
        for course, name in enumerate(self.names):
            assert shown(name) not in numbers, f"two courses are shown as {shown(name)}"
            numbers[shown(name)] = course
        return [numbers[name] for name in re.split(r", | and ", text)]


def least(week, courses, at_once):
    """Whether no course can be left out of these: no smaller set among them has too many lectures."""
    for gone in courses:
        rest = [course for course in courses if course != gone]
        for count in range(1, len(rest) + 1):
            if any(week.lacks(some, at_once) for some in itertools.combinations(rest, count)):
                return False
    return True


def slots_said(week, text, count):
    """The periods that a line names; `None` if it only counts them."""
    if text == ", all of the week":
        return set(week.slots)
    named = re.findall(r"day (\d+) period (\d+)", text)
    assert named or not text or not count, text
    return {(int(day) - 1, int(period) - 1) for day, period in named} if named else None


def check_sentence(week, said):
    """Counts what a sentence says; a wrong one is an AssertionError."""
    kind, found = next(((kind, found) for kind, shape in SHAPES.items() if (found := re.fullmatch(shape, said))), (None, None))
    assert found, "it has no known form"
    field = found.groupdict()
    number = {key: int(field[key]) for key in ("lectures", "periods", "places", "rooms", "lack") if field.get(key)}
    if kind == "rooms":
        assert number["lectures"] == sum(week.lectures) and number["places"] == week.rooms * len(week.slots) < number["lectures"]
        return
    if kind == "group":
        courses = week.group(field["kind"], field["group"])
        assert number["lectures"] == week.need(courses) and number["periods"] == len(week.slots) < number["lectures"]
        return
    courses = week.named(field["names"])
    if courses is None:
        return
    assert len(set(courses)) == len(courses)
    at_once = week.rooms if kind == "places" else 1
    places = at_once * number["periods"]
    assert number["lectures"] == week.need(courses) and number["periods"] == len(week.open_to(courses)), "counts"
    assert number["lack"] == number["lectures"] - places > 0, "lack"
    assert slots_said(week, field["slots"], number["periods"]) in (None, week.open_to(courses)), "periods"
    if kind == "places":
        assert number["rooms"] == week.rooms and number["places"] == places, "places"
    elif kind == "common":
        assert set(courses) <= week.group(field["kind"], field["group"]), "group"
    if kind != "places":
        assert all(week.conflict(a, b) for a, b in itertools.combinations(courses, 2)), "conflicts"
    assert len(courses) > 14 or least(week, courses, at_once), "it names a course too many"


def run(*words):
    """What the program prints, what it says besides, its status, and its seconds."""
    start = time.monotonic()
    done = subprocess.run([PROGRAM, *words], stdin=subprocess.DEVNULL, capture_output=True, check=False)
    seconds = time.monotonic() - start
    return done.stdout.decode(), done.stderr.decode(), done.returncode, seconds


def reasons(path):
    """The sentences of `tt inspect` on what can't be, without their beginning, and its seconds."""
    out, err, status, seconds = run("inspect", path)
    said = [line.removeprefix("can't be: ") for line in out.splitlines() if line.startswith("can't be: ")]
    assert not err and status == (1 if said else 0), f"status {status}: {err}"
    return said, seconds


def leaf_courses(proof):
    """The courses of the leaves of a proof whose leaves name no curriculum."""
    lines = [line.split() for line in proof.splitlines()[1:-1]]
    return {int(word[1:]) for line in lines if line[0] in "EMKH" for word in line[1:] if word[0] == "c"}


def check_tree(week, path, folder):
    """Proves by a tree that there is no timetable, and compares the courses that are named with those of its leaves."""
    proof = folder / "proof"
    out, err, status, seconds = run("solve", path, folder / "solution", proof)
    assert status == 1 and "bound none" in out, f"no reason, and no proof: {out.strip()}"
    assert run("bound", path, proof)[0].strip() == "bound none"
    courses = leaf_courses(proof.read_text())
    lines = [line for line in (out + err).splitlines() if line.startswith("no timetable: ")]
    for line in lines:
        named = week.named(line.split("courses: ")[1])
        assert named is None or set(named) == courses, "other courses than those of the leaves"
    names = ", ".join(week.names[course] for course in sorted(courses))
    return f"{'named' if lines else 'not named'} by the proof: {names}", seconds


def check_week(path, folder):
    """Checks all that is said of a week without a timetable."""
    week = Week(path.read_bytes().decode("utf-8", "surrogateescape"))
    said, seconds = reasons(path)
    for line in said:
        check_sentence(week, line)
    if said:
        told = said[0] if len(said) == 1 else f"{said[0]} (and {len(said) - 1} more)"
    else:
        told, more = check_tree(week, path, folder)
        seconds += more
    assert seconds <= MOST_SECONDS, f"{seconds:.2f} seconds"
    print(f"{path.name}: {told}; {seconds:.2f} s")


def drawn_text(draw):
    """A tiny week."""
    days, periods, rooms = draw.randint(1, 3), draw.randint(1, 3), draw.choice([1, 1, 2, 3])
    count = draw.randint(1, 5)
    teachers = draw.randint(1, count)
    slots = list(itertools.product(range(days), range(periods)))
    share = draw.choice([0.0, 0.3, 0.6])
    bars = [f"c{c} {d} {p}" for c in range(count) for d, p in slots if draw.random() < share]
    curricula = [draw.sample(range(count), draw.randint(1, count)) for _ in range(draw.randint(0, 3))]
    most = draw.choice([1, 2, 3])
    lines = ["Name: tiny", f"Courses: {count}", f"Rooms: {rooms}", f"Days: {days}", f"Periods_per_day: {periods}"]
    lines += [f"Curricula: {len(curricula)}", f"Constraints: {len(bars)}", "", "COURSES:"]
    lines += [f"c{c} t{draw.randrange(teachers)} {draw.randint(0, most)} 1 1" for c in range(count)]
    lines += ["", "ROOMS:"] + [f"r{room} 1" for room in range(rooms)] + ["", "CURRICULA:"]
    lines += [f"q{q} {len(members)} " + " ".join(f"c{c}" for c in members) for q, members in enumerate(curricula)]
    return "\n".join(lines + ["", "UNAVAILABILITY_CONSTRAINTS:", *bars, "", "END.", ""])


def has_timetable(week, course=0, used=()):
    """Whether the lectures from this course on can be placed; `used` has the courses that are placed, with their periods."""
    if course == len(week.names):
        return True
    free = [s for s in week.slots if s in week.open[course] and sum(s in taken for _, taken in used) < week.rooms
            and not any(s in taken and week.conflict(course, other) for other, taken in used)]
    return any(has_timetable(week, course + 1, (*used, (course, taken)))
               for taken in itertools.combinations(free, week.lectures[course]))


def check_draws(count, seed, folder):
    """Draws tiny weeks; returns how many have no timetable, and for how many of these a reason is given."""
    draw = random.Random(seed)
    path = folder / "tiny.ctt"
    none = told = 0
    for _ in range(count):
        text = drawn_text(draw)
        path.write_text(text)
        week = Week(text)
        said, _ = reasons(path)
        for line in said:
            check_sentence(week, line)
        possible = has_timetable(week)
        assert not (said and possible), f"it has a timetable:\n{text}\n{said}"
        none += not possible
        told += bool(said)
    return none, told


def main():
    words = argparse.ArgumentParser(description=__doc__, formatter_class=argparse.RawDescriptionHelpFormatter)
    words.add_argument("--draws", type=int, default=10_000)
    words.add_argument("--seed", type=int, default=1)
    words.add_argument("instances", nargs="*", type=Path)
    given = words.parse_args()
    wrong = 0
    with tempfile.TemporaryDirectory() as name:
        folder = Path(name)
        for path in given.instances:
            try:
                check_week(path, folder)
            except AssertionError as fault:
                wrong += 1
                print(f"{path.name}: wrong: {fault}")
        none, told = check_draws(given.draws, given.seed, folder)
    print(f"{given.draws} drawn weeks: {none} have no timetable, and a reason is given for {told} of these")
    sys.exit(1 if wrong else 0)


if __name__ == "__main__":
    main()
