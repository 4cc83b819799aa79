#!/usr/bin/env python3
"""Groups with prices, which CTTG files of version 2 have: rewrites, checks and draws such files in plain Python.

    python3 bench/prices.py convert INSTANCE FIRST OUT
    python3 bench/prices.py check INSTANCE FILE
    python3 bench/prices.py brute COUNT [SEED] [--program PROGRAM]

convert rewrites a file of a first form, from before the format was settled: its header doesn't say what is claimed (it is the rooms), each number
of its lists has the letter of its list, and its rents are listed by period. It says how many bytes it wrote.

check says which bound a file reaches, and has the status 1 if that is less than the file's own. For each state of a day and of a week it computes
what is paid at least; a minute for groups of 30,000 states.

brute draws files for tiny instances, and finds their totals by trying all relaxed timetables of each group and all periods of each course. The
bound that a total reaches has to be accepted, one more has to be refused, and in no timetable with rooms may what the file claims cost less. It
asks the checker, or, with --program, `PROGRAM sum INSTANCE FILE`. A thousand files take ten seconds, with a program longer.
"""

import itertools
import math
import random
import subprocess
import sys
import tempfile
import time
from dataclasses import dataclass, field
from pathlib import Path

ISOLATED, MISSING_DAY = 2, 5
MAX_BOUND, MAX_SCALE, MAX_AMOUNT, MAX_TOKEN = 10**12, 1_000, 1_000_000, 32
LETTERS = {"q": "curricula", "c": "courses", "x": "further", "y": "uncounted"}
SCALES = [1, 2, 10, 100]
LECTURES = [1, 1, 2, 2, 3, 4]
MOST_TABLES = 2_000


class Refused(Exception):
    """Why a file isn't right."""


# ---- instances


@dataclass
class Course:
    name: str
    teacher: str
    lectures: int
    min_days: int
    students: int


class Instance:
    """Courses, the seats of the rooms, and curricula; periods are numbered over the week, day by day."""

    def __init__(self, days, periods, courses, rooms, curricula, barred):
        self.days, self.periods, self.slots = days, periods, days * periods
        self.courses, self.rooms, self.curricula = courses, rooms, curricula
        numbers = range(len(courses))
        self.open = [[s for s in range(self.slots) if (c, s) not in barred] for c in numbers]
        self.conflicts = {(a, b) for a in numbers for b in numbers if a != b and self.collide(a, b)}

    def collide(self, a, b):
        return self.courses[a].teacher == self.courses[b].teacher or any(a in q and b in q for q in self.curricula)

    def excess(self, course, room):
        return max(0, self.courses[course].students - self.rooms[room])


def read_instance(text):
    words = iter(text.split())

    def take(count):
        return [next(words) for _ in range(count)]

    while next(words) != "Courses:":
        pass
    courses = int(next(words))
    rooms, days, periods, curricula, bars = (int(take(2)[1]) for _ in range(5))
    take(1)
    listed = [Course(*take(2), *map(int, take(3))) for _ in range(courses)]
    numbers = {course.name: number for number, course in enumerate(listed)}
    take(1)
    seats = [int(take(2)[1]) for _ in range(rooms)]
    take(1)
    members = [sorted({numbers[it] for it in take(int(take(2)[1]))}) for _ in range(curricula)]
    take(1)
    barred = {(numbers[it], int(day) * periods + int(period)) for it, day, period in (take(3) for _ in range(bars))}
    return Instance(days, periods, listed, seats, members, barred)


# ---- files


@dataclass
class Group:
    curricula: list = field(default_factory=list)
    courses: list = field(default_factory=list)
    further: list = field(default_factory=list)
    uncounted: list = field(default_factory=list)
    rows: dict = field(default_factory=dict)

    def concerned(self, instance):
        return sorted({*self.courses, *self.further, *(c for q in self.curricula for c in instance.curricula[q])})

    def price(self, course, slot):
        row = self.rows.get(course, [])
        return row[slot] if slot < len(row) else 0


@dataclass
class File:
    bound: int
    scale: int
    has_rooms: bool
    groups: list = field(default_factory=list)
    rents: dict = field(default_factory=dict)

    def rent(self, room, slot):
        row = self.rents.get(room, [])
        return row[slot] if slot < len(row) else 0


def amounts(numbers):
    """Numbers as words: a sign each, and `xN` for N more of the last one where that is shorter; zeros at the end are left out."""
    numbers = list(numbers)
    while numbers and numbers[-1] == 0:
        numbers.pop()
    words = []
    for number, run in itertools.groupby(numbers):
        word, more = f"{number:+}", len(list(run)) - 1
        repeated = [f"x{more}"] if more else []
        words += [word, *min([word] * more, repeated, key=lambda it: len(" ".join(it)))]
    return words


def group_text(group):
    lists = [(group.curricula, "q"), (group.courses, "c"), (group.further, "c"), (group.uncounted, "c")]
    lines = [" ".join(["G", *(word for numbers, letter in lists for word in [*(f"{letter}{n}" for n in numbers), "/"])])]
    lines += [" ".join([f"c{course}", *amounts(row)]) for course, row in sorted(group.rows.items()) if any(row)]
    return "\n".join(lines) + " ;\n"


def file_text(file):
    text = f"CTTG 2 bound {file.bound} scale {file.scale} {'rooms' if file.has_rooms else 'periods'}\n"
    text += "".join(map(group_text, file.groups))
    text += "".join(" ".join([f"R r{room}", *amounts(row), ";\n"]) for room, row in sorted(file.rents.items()) if any(row))
    return text + "end\n"


class Reader:
    """The words of a file, in turn."""

    def __init__(self, instance, data):
        self.instance, self.words = instance, iter(word.decode("latin-1") for word in data.split())

    def word(self):
        word = next(self.words, None)
        if word is None or len(word) > MAX_TOKEN:
            raise Refused("the text ends too early, or a token is too long")
        return word

    def expect(self, text):
        if self.word() != text:
            raise Refused(f"expected {text}")

    def number(self, text, limit):
        if not (text.isascii() and text.isdigit()) or int(text) > limit:
            raise Refused(f"{text} is no number up to {limit}")
        return int(text)

    def index(self, text, letter, count):
        if text[:1] != letter:
            raise Refused(f"{text} doesn't begin with {letter}")
        return self.number(text[1:], count - 1)

    def listed(self, letter, count):
        found = []
        while (word := self.word()) != "/":
            found.append(self.index(word, letter, count))
            if found[-1] in found[:-1]:
                raise Refused(f"{word} is listed twice")
        return found

    def more(self, word, row):
        """The row with the amount that a word adds."""
        if word[0] == "x":
            more = row[-1:] * self.number(word[1:], self.instance.slots)
            if not row:
                raise Refused("nothing is repeated")
        else:
            amount = self.number(word[1:], MAX_AMOUNT)
            more = [-amount if word[0] == "-" else amount]
        if len(row) + len(more) > self.instance.slots:
            raise Refused("too many amounts")
        return row + more

    def group(self):
        courses = len(self.instance.courses)
        lists = [self.listed("q", len(self.instance.curricula)), *(self.listed("c", courses) for _ in range(3))]
        rows, course = {}, None
        while (word := self.word()) != ";":
            if word[0] not in "+-x":
                course = self.index(word, "c", courses)
                if course in rows:
                    raise Refused(f"{word} has two rows")
                rows[course] = []
            elif course is None:
                raise Refused(f"{word} has no course")
            else:
                rows[course] = self.more(word, rows[course])
        return Group(*lists, rows)

    def rents(self):
        room, row = self.index(self.word(), "r", len(self.instance.rooms)), []
        while (word := self.word()) != ";":
            if word[0] not in "+x":
                raise Refused(f"{word} is no rent")
            row = self.more(word, row)
        return room, row

    def header(self):
        for text in ("CTTG", "2", "bound"):
            self.expect(text)
        bound = self.number(self.word(), MAX_BOUND)
        self.expect("scale")
        scale = self.number(self.word(), MAX_SCALE)
        claimed = self.word()
        if scale == 0 or claimed not in ("rooms", "periods"):
            raise Refused("the scale is 0, or it isn't said what is claimed")
        return File(bound, scale, claimed == "rooms")


def read_file(instance, data):
    reader = Reader(instance, data)
    file = reader.header()
    while (word := reader.word()) != "end":
        if word == "G":
            file.groups.append(reader.group())
        elif word == "R" and file.has_rooms:
            room, row = reader.rents()
            if room in file.rents:
                raise Refused(f"RentedTwice at room {room}")
            file.rents[room] = row
        else:
            raise Refused(f"{word} begins no item")
    if next(reader.words, None) is not None:
        raise Refused("a token follows the end")
    return file


# ---- files of the first form


def first_row(words):
    """The numbers of a row up to the next word of another kind; zN stands for N zeros."""
    row = []
    while words and (words[0][0] == "z" or words[0].lstrip("-").isdigit()):
        word = words.pop(0)
        row += [0] * int(word[1:]) if word[0] == "z" else [int(word)]
    return row


def first_group(words):
    group = Group()
    while (word := words.pop(0)) != ";":
        if word[0] == "p":
            group.rows[int(word[1:])] = first_row(words)
        else:
            getattr(group, LETTERS[word[0]]).append(int(word[1:]))
    return group


def read_first(instance, text):
    words = text.split()
    if words[:3] != ["CTTG", "2", "bound"] or words[4] != "scale":
        sys.exit("this is no file of the first form")
    file = File(int(words[3]), int(words[5]), True)
    del words[:6]
    while (word := words.pop(0)) != "end":
        if word == "G":
            file.groups.append(first_group(words))
            continue
        slot = int(words.pop(0))
        for room, rent in enumerate(first_row(words)):
            file.rents.setdefault(room, [0] * instance.slots)[slot] = rent
        words.pop(0)
    return file


def convert(instance, first, out):
    instance = read_instance(Path(instance).read_text(encoding="latin-1"))
    text = file_text(read_first(instance, Path(first).read_text(encoding="ascii")))
    Path(out).write_text(text, encoding="ascii")
    print(f"{out}: {len(text):,} bytes, {Path(first).stat().st_size:,} in the first form")


# ---- what a group pays at least


class Fields:
    """Counters of lectures side by side in one number. A counter begins so that its highest bit is set once it has more than its limit."""

    def __init__(self, limits):
        self.places, self.begin, self.guards, at = [], 0, 0, 0
        for limit in limits:
            width = limit.bit_length() + 1
            self.places.append((at, width))
            self.begin += ((1 << (width - 1)) - 1 - limit) << at
            self.guards += 1 << (at + width - 1)
            at += width
        self.width = at
        self.full = self.begin + sum(limit << place for limit, (place, _) in zip(limits, self.places))

    def count(self, number, k):
        """The k-th counter of a number that didn't begin with the limits."""
        place, width = self.places[k]
        return (number >> place) & ((1 << width) - 1)


@dataclass
class Seen:
    """A counter of the lectures of today of a course whose lectures aren't counted over the week: it stops at one more than the slack."""

    one: int
    mask: int
    top: int


class Weeks:
    """The weeks of a group, day by day. The state of a day is its lectures so far, the curricula of its last period, and those of them that the
    period before doesn't have."""

    def __init__(self, instance, scale, group):
        self.instance, self.group = instance, group
        self.isolated, self.missing = ISOLATED * scale, MISSING_DAY * scale
        self.concerned = group.concerned(instance)
        self.counted = [c for c in self.concerned if c not in group.uncounted]
        self.fields = Fields([instance.courses[c].lectures for c in self.counted])
        self.seen, at = {}, self.fields.width
        for c in group.courses:
            if c not in self.counted:
                width = (self.slack(c) + 1).bit_length()
                self.seen[c] = Seen(1 << at, ((1 << width) - 1) << at, (self.slack(c) + 1) << at)
                at += width
        self.sets = [self.described(it) for it in self.free_sets((), self.concerned)]

    def slack(self, course):
        """How many further lectures of a day cost nothing."""
        return max(0, self.instance.courses[course].lectures - self.instance.courses[course].min_days)

    def free_sets(self, chosen, rest):
        """All sets of courses in which no two conflict."""
        if not rest:
            yield chosen
            return
        yield from self.free_sets(chosen, rest[1:])
        if all((c, rest[0]) not in self.instance.conflicts for c in chosen):
            yield from self.free_sets((*chosen, rest[0]), rest[1:])

    def described(self, courses):
        """A set of courses: what it adds to the counters, the curricula that it teaches as bits, and the counters that may stop."""
        added = sum(1 << self.fields.places[k][0] for k, c in enumerate(self.counted) if c in courses)
        taught = sum(1 << k for k, q in enumerate(self.group.curricula) if any(c in courses for c in self.instance.curricula[q]))
        return courses, added, taught, [self.seen[c] for c in courses if c in self.seen]

    def possible(self, slot):
        """The sets that are available in a period, with what their prices are there."""
        return [(added, taught, seen, sum(self.group.price(c, slot) for c in courses))
                for courses, added, taught, seen in self.sets if all(slot in self.instance.open[c] for c in courses)]

    def after_period(self, states, possible):
        found, guards, isolated = {}, self.fields.guards, self.isolated
        for (lectures, last, alone), paid in states.items():
            for added, taught, seen, price in possible:
                now = lectures + added
                if now & guards:
                    continue
                pays = paid + price
                if left := alone & ~taught:
                    pays += isolated * bin(left).count("1")
                for it in seen:
                    if now & it.mask == it.top:
                        pays += self.missing
                    else:
                        now += it.one
                key = (now, taught, taught & ~last)
                if pays < found.get(key, math.inf):
                    found[key] = pays
        return found

    def further(self, lectures, course):
        """The further lectures of a course on a day; those of an uncounted course beyond its slack are paid already."""
        if course in self.seen:
            it = self.seen[course]
            return max(0, (lectures & it.mask) // it.one - 1)
        return max(0, self.fields.count(lectures, self.counted.index(course)) - 1)

    def days(self, day):
        """What the days of this number pay at least, by the further lectures up to the slack and by the lectures of the counted courses."""
        states = {(self.fields.begin, 0, 0): 0}
        for period in range(self.instance.periods):
            states = self.after_period(states, self.possible(day * self.instance.periods + period))
        found = {}
        for (lectures, _, alone), paid in states.items():
            pays, within = paid + self.isolated * bin(alone).count("1"), []
            for c in self.group.courses:
                further = self.further(lectures - self.fields.begin, c)
                pays += self.missing * max(0, further - self.slack(c))
                within.append(min(further, self.slack(c)))
            counts = (lectures & ((1 << self.fields.width) - 1)) - self.fields.begin
            some = found.setdefault(tuple(within), {})
            some[counts] = min(pays, some.get(counts, math.inf))
        return found

    def least(self):
        """What the group pays at least in a relaxed timetable, or None if there is none."""
        slacks = [self.slack(c) for c in self.group.courses]
        courses = [self.instance.courses[c] for c in self.group.courses]
        begin = self.missing * sum(max(0, c.min_days - c.lectures) for c in courses)
        weeks = {tuple(0 for _ in slacks): {self.fields.begin: begin}}
        for day in range(self.instance.days):
            found = {}
            for (used, some), (more, others) in itertools.product(weeks.items(), self.days(day).items()):
                further = [a + b for a, b in zip(used, more)]
                beyond = self.missing * sum(max(0, n - slack) for n, slack in zip(further, slacks))
                into = found.setdefault(tuple(map(min, further, slacks)), {})
                join(some, others, beyond, self.fields.guards, into)
            weeks = found
        return min((some[self.fields.full] for some in weeks.values() if self.fields.full in some), default=None)


def join(weeks, days, beyond, guards, into):
    """Puts each week with each day after it into a dictionary, unless a counter passes its limit."""
    for counts, paid in weeks.items():
        paid += beyond
        for more, pays in days.items():
            now = counts + more
            if not now & guards and paid + pays < into.get(now, math.inf):
                into[now] = paid + pays


# ---- what a course pays at least


def cell_costs(instance, file, course):
    """What a lecture of a course pays in each room, in each period in which the course is available, less the prices of the groups."""
    scale = file.scale if file.has_rooms else 0
    groups = [group for group in file.groups if course in group.concerned(instance)]
    prices = [sum(group.price(course, s) for group in groups) for s in instance.open[course]]
    return [[scale * instance.excess(course, room) + file.rent(room, s) - price for s, price in zip(instance.open[course], prices)]
            for room in range(len(instance.rooms))]


def term(instance, file, course):
    """The least of what all lectures pay in one room, and of one further room and what they pay each in its cheapest room."""
    count = instance.courses[course].lectures
    rows = cell_costs(instance, file, course)
    found = min(sum(sorted(row)[:count]) for row in rows)
    if count >= 2:
        found = min(found, (file.scale if file.has_rooms else 0) + sum(sorted(min(cells) for cells in zip(*rows))[:count]))
    return found


# ---- totals


def refuse_repeats(groups):
    """Refuses a curriculum, or a course whose working days count, that two groups have."""
    claimed = set()
    for number, group in enumerate(groups):
        own = {*(("q", q) for q in group.curricula), *(("c", c) for c in group.courses)}
        if own & claimed:
            raise Refused(f"ClaimedTwice at group {number}")
        claimed |= own


def total_of(instance, file, least_of, term_of):
    """What the groups pay at least and the terms of all courses, less all rents."""
    total = 0
    for number, group in enumerate(file.groups):
        least = least_of(instance, file.scale, group)
        if least is None:
            raise Refused(f"NoTimetable at group {number}")
        total += least
    for number, course in enumerate(instance.courses):
        if course.lectures > len(instance.open[number]) or not instance.rooms:
            raise Refused(f"TooFewPlaces at course {number}")
        total += term_of(instance, file, number)
    return total - sum(map(sum, file.rents.values()))


def reached(total, scale):
    """The greatest bound that a total reaches."""
    return -(-total // scale)


def group_least(instance, scale, group):
    return Weeks(instance, scale, group).least()


def checked(instance, data):
    """The file, and its total."""
    file = read_file(instance, data)
    refuse_repeats(file.groups)
    return file, total_of(instance, file, group_least, term)


def check(instance, path):
    instance = read_instance(Path(instance).read_text(encoding="latin-1"))
    start = time.process_time()
    try:
        file, total = checked(instance, Path(path).read_bytes())
    except Refused as why:
        sys.exit(f"{path}: {why}")
    bound = reached(total, file.scale)
    print(f"{path}: bound {file.bound}, reaches {bound}: {total} of scale {file.scale}, {time.process_time() - start:.1f} s")
    return 0 if file.bound <= bound else 1


# ---- brute force


def draw_instance(draw):
    """A tiny instance: few seats, courses of one to four lectures that may want more days than they have lectures."""
    days, periods = draw.choice([(1, 3), (1, 4), (2, 2), (2, 3), (3, 1), (3, 2)])
    count = draw.randint(2, 3)
    courses = [Course(f"c{c}", f"t{draw.randrange(count)}", draw.choice(LECTURES), draw.randint(0, 4), draw.randint(1, 9)) for c in range(count)]
    rooms = [draw.randint(1, 9) for _ in range(draw.randint(2, 3))]
    curricula = [sorted(draw.sample(range(count), draw.randint(1, count))) for _ in range(draw.randint(0, 3))]
    barred = {(c, s) for c in range(count) for s in range(days * periods) if draw.random() < 0.15}
    return Instance(days, periods, courses, rooms, curricula, barred)


def instance_text(instance):
    bars = [(c, s) for c in range(len(instance.courses)) for s in range(instance.slots) if s not in instance.open[c]]
    lines = ["Name: tiny", f"Courses: {len(instance.courses)}", f"Rooms: {len(instance.rooms)}", f"Days: {instance.days}",
             f"Periods_per_day: {instance.periods}", f"Curricula: {len(instance.curricula)}", f"Constraints: {len(bars)}", "", "COURSES:"]
    lines += [f"{c.name} {c.teacher} {c.lectures} {c.min_days} {c.students}" for c in instance.courses]
    lines += ["", "ROOMS:"] + [f"r{r} {seats}" for r, seats in enumerate(instance.rooms)] + ["", "CURRICULA:"]
    lines += [" ".join([f"q{q} {len(members)}", *(f"c{c}" for c in members)]) for q, members in enumerate(instance.curricula)]
    lines += ["", "UNAVAILABILITY_CONSTRAINTS:"] + [f"c{c} {s // instance.periods} {s % instance.periods}" for c, s in bars]
    return "\n".join(lines + ["", "END.", ""])


def draw_row(draw, slots, amount, least):
    """Amounts for some periods, with runs of equal ones."""
    row = []
    while len(row) < slots and draw.random() < 0.95:
        row += [draw.randint(least, amount)] * draw.choice([1, 1, 1, 2, 3])
    return row[:slots]


def draw_file(draw, instance):
    """A file of one to three groups, of which no two have a curriculum or a course whose days count."""
    scale, count = draw.choice(SCALES), len(instance.courses)
    amount = draw.choice([1, 4, scale, 3 * scale, 9 * scale])
    file = File(0, scale, draw.random() < 0.6, [Group() for _ in range(draw.randint(1, 3))])
    for numbers, name in ((range(len(instance.curricula)), "curricula"), (range(count), "courses")):
        for n in numbers:
            if draw.random() < 0.85:
                getattr(draw.choice(file.groups), name).append(n)
    for group in file.groups:
        group.further = [c for c in range(count) if draw.random() < 0.3]
        group.uncounted = [c for c in range(count) if draw.random() < 0.3]
        group.rows = {c: draw_row(draw, instance.slots, amount, -amount) for c in range(count) if draw.random() < 0.7}
    if file.has_rooms:
        file.rents = {r: draw_row(draw, instance.slots, amount, 0) for r in range(len(instance.rooms)) if draw.random() < 0.5}
    return file


def tables(instance, choices, taken=()):
    """Each way to choose periods for courses so that no two that conflict share one; a choice is a course and its sets of periods."""
    if not choices:
        yield dict(taken)
        return
    (course, options), *rest = choices
    barred = {s for other, slots in taken if (course, other) in instance.conflicts for s in slots}
    for slots in options:
        if not barred.intersection(slots):
            yield from tables(instance, rest, (*taken, (course, slots)))


def options(instance, course, counted):
    """The sets of periods of a course: as many as it has lectures, or any number of them if they aren't counted."""
    sizes = [instance.courses[course].lectures] if counted else range(len(instance.open[course]) + 1)
    return [it for size in sizes for it in itertools.combinations(instance.open[course], size)]


def points(instance, table, curricula, courses):
    """The compactness of curricula and the working days of courses."""
    cost = 0
    for q in curricula:
        taught = {divmod(s, instance.periods) for c in instance.curricula[q] for s in table[c]}
        cost += ISOLATED * sum((d, s - 1) not in taught and (d, s + 1) not in taught for d, s in taught)
    for c in courses:
        later = len(table[c]) - len({s // instance.periods for s in table[c]})
        cost += MISSING_DAY * max(0, instance.courses[c].min_days + later - instance.courses[c].lectures)
    return cost


def tried_least(instance, scale, group):
    """What a group pays at least, by trying all relaxed timetables."""
    choices = [(c, options(instance, c, c not in group.uncounted)) for c in group.concerned(instance)]
    return min((scale * points(instance, table, group.curricula, group.courses)
                + sum(group.price(c, s) for c, slots in table.items() for s in slots) for table in tables(instance, choices)), default=None)


def tried_term(instance, file, course):
    """The term of a course, by trying all periods of its lectures."""
    scale, rooms = file.scale if file.has_rooms else 0, range(len(instance.rooms))

    def cost(room, slot):
        prices = sum(group.price(course, slot) for group in file.groups if course in group.concerned(instance))
        return scale * max(0, instance.courses[course].students - instance.rooms[room]) + file.rent(room, slot) - prices

    found = []
    for slots in options(instance, course, True):
        found += [sum(cost(room, slot) for slot in slots) for room in rooms]
        if len(slots) >= 2:
            found.append(scale + sum(min(cost(room, slot) for room in rooms) for slot in slots))
    return min(found)


def rooms_least(instance, lectures, taken, used):
    """The least capacity and stability of these lectures, given which rooms are taken in a period and used by a course; None if there is none."""
    if not lectures:
        return 0
    (course, slot), *rest = lectures
    found = []
    for room in range(len(instance.rooms)):
        if (room, slot) not in taken:
            new = (course, room) not in used and any(c == course for c, _ in used)
            more = rooms_least(instance, rest, {*taken, (room, slot)}, {*used, (course, room)})
            if more is not None:
                found.append(instance.excess(course, room) + new + more)
    return min(found, default=None)


def cheapest(instance, file):
    """What a file claims costs at least in a timetable with rooms, or None if there is no timetable."""
    curricula = [q for group in file.groups for q in group.curricula]
    courses = [c for group in file.groups for c in group.courses]
    found = []
    for table in tables(instance, [(c, options(instance, c, True)) for c in range(len(instance.courses))]):
        rooms = rooms_least(instance, [(c, s) for c, slots in table.items() for s in slots], set(), set())
        if rooms is not None:
            found.append(points(instance, table, curricula, courses) + (rooms if file.has_rooms else 0))
    return min(found, default=None)


def is_quick(instance, file):
    """Whether trying everything is quick."""
    sizes = {counted: [len(options(instance, c, counted)) for c in range(len(instance.courses))] for counted in (True, False)}
    placed = sum(c.lectures for c in instance.courses)
    weeks = [math.prod(sizes[c not in group.uncounted][c] for c in group.concerned(instance)) for group in file.groups]
    return max(weeks) <= MOST_TABLES and math.prod(sizes[True]) * len(instance.rooms) ** placed <= 40 * MOST_TABLES


def checker_says(instance, file, _):
    """`accepted`, or why the checker refuses a file."""
    try:
        file, total = checked(instance, file_text(file).encode())
    except Refused as why:
        return str(why)
    return "accepted" if file.bound <= reached(total, file.scale) else "TooCheap"


def program_says(instance, file, program):
    """`accepted`, or why the program refuses a file."""
    with tempfile.TemporaryDirectory() as folder:
        folder = Path(folder)
        (folder / "instance").write_text(instance_text(instance), encoding="ascii")
        (folder / "prices").write_text(file_text(file), encoding="ascii")
        done = subprocess.run([program, "sum", folder / "instance", folder / "prices"], capture_output=True, text=True, check=False)
    return "accepted" if done.stdout == f"bound {file.bound}\n" else (done.stdout + done.stderr).strip()


def compare(instance, file, says, program):
    """Compares one file, and says what it was: refused for a fault, below every bound, or the bound and the least cost."""
    def fail(why):
        sys.exit(f"{instance_text(instance)}\n{file_text(file)}\n{why}")

    try:
        total = total_of(instance, file, tried_least, tried_term)
    except Refused as why:
        if str(why) not in (said := says(instance, file, program)):
            fail(f"{why}, and the answer is {said}")
        return "refused"
    bound, least = reached(total, file.scale), cheapest(instance, file)
    if least is not None and bound > least:
        fail(f"the bound {bound} is above the least cost, {least}")
    for file.bound, right in ((bound, "accepted"), (max(0, bound + 1), "TooCheap")):
        if file.bound >= 0 and right not in (said := says(instance, file, program)):
            fail(f"the total is {total}: {right} is right, and the answer is {said}")
    return "none" if bound < 0 else "impossible" if least is None else "equal" if bound == least else "below"


def brute(count, seed, program):
    draw = random.Random(seed)
    found = dict.fromkeys(["refused", "none", "impossible", "equal", "below"], 0)
    positive = rooms = 0
    while sum(found.values()) < count:
        instance = draw_instance(draw)
        file = draw_file(draw, instance)
        if is_quick(instance, file):
            found[compare(instance, file, program_says if program else checker_says, program)] += 1
            positive += file.bound > 1
            rooms += file.has_rooms
    print(f"{count} files agree with brute force, {rooms} of them claim the rooms: {found['refused']} have a group or a course without periods, "
          f"{found['none']} reach no bound, {found['impossible']} are of instances without a timetable; {positive} bounds are above 0, "
          f"{found['equal']} are the least cost, {found['below']} are less")


def main():
    words = sys.argv[2:]
    program = None
    if "--program" in words:
        at = words.index("--program")
        program = words[at + 1]
        del words[at:at + 2]
    match sys.argv[1:2], len(words):
        case ["convert"], 3:
            return convert(*words)
        case ["check"], 2:
            return check(*words)
        case ["brute"], 1 | 2:
            return brute(int(words[0]), int(words[1]) if len(words) > 1 else 1, program)
    sys.exit("usage: prices.py convert INSTANCE FIRST OUT | check INSTANCE FILE | brute COUNT [SEED] [--program PROGRAM]")


if __name__ == "__main__":
    sys.exit(print(__doc__) if sys.argv[1:] == ["--help"] else main())
