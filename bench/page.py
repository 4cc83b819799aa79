#!/usr/bin/env python3
"""Looks at the pages that `tt page` writes.

    python3 bench/page.py [FOLDER]

writes the page of some timetables (good, broken, with names that are markup or no text, two weeks, 16 days and 64 days long, with
names of days and periods, some weeks alone, with what changed) and says of each whether it is, byte for byte, what this second program derives from the two files; its tags are
balanced, its ids are unique, each link lands, nothing comes from outside, the marks and the items of the lists add up to the
counts, the colours of bars are no paler than WCAG asks, and it is below 2 MB where the instance is of realistic size. The last
line counts what passed and failed. Where Chromium is there, pictures at three widths and on paper are put into FOLDER, beside the
pages themselves; a picture that isn't made counts as failed. If no FOLDER is given, it is out/pages, which git ignores.
"""
import html.parser
import os
import re
import shutil
import subprocess
import sys

HERE = os.path.dirname(os.path.abspath(__file__))
TOP = os.path.dirname(HERE)
EXAMPLES = os.path.join(TOP, "examples")
INPUT = os.path.join(HERE, "page")
CASES = [
    ("mini", EXAMPLES + "/mini.ctt", EXAMPLES + "/mini.sol"),
    ("mini.broken", EXAMPLES + "/mini.ctt", INPUT + "/mini.broken.sol"),
    ("like02", EXAMPLES + "/like02.ctt", EXAMPLES + "/like02.sol"),
    ("like02.broken", EXAMPLES + "/like02.ctt", INPUT + "/like02.broken.sol"),
    ("like11", EXAMPLES + "/like11.ctt", EXAMPLES + "/like11.sol"),
    ("names", INPUT + "/names.ctt", INPUT + "/names.sol"),
    ("long", INPUT + "/long.ctt", INPUT + "/long.sol"),
    ("mini.named", EXAMPLES + "/mini.ctt", INPUT + "/mini.broken.sol", ["Mon"], ["8:00", "9:00", "10:00"]),
    ("mini.teacher", EXAMPLES + "/mini.ctt", INPUT + "/mini.broken.sol", ["Mon"], ["8:00", "9:00", "10:00"], ("--week", "t1")),
    ("names.room", INPUT + "/names.ctt", INPUT + "/names.sol", [], [], ("--only", "rooms")),
    ("like02.teachers", EXAMPLES + "/like02.ctt", INPUT + "/like02.broken.sol", [], [], ("--only", "teachers")),
    ("like02.curricula", EXAMPLES + "/like02.ctt", EXAMPLES + "/like02.sol", [], [], ("--only", "curricula")),
    ("like02.days", EXAMPLES + "/like02.ctt", EXAMPLES + "/like02.sol", [], [], ("--only", "days")),
    ("mini.changed", EXAMPLES + "/mini.ctt", EXAMPLES + "/mini.sol", ["Mon"], ["8:00", "9:00", "10:00"], (), INPUT + "/mini.broken.sol"),
    ("mini.unchanged", EXAMPLES + "/mini.ctt", EXAMPLES + "/mini.sol", [], [], (), EXAMPLES + "/mini.sol"),
    ("like02.changed", EXAMPLES + "/like02.ctt", INPUT + "/like02.broken.sol", [], [], (), EXAMPLES + "/like02.sol"),
]
LONG_WEEKS = [16, 64]
MOST_BYTES = 2_000_000
HUES = 12
LEAST_CONTRAST = 3  # of a bar, by WCAG
SEPARATORS = b" \t\n\r\x0b\x0c"


# ---- the two files; what is wrong with them the program has refused before


def tokens(data):
    return [it for it in re.split(b"[" + re.escape(SEPARATORS) + b"]+", data) if it]


class Instance:
    def __init__(self, data):
        rest = iter(tokens(data))
        next(rest)
        self.name = []
        for token in rest:
            if token == b"Courses:":
                break
            self.name.append(token)
        numbers = [int(next(rest))]
        for _ in range(5):
            next(rest)
            numbers.append(int(next(rest)))
        courses, rooms, self.days, self.periods, curricula, bars = numbers
        next(rest)
        self.courses = [(next(rest), next(rest), int(next(rest)), int(next(rest)), int(next(rest))) for _ in range(courses)]
        next(rest)
        self.rooms = [(next(rest), int(next(rest))) for _ in range(rooms)]
        next(rest)
        self.number_of = {course[0]: at for at, course in enumerate(self.courses)}
        self.curricula = []
        for _ in range(curricula):
            name, size = next(rest), int(next(rest))
            self.curricula.append((name, list(dict.fromkeys(self.number_of[next(rest)] for _ in range(size)))))
        next(rest)
        self.bars = {(self.number_of[next(rest)], int(next(rest)), int(next(rest))) for _ in range(bars)}
        self.teachers = list(dict.fromkeys(course[1] for course in self.courses))
        self.teacher_of = [self.teachers.index(course[1]) for course in self.courses]

    def conflict(self, one, other):
        if one == other:
            return False
        return self.teacher_of[one] == self.teacher_of[other] or any(one in it and other in it for _, it in self.curricula)


def table_of(instance, data):
    words, rooms = tokens(data), {room[0]: at for at, room in enumerate(instance.rooms)}
    return [
        (instance.number_of[words[at]], rooms[words[at + 1]], int(words[at + 2]), int(words[at + 3]))
        for at in range(0, len(words), 4)
    ]


def changes_of(older, newer):
    """What changed: the lectures that left their period, those that changed only their room, and the entries that are gone or added."""
    pairs, newer = [], list(newer)
    for alike in (lambda it: it, lambda it: (it[0], *it[2:]), lambda it: it[0]):
        left, found = [], []
        for entry in older:
            place = next((at for at, it in enumerate(newer) if alike(it) == alike(entry)), None)
            if place is None:
                left.append(entry)
            else:
                found.append((entry, newer.pop(place)))
        pairs.append(found)
        older = left
    return pairs[2], pairs[1], older, newer


# ---- the page


FIXED_RULES = """.changes { background: var(--paper); border: 1px solid var(--line); border-left: .35rem dotted var(--link); margin: .6rem 0; }
.changes h2 { font-size: 1rem; font-weight: 600; }
.changes > ul, .changes > p { margin: 0; padding: .1rem .75rem .6rem; font-size: .9rem; overflow-wrap: anywhere; }
.lecture { outline-offset: -2px; }
.lecture::after { content: var(--from); display: block; margin-top: 2px; color: var(--link); font-size: .6875rem; font-weight: 500; overflow-wrap: break-word; }
"""


def quoted(name):
    """A name in a string of the style."""
    text = name.decode("utf-8", "replace")
    escaped = {it: f"\\{ord(it):x} " for it in "\"&'<>\\"}
    return "".join(escaped.get(it, "\ufffd" if ord(it) < 32 or 127 <= ord(it) < 160 else it) for it in text)


def shown(name):
    marks = {"&": "&amp;", "<": "&lt;", ">": "&gt;", '"': "&quot;", "'": "&#39;"}
    text = name.decode("utf-8", "replace")
    return "".join(marks.get(it, "\ufffd" if ord(it) < 32 or 127 <= ord(it) < 160 else it) for it in text)


class Page:
    """The page of a timetable, as text, with names of days and periods, or none, and what was proved of its cost, or None; or a sheet of it, by an
    option and its value."""

    def __init__(self, instance, table, style, days=(), periods=(), proved=None, sheet=None, older=None):
        self.older = older
        self.instance, self.table, self.style, self.sheet = instance, table, style, sheet
        self.day_names, self.period_names, self.proved = days, periods, proved
        self.names = {
            "course": [shown(it[0]) for it in instance.courses],
            "room": [shown(it[0]) for it in instance.rooms],
            "teacher": [shown(it) for it in instance.teachers],
            "curriculum": [shown(it[0]) for it in instance.curricula],
        }
        self.order = {
            kind: sorted(range(len(names)), key=lambda it: (names[it], it))
            for kind, names in [
                ("room", [it[0] for it in instance.rooms]),
                ("teacher", instance.teachers),
                ("curriculum", [it[0] for it in instance.curricula]),
            ]
        }
        self.at = {}
        for entry in table:
            self.at.setdefault(entry[2:], []).append(entry)
        self.of = [[it for it in table if it[0] == course] for course in range(len(instance.courses))]
        self.curriculum_of = {}
        for number, (_, members) in enumerate(instance.curricula):
            for course in members:
                self.curriculum_of.setdefault(course, number)

    def link(self, kind, number):
        return f'<a href="#{kind}{number}">{self.names[kind][number]}</a>'

    def week(self, kind, number):
        """The name of a room, a teacher or a curriculum; sheets have no links."""
        return f"<bdi>{self.names[kind][number]}</bdi>" if self.sheet else self.link(kind, number)

    def cell_link(self, kind, number, entry):
        return f'<a href="#{kind}{number}-{entry[2]}-{entry[3]}">{self.names["course"][entry[0]]}</a>'

    def day(self, day):
        return shown(self.day_names[day].encode()) if day < len(self.day_names) else f"Day {day + 1}"

    def period(self, period):
        return shown(self.period_names[period].encode()) if period < len(self.period_names) else str(period + 1)

    def when(self, day, period):
        word = "" if period < len(self.period_names) else "period "
        return f"{self.day(day)}, {word}{self.period(period)}"

    def when_link(self, kind, number, entry):
        return f'<a href="#{kind}{number}-{entry[2]}-{entry[3]}">{self.when(*entry[2:])}</a>'

    def course_and_teacher(self, course):
        return f"{self.link('course', course)}, {self.teacher_link(course)}"

    def teacher_link(self, course):
        return self.link("teacher", self.instance.teacher_of[course])

    # -- what changed

    def place(self, entry, when):
        return f"{when}, in {self.link('room', entry[1])}"

    def older_place(self, entry):
        return self.place(entry, self.when(*entry[2:]))

    def newer_place(self, entry):
        return self.place(entry, self.when_link("room", entry[1], entry))

    def changes_text(self):
        moved, rooms, gone, added = changes_of(self.older, self.table)
        items = [(it[0], "moved from", self.older_place(it) + " to " + self.newer_place(to)) for it, to in moved]
        items += [(it[0], "changed its room from", self.older_place(it) + " to " + self.newer_place(to)) for it, to in rooms]
        items += [(it[0], "is gone from", self.older_place(it)) for it in gone]
        items += [(it[0], "was added on", self.newer_place(it)) for it in added]
        text = f'<details open class="changes" id="changes">\n<summary><h2>Changes <small>moved {len(moved)}, rooms {len(rooms)}</small></h2></summary>\n'
        lines = "".join(f"<li>{self.link('course', course)} {words} {places}</li>\n" for course, words, places in items)
        return text + (f"<ul>\n{lines}</ul>\n" if items else "<p>No lecture moved.</p>\n") + "</details>\n"

    def quoted_when(self, day, period):
        one = quoted(self.day_names[day].encode()) if day < len(self.day_names) else f"Day {day + 1}"
        other = quoted(self.period_names[period].encode()) if period < len(self.period_names) else f"period {period + 1}"
        return f"{one}, {other}"

    def mark_rules(self):
        moved, rooms, _, _ = changes_of(self.older, self.table)
        text = FIXED_RULES
        for (_, old, *when), (course, room, day, period) in moved + rooms:
            text += f'#room{room}-{day}-{period} .lecture:has([href="#course{course}"]), '
            text += f'[id$="-{day}-{period}"] .lecture:has([href="#course{course}"] + [href="#room{room}"]) '
            text += f'{{ outline: 2px dotted var(--link); --from: "from {self.quoted_when(*when)}, in {quoted(self.instance.rooms[old][0])}"; }}\n'
        return text

    # -- what is counted

    def is_isolated(self, members, entry):
        beside = [(entry[2], entry[3] - 1), (entry[2], entry[3] + 1)]
        return not any(it[0] in members for place in beside for it in self.at.get(place, []))

    def unseated(self, entry):
        return max(0, self.instance.courses[entry[0]][4] - self.instance.rooms[entry[1]][1])

    def rooms_of(self, course):
        return sorted({it[1] for it in self.of[course]})

    def periods_of(self, course):
        return len({it[2:] for it in self.of[course]})

    def days_of(self, course):
        return len({it[2] for it in self.of[course]})

    def lectures_off(self, course):
        placed = len(self.of[course])
        return abs(self.instance.courses[course][2] - placed) + placed - self.periods_of(course)

    def missing_days(self, course):
        return max(0, self.instance.courses[course][3] - self.days_of(course))

    def other_rooms(self, course):
        return max(0, len(self.rooms_of(course)) - 1)

    # -- lectures and grids

    def marks(self, kind, number, entry):
        course, room, day, period = entry
        here = self.at[day, period]
        marks = ""
        if any(self.instance.conflict(it[0], course) for it in here):
            marks += " <strong>conflict</strong>"
        if (course, day, period) in self.instance.bars:
            marks += " <strong>unavailable</strong>"
        if sum(it[1] == room for it in here) > 1:
            marks += " <strong>room taken</strong>"
        if sum(it[0] == course for it in here) > 1:
            marks += " <strong>repeated</strong>"
        if kind == "curriculum" and self.is_isolated(self.instance.curricula[number][1], entry):
            marks += " <mark>isolated</mark>"
        if self.unseated(entry):
            marks += f" <mark>no seat: {self.unseated(entry)}</mark>"
        if self.of[course][0][1] != room:
            marks += " <mark>other room</mark>"
        return marks

    def hue(self, curriculum):
        return "" if curriculum is None else f" hue{curriculum % HUES}"

    def lecture(self, kind, number, entry):
        room, teacher = self.week("room", entry[1]), self.week("teacher", self.instance.teacher_of[entry[0]])
        beside = {"room": teacher, "teacher": room, "curriculum": room + " " + teacher}[kind]
        name = self.names["course"][entry[0]]
        course = f'<bdi class="course">{name}</bdi>' if self.sheet else f'<a class="course" href="#course{entry[0]}">{name}</a>'
        return (
            f'<div class="lecture{self.hue(self.curriculum_of.get(entry[0]))}"><span class="when">{self.when(*entry[2:])}</span> '
            f"{course} {beside}{self.marks(kind, number, entry)}</div>\n"
        )

    def has(self, kind, number, entry):
        if kind == "room":
            return entry[1] == number
        if kind == "teacher":
            return self.instance.teacher_of[entry[0]] == number
        return entry[0] in self.instance.curricula[number][1]

    def owns(self, kind, number, course):
        """Whether a week shows the unavailable periods of a course."""
        if kind == "teacher":
            return self.instance.teacher_of[course] == number
        return kind == "curriculum" and course in self.instance.curricula[number][1]

    def cell(self, kind, number, day, period):
        text = f'<td id="{kind}{number}-{day}-{period}">\n'
        for course, name in enumerate(self.names["course"]):
            if self.owns(kind, number, course) and (course, day, period) in self.instance.bars:
                text += f'<div class="barred"><span class="when">{self.when(day, period)}</span> not {name}</div>\n'
        for entry in self.at.get((day, period), []):
            if self.has(kind, number, entry):
                text += self.lecture(kind, number, entry)
        return text + "</td>\n"

    def paper_name(self):
        return '<span class="paper">, timetable' + "".join(" " + shown(it) for it in self.instance.name) + "</span></h3>\n"

    def grid(self, kind, number):
        days, periods = range(self.instance.days), range(self.instance.periods)
        seats = f" {self.instance.rooms[number][1]} seats" if kind == "room" else ""
        text = f'<div class="grid" id="{kind}{number}">\n<h3 id="{kind}{number}-name">'
        text += f"{kind.capitalize()} <b>{self.names[kind][number]}</b>{seats}{self.paper_name()}"
        text += f'<table aria-labelledby="{kind}{number}-name">\n<thead>\n<tr>\n<th scope="col">Period</th>\n'
        text += "".join(f'<th scope="col">{self.day(day)}</th>\n' for day in days) + "</tr>\n</thead>\n<tbody>\n"
        for period in periods:
            cells = "".join(self.cell(kind, number, day, period) for day in days)
            text += f'<tr>\n<th scope="row">{self.period(period)}</th>\n{cells}</tr>\n'
        return text + "</tbody>\n</table>\n</div>\n"

    def room_row(self, day, room):
        text = f'<tr>\n<th scope="row">{self.week("room", room)}</th>\n'
        for period in range(self.instance.periods):
            here = [it for it in self.at.get((day, period), []) if it[1] == room]
            text += "<td>\n" + "".join(self.lecture("room", room, it) for it in here) + "</td>\n"
        return text + "</tr>\n"

    def day_grid(self, day):
        text = f'<div class="grid day" id="day{day}">\n<h3 id="day{day}-name"><b>{self.day(day)}</b>{self.paper_name()}'
        text += f'<table aria-labelledby="day{day}-name">\n<thead>\n<tr>\n<th scope="col">Room</th>\n'
        text += "".join(f'<th scope="col">{self.period(it)}</th>\n' for it in range(self.instance.periods))
        text += "</tr>\n</thead>\n<tbody>\n" + "".join(self.room_row(day, it) for it in self.order["room"])
        return text + "</tbody>\n</table>\n</div>\n"

    def days_text(self):
        days = range(self.instance.days)
        text = f'<details open id="daily">\n<summary><h2>Days <small>{len(days)}</small></h2></summary>\n<ul class="index">\n'
        text += "".join(f'<li><a href="#day{it}">{self.day(it)}</a></li>\n' for it in days)
        return text + '</ul>\n<div class="grids">\n' + "".join(self.day_grid(it) for it in days) + "</div>\n</details>\n"

    def section(self, ident, kind):
        numbers = self.order[kind]
        text = f'<details open id="{ident}">\n<summary><h2>{ident.capitalize()} <small>{len(numbers)}</small></h2></summary>\n'
        hues = {it: self.hue(it if kind == "curriculum" else None) for it in numbers}
        text += '<ul class="index">\n' + "".join(f'<li class="week{hues[it]}">{self.link(kind, it)}</li>\n' for it in numbers)
        text += '</ul>\n<div class="grids">\n' + "".join(self.grid(kind, it) for it in numbers)
        return text + "</div>\n</details>\n"

    # -- the eight counts: word, title, meaning, and what each item adds and tells

    def course_items(self, adds, tells):
        numbers = range(len(self.instance.courses))
        return [(adds(it), self.course_and_teacher(it) + ", " + tells(it)) for it in numbers if adds(it)]

    def pairs(self, at_odds, adds):
        for place, entry in enumerate(self.table):
            odds = [it for it in self.table[place + 1 :] if it[2:] == entry[2:] and at_odds(entry, it)]
            if odds:
                more = f" and {len(odds) - 1} more" if len(odds) > 1 else ""
                yield adds(len(odds)), (
                    f"{self.with_teacher(entry)}, {self.when(*entry[2:])}, in {self.link('room', entry[1])}, "
                    f"with {self.with_teacher(odds[0])}{more}"
                )

    def with_teacher(self, entry):
        return f"{self.cell_link('room', entry[1], entry)}, {self.teacher_link(entry[0])}"

    def barred(self, entry):
        teacher = self.instance.teacher_of[entry[0]]
        return f"{self.cell_link('teacher', teacher, entry)}, {self.teacher_link(entry[0])}, {self.when(*entry[2:])}"

    def crowded(self):
        for course, (*_, students) in enumerate(self.instance.courses):
            entries = [it for it in self.of[course] if self.unseated(it)]
            lines = "".join(
                f"<li>{self.unseated(it)} {self.when_link('room', it[1], it)}, in {self.link('room', it[1])}, "
                f"{self.instance.rooms[it[1]][1]} seats</li>\n"
                for it in entries
            )
            if entries:
                told = f"{self.course_and_teacher(course)}, {students} students\n<ul>\n{lines}</ul>\n"
                yield sum(self.unseated(it) for it in entries), told

    def alone(self):
        for number, (_, members) in enumerate(self.instance.curricula):
            entries = [it for it in self.table if it[0] in members and self.is_isolated(members, it)]
            lines = "".join(
                f"<li>{self.when_link('curriculum', number, it)}, {self.course_and_teacher(it[0])}, in {self.link('room', it[1])}</li>\n"
                for it in entries
            )
            if entries:
                yield 2 * len(entries), f"{self.link('curriculum', number)}\n<ul>\n{lines}</ul>\n"

    def lists(self):
        courses = self.instance.courses
        bars = [it for it in self.table if (it[0], it[2], it[3]) in self.instance.bars]
        return [
            ("lectures", "Lectures", "missing, surplus, or two of a course in one period",
             self.course_items(self.lectures_off, lambda it: f"lectures {courses[it][2]}, placed {len(self.of[it])}, periods used {self.periods_of(it)}")),
            ("conflicts", "Conflicts", "pairs of one teacher or curriculum in one period",
             list(self.pairs(lambda one, other: self.instance.conflict(one[0], other[0]), lambda odds: odds))),
            ("availability", "Availability", "in a period unavailable for the course", [(1, self.barred(it)) for it in bars]),
            ("occupancy", "Room occupancy", "beside another lecture in a room and period",
             list(self.pairs(lambda one, other: one[1] == other[1], lambda odds: 1))),
            ("capacity", "Room capacity", "students without a seat", list(self.crowded())),
            ("days", "Working days", "5 for each day below a course's minimum",
             self.course_items(lambda it: 5 * self.missing_days(it), lambda it: f"on {self.days_of(it)} of {courses[it][3]} days")),
            ("compactness", "Compactness", "2 for each isolated lecture of a curriculum", list(self.alone())),
            ("stability", "Room stability", "rooms of a course beside its first",
             self.course_items(self.other_rooms, lambda it: f"in {len(self.rooms_of(it))} rooms")),
        ]

    def counts_table(self, ident, title, lists, total):
        text = f'<table class="counts" id="{ident}">\n<caption>{title}</caption>\n<tbody>\n'
        for _, name, meaning, items in lists:
            count = sum(it[0] for it in items)
            row = "<tr>" if count else '<tr class="none">'
            text += f'{row}<th scope="row">{name}</th><td>{count}</td><td>{meaning}</td></tr>\n'
        name, count, meaning = total
        text += f'</tbody>\n<tfoot>\n<tr><th scope="row">{name}</th><td>{count}</td><td>{meaning}</td></tr>\n'
        return text + "</tfoot>\n</table>\n"

    # -- the whole

    def proved_text(self, hard, cost):
        """What was proved: None for nothing, "none" if no feasible timetable exists, or a bound."""
        if self.proved is None:
            return ""
        if self.proved == "none":
            told = "no feasible timetable exists (proved)"
        elif hard:
            told = f"no feasible timetable costs less than {self.proved} (proved)"
        elif cost == self.proved:
            told = "proved best"
        else:
            told = f"no feasible timetable costs less than {self.proved} (proved), gap {max(0, cost - self.proved)}"
        return f'<p class="proved">{told}</p>\n'

    def course_row(self, course):
        _, _, lectures, days, students = self.instance.courses[course]
        marks = ""
        for adds, words in [
            (self.lectures_off(course), "strong>lectures"),
            (self.missing_days(course), "mark>missing days"),
            (self.other_rooms(course), "mark>other rooms"),
        ]:
            if adds:
                marks += f" <{words}: {adds}</{words.split('>')[0]}>"
        rooms = "".join(" " + self.link("room", it) for it in self.rooms_of(course))
        cells = [self.teacher_link(course), students, lectures, len(self.of[course]), days, self.days_of(course), rooms, marks]
        text = f'<tr id="course{course}">\n<th scope="row">{self.names["course"][course]}</th>\n'
        return text + "".join(f"<td>{it}</td>\n" for it in cells) + "</tr>\n"

    def courses_text(self):
        heads = ["Course", "Teacher", "Students", "Lectures", "Placed", "Least days", "Days", "Rooms", "Marks"]
        text = f'<details open id="courses">\n<summary><h2>Courses <small>{len(self.of)}</small></h2></summary>\n'
        text += '<div class="list">\n<table>\n<caption>Courses</caption>\n<thead>\n<tr>\n'
        text += "".join(f'<th scope="col">{it}</th>\n' for it in heads) + "</tr>\n</thead>\n<tbody>\n"
        text += "".join(self.course_row(it) for it in range(len(self.of)))
        return text + "</tbody>\n</table>\n</div>\n</details>\n"

    def name(self):
        return "".join(" " + shown(it) for it in self.instance.name)

    def head(self):
        rules = "" if self.older is None else self.mark_rules()
        return (
            '<!DOCTYPE html>\n<html lang="en">\n<head>\n<meta charset="utf-8">\n'
            '<meta name="viewport" content="width=device-width, initial-scale=1">\n'
            '<meta name="color-scheme" content="light dark">\n'
            f"<title>Timetable{self.name()}</title>\n<style>\n{self.style}{rules}</style>\n</head>\n<body>\n"
        )

    def legend(self):
        return (
            '<p class="legend">In the grids: <strong>broken</strong> breaks a hard rule, <mark>costs</mark> costs, '
            '<span class="barred">not c</span> a period that is unavailable for course c. '
            "A lecture's bar has the colour of the first curriculum that has its course."
        )

    def sheet_text(self):
        option, value = self.sheet
        text = self.head() + f"<main>\n<header>\n<h1>Timetable<b>{self.name()}</b></h1>\n</header>\n{self.legend()}</p>\n"
        if option == "--week":
            names = {"room": [it[0] for it in self.instance.rooms], "teacher": self.instance.teachers, "curriculum": [it[0] for it in self.instance.curricula]}
            found = [(kind, names[kind].index(value.encode())) for kind in names if value.encode() in names[kind]]
            text += '<div class="grids">\n' + "".join(self.grid(*it) for it in found) + "</div>\n"
        elif value == "days":
            text += self.days_text()
        else:
            text += self.section(value, {"rooms": "room", "teachers": "teacher", "curricula": "curriculum"}[value])
        return text + "</main>\n</body>\n</html>\n"

    def text(self):
        if self.sheet:
            return self.sheet_text()
        instance, lists = self.instance, self.lists()
        counts = [sum(it[0] for it in items) for _, _, _, items in lists]
        hard, cost = sum(counts[:4]), sum(counts[4:])
        name = self.name()
        text = self.head() + (
            '<a class="skip" href="#rooms">Skip to the weeks</a>\n<nav aria-label="Contents">\n<ul>\n'
        )
        for part in ["summary", "rooms", "teachers", "curricula", "days", "courses"]:
            text += f'<li><a href="#{"daily" if part == "days" else part}">{part.capitalize()}</a></li>\n'
        text += f'</ul>\n</nav>\n<main>\n<header id="summary">\n<h1>Timetable<b>{name}</b></h1>\n<p class="verdict">'
        text += f"<strong>not feasible</strong> hard {hard}, cost {cost}" if hard else f"<b>feasible</b> cost {cost}"
        text += "</p>\n" + self.proved_text(hard, cost)
        text += (
            f'<p class="size">courses {len(instance.courses)}, placed {len(self.table)}, rooms {len(instance.rooms)}, '
            f"teachers {len(instance.teachers)}, curricula {len(instance.curricula)}, days {instance.days}, "
            f'periods a day {instance.periods}</p>\n</header>\n<div class="tables">\n'
        )
        text += self.counts_table("hard", "Hard rules", lists[:4], ("Hard", hard, "0 in a feasible timetable"))
        text += self.counts_table("cost", "Costs", lists[4:], ("Cost", cost, "less is better"))
        text += "</div>\n" + self.legend() + (
            " A rule that is not in the tables counts 0. <span class=\"files\">The files count days and periods from 0.</span></p>\n"
        )
        text += "" if self.older is None else self.changes_text()
        for at, (ident, title, _, items) in enumerate(lists):
            if counts[at]:
                kind, mark = ("broken", "strong") if at < 4 else ("costs", "mark")
                text += f'<details open class="{kind}" id="{ident}">\n'
                text += f"<summary><h2>{title} <{mark}>{counts[at]}</{mark}></h2></summary>\n<ul>\n"
                text += "".join(f'<li style="order:-{adds}"><b>{adds}</b> {told}</li>\n' for adds, told in items) + "</ul>\n</details>\n"
        text += self.section("rooms", "room") + self.section("teachers", "teacher") + self.section("curricula", "curriculum")
        return text + self.days_text() + self.courses_text() + "</main>\n</body>\n</html>\n"


# ---- what any page must be


class Tags(html.parser.HTMLParser):
    def __init__(self):
        super().__init__()
        self.open, self.ids, self.links, self.faults = [], [], [], []

    def handle_starttag(self, tag, attributes):
        if tag in ("script", "link", "img", "iframe", "object", "form"):
            self.faults.append(f"tag {tag}")
        if tag != "meta":
            self.open.append(tag)
        for name, value in attributes:
            if name == "id":
                self.ids.append(value)
            elif name == "href":
                self.links.append(value)
            elif name == "src" or name.startswith("on") or (name == "style" and not re.fullmatch(r"order:-\d+", value)):
                self.faults.append(f"attribute {name}")

    def handle_endtag(self, tag):
        if not self.open or self.open.pop() != tag:
            self.faults.append(f"end of {tag} at {self.getpos()}")


def faults_of(text, is_sheet=False):
    """What is wrong with a page or a sheet, whatever it shows."""
    tags = Tags()
    tags.feed(text)
    tags.close()
    faults, ids = list(tags.faults), set(tags.ids)
    faults += [f"open {it}" for it in tags.open]
    if len(ids) != len(tags.ids):
        faults.append("an id twice")
    faults += [f"no target {it}" for it in tags.links if not (it.startswith("#") and it[1:] in ids)][:5]
    if re.search(r"url\(|@import|https?:", text):
        faults.append("something from outside")
    lists = re.findall(
        r'<details open class="\w+" id="(\w+)">\n<summary><h2>[\w ]+ <\w+>(\d+)</\w+></h2></summary>\n<ul>\n(.*?)</ul>\n</details>', text, re.S
    )
    for ident, count, items in lists:
        if sum(map(int, re.findall(r"^<li style=\"order:-\d+\"><b>(\d+)</b>", items, re.M))) != int(count):
            faults.append(f"the items of {ident} don't add up")
    style = text[text.index("<style>") : text.index("</style>")]
    faults += [f"no colour of hue{it}" for it in range(HUES) if style.count(f".hue{it} {{") != 2]
    faults += [f"too pale: {it}" for it in pale_hues(style)]
    if re.search("[\x00-\x09\x0b-\x1f\x7f-\x9f]", text):
        faults.append("a control")
    if is_sheet:
        return faults
    rooms = text[text.index('<details open id="rooms">') : text.index('<details open id="teachers">')]
    count = lambda title: int(re.search(rf"{title}</th><td>(\d+)", text).group(1))
    if sum(map(int, re.findall(r"<mark>no seat: (\d+)</mark>", rooms))) != count("Room capacity"):
        faults.append("the marks of seats don't add up")
    if 2 * text.count("<mark>isolated</mark>") != count("Compactness"):
        faults.append("the isolated lectures don't add up")
    return faults


def brightness(colour):
    """The relative luminance of a colour, as WCAG defines it."""
    parts = [int(colour[at : at + 2], 16) / 255 for at in (1, 3, 5)]
    red, green, blue = [it / 12.92 if it <= 0.04045 else ((it + 0.055) / 1.055) ** 2.4 for it in parts]
    return 0.2126 * red + 0.7152 * green + 0.0722 * blue


def pale_hues(style):
    """The hues whose bars have too little contrast with what is behind them, light or dark."""
    pale, dark = [], style.index("@media (prefers-color-scheme: dark)")
    for part in (style[:dark], style[dark:]):
        grounds = dict(re.findall(r"--(\w+): (#[0-9a-f]{6})", part))
        for hue, colour in re.findall(r"\.hue(\d+) \{ --hue: (#[0-9a-f]{6})", part):
            for ground in ("tile", "costfill", "badtint", "ground"):
                low, high = sorted([brightness(colour), brightness(grounds[ground])])
                if (high + 0.05) / (low + 0.05) < LEAST_CONTRAST:
                    pale.append(f"hue{hue} on {ground}")
    return pale


def style_of():
    with open(TOP + "/crates/tt_page/src/style.rt", encoding="utf-8") as file:
        return re.search(r'r#"(.*)"#;', file.read(), re.S).group(1)


def look(name, instance, solution, folder, days=(), periods=(), sheet=(), older=None):
    """The faults of one case's page."""
    out = os.path.join(folder, name + ".html")
    options = ["--days", ",".join(days), "--periods", ",".join(periods)] if days else []
    options += [*sheet, *(["--older", older] if older else [])]
    done = subprocess.run([TOP + "/tt", "page", instance, solution, out, *options], capture_output=True, text=True)
    if done.returncode:
        return [f"status {done.returncode}: {done.stderr.strip()}"]
    with open(out, "rb") as file:
        data = file.read()
    with open(instance, "rb") as first, open(solution, "rb") as second:
        read = Instance(first.read())
        table, before = table_of(read, second.read()), None
    if older:
        with open(older, "rb") as third:
            before = table_of(read, third.read())
    wanted = Page(read, table, style_of(), days, periods, sheet=sheet, older=before).text()
    try:
        text = data.decode("utf-8")
    except UnicodeDecodeError as fault:
        return [f"no UTF-8: {fault}"]
    faults = faults_of(text, bool(sheet))
    if text != wanted:
        lines = zip(text.split("\n"), wanted.split("\n"))
        faults.append(next((f"differs: {one!r} for {other!r}" for one, other in lines if one != other), "differs in length"))
    if len(data) > MOST_BYTES:
        faults.append(f"{len(data)} bytes")
    print(f"{name}: {len(data)} bytes, {len(data.splitlines())} lines")
    return faults


def long_week(days, folder):
    """The case of a week of so many days, which breaks rules on the first day and the last; its files are put into the folder."""
    last = days - 1
    head = f"Name: {days} days Courses: 3 Rooms: 2 Days: {days} Periods_per_day: 3 Curricula: 1 Constraints: 1"
    courses = f"COURSES: a s {days} {days} 12 b t {days} {days} 9 c s 2 2 9"
    lectures = [f"a R {day} 0\nb S {day} {2 if day % 2 else 1}\n" for day in range(days)]
    name = f"days{days}"
    path = os.path.join(folder, name)
    with open(path + ".ctt", "w", encoding="utf-8") as file:
        file.write(f"{head} {courses} ROOMS: R 10 S 9 CURRICULA: q 2 a b UNAVAILABILITY_CONSTRAINTS: b {last} 2 END.\n")
    with open(path + ".sol", "w", encoding="utf-8") as file:
        file.write("".join(lectures) + f"c S 0 0\nc S {last} 0\n")
    return name, path + ".ctt", path + ".sol"


# ---- pictures


def take_pictures(browser, name, folder):
    """Takes the pictures of a page; returns the names of those that weren't made."""
    page = "file://" + os.path.abspath(os.path.join(folder, name + ".html"))
    common = [browser, "--headless", "--no-sandbox", "--disable-gpu", "--hide-scrollbars"]
    wanted = {f"{name}-{width}.png": [f"--window-size={width},1700", "--screenshot"] for width in (1280, 768, 390)}
    wanted[f"{name}.pdf"] = ["--no-pdf-header-footer", "--print-to-pdf"]
    for file, (option, kind) in wanted.items():
        path = os.path.join(folder, file)
        if os.path.exists(path):
            os.remove(path)
        subprocess.run([*common, f"{kind}={path}", option, page], capture_output=True)
    return [file for file in wanted if not os.path.exists(os.path.join(folder, file))]


def main():
    folder = sys.argv[1] if len(sys.argv) > 1 else TOP + "/out/pages"
    os.makedirs(folder, exist_ok=True)
    failed = 0
    browser = shutil.which("chromium") or shutil.which("chromium-browser") or shutil.which("google-chrome")
    cases = CASES + [long_week(days, folder) for days in LONG_WEEKS]
    for name, instance, solution, *named in cases:
        faults = look(name, instance, solution, folder, *named)
        if browser and os.path.exists(os.path.join(folder, name + ".html")):
            faults += [f"no picture {it}" for it in take_pictures(browser, name, folder)]
        failed += bool(faults)
        for fault in faults:
            print(f"  {name}: {fault}")
    if not browser:
        print("no Chromium: no pictures were taken")
    print(f"{len(cases) - failed} passed, {failed} failed")
    return 1 if failed else 0


if __name__ == "__main__":
    sys.exit(print(__doc__) if sys.argv[1:] == ["--help"] else main())
