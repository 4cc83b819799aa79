#!/usr/bin/env python3
"""Shows a timetable as a table for a spreadsheet, or as a calendar of the term's first week.

    python3 from_solution.py INSTANCE SOLUTION --csv [--days Mon,Tue,Wed,Thu,Fri] [--periods 8:00,10:00,12:00,14:00] > week.csv
    python3 from_solution.py INSTANCE SOLUTION --ics --first-day 2027-02-01 --times 8:00,10:00,12:00,14:00 > week.ics

Day 0 of the instance is the first day, and the times are those at which its periods begin. Calendar programs take the times as local.
With --first-day and --times the table has dates and times too, and with --days and --periods the names of days and periods in place of their
numbers from 0. An underscore in a name is shown as a space. If something is wrong, it is one line on standard error, and the exit status
is 2. to_solution.py makes a solution of the table again.
"""
import argparse
import csv
import datetime
import os
import sys
import uuid

FOLD = 75
HEADER = ("Courses:", "Rooms:", "Days:", "Periods_per_day:", "Curricula:", "Constraints:")


class Wrong(Exception):
    """What is wrong with a file or an option, in plain words."""


def words_of(path):
    """The words of a file, which ASCII spaces separate; what isn't UTF-8 becomes U+FFFD."""
    try:
        with open(path, "rb") as file:
            return [part.decode("utf-8", "replace") for part in file.read().split()]
    except OSError as error:
        raise Wrong(f"{path}: cannot be read: {error.strerror}") from None


def shown(name):
    """A name as people read it, without control characters."""
    return "".join(" " if letter == "_" else letter if letter.isprintable() else "\ufffd" for letter in name)


def read_instance(path):
    """The instance's name, its days and periods, each course's teacher and number, each room's seats, and the curricula of each course."""
    words = words_of(path)
    try:
        head = words.index("Courses:")
        name = " ".join(words[1:head])
        size = {words[head + 2 * k]: int(words[head + 2 * k + 1]) for k in range(len(HEADER))}
        at = head + 2 * len(HEADER) + 1
        courses = {words[at + 5 * k]: (words[at + 5 * k + 1], k) for k in range(size["Courses:"])}
        at += 5 * size["Courses:"] + 1
        rooms = {words[at + 2 * k] for k in range(size["Rooms:"])}
        at += 2 * size["Rooms:"] + 1
        curricula = {course: [] for course in courses}
        for _ in range(size["Curricula:"]):
            count = int(words[at + 1])
            for course in dict.fromkeys(words[at + 2 : at + 2 + count]):
                curricula[course].append(words[at])
            at += 2 + count
        return name, size["Days:"], size["Periods_per_day:"], courses, rooms, curricula
    except (ValueError, IndexError, KeyError):
        raise Wrong(f"{path}: is not an instance; './tt validate' says what is wrong, and where") from None


def read_week(path, instance):
    """The lectures of a solution, by day, period, course and room."""
    _, days, periods, courses, rooms, _ = instance
    words = words_of(path)
    week = []
    for at in range(0, len(words), 4):
        place = f"{path}, lecture {at // 4 + 1}"
        if at + 4 > len(words):
            raise Wrong(f"{place}: a lecture has four words: course, room, day, period")
        course, room, day, period = words[at : at + 4]
        if course not in courses:
            raise Wrong(f"{place}: there is no course '{course}' in the instance")
        if room not in rooms:
            raise Wrong(f"{place}: there is no room '{room}' in the instance")
        for what, text, count in (("day", day, days), ("period", period, periods)):
            if not (text.isascii() and text.isdigit() and int(text) < count):
                raise Wrong(f"{place}: '{text}' is no {what} from 0 to {count - 1}")
        week.append((int(day), int(period), courses[course][1], course, room))
    return sorted(week)


def read_times(text, periods):
    """The times at which the periods begin, as hours and minutes."""
    try:
        times = [datetime.datetime.strptime(part.strip(), "%H:%M").time() for part in text.split(",")]
    except ValueError:
        raise Wrong("--times: times are written as 8:00,10:00,12:00,14:00") from None
    if len(times) < periods:
        raise Wrong(f"--times: a day has {periods} periods, and {len(times)} times were given")
    return times


def read_names(option, text, count):
    """The names of days or of periods, one for each, or None if none are given."""
    if text is None:
        return None
    names = [part.strip() for part in text.split(",")]
    if len(names) != count:
        raise Wrong(f"{option}: there are {count}, and {len(names)} names were given")
    if len({name.casefold() for name in names}) < count or not all(names):
        raise Wrong(f"{option}: two names are the same, or one is empty")
    return names


def begin_of(options, day, period):
    """When a period of the first week begins."""
    return datetime.datetime.combine(options.first_day + datetime.timedelta(days=day), options.times[period])


def barred(name):
    """A name behind an apostrophe if a spreadsheet would take it for a formula."""
    return "'" + name if name.startswith(("=", "+", "-", "@")) else name


def put_csv(out, instance, week, options):
    """Writes one line for each lecture, in the order of the week."""
    _, _, _, courses, _, curricula = instance
    dated = options.first_day is not None and options.times is not None
    text = (lambda name: barred(shown(name))) if options.no_formulas else shown
    rows = csv.writer(out)
    rows.writerow((["date", "begin", "end"] if dated else []) + ["day", "period", "course", "teacher", "room", "curricula"])
    for day, period, _, course, room in week:
        row = []
        if dated:
            begin = begin_of(options, day, period)
            end = begin + datetime.timedelta(minutes=options.minutes)
            row = [begin.date().isoformat(), begin.strftime("%H:%M"), end.strftime("%H:%M")]
        groups = "; ".join(map(text, curricula[course]))
        place = [options.days[day] if options.days else day, options.periods[period] if options.periods else period]
        rows.writerow(row + place + [text(course), text(courses[course][0]), text(room), groups])


def escaped(text):
    """A text as iCalendar writes it in a property."""
    return text.replace("\\", "\\\\").replace(";", "\\;").replace(",", "\\,")


def folded(line):
    """A line in pieces of at most 75 octets; each piece after the first begins with a space, and no letter is cut."""
    pieces, piece = [], ""
    for letter in line:
        if len((piece + letter).encode("utf-8")) > FOLD:
            pieces.append(piece)
            piece = " "
        piece += letter
    return "\r\n".join(pieces + [piece]) + "\r\n"


def stamp():
    """When the calendar is made: now, or SOURCE_DATE_EPOCH if that is set."""
    now = os.environ.get("SOURCE_DATE_EPOCH")
    made = datetime.datetime.now(datetime.timezone.utc) if now is None else datetime.datetime.fromtimestamp(int(now), datetime.timezone.utc)
    return made.strftime("%Y%m%dT%H%M%SZ")


def event_lines(name, options, made, place, times_before):
    """The lines of a lecture's event."""
    day, period, _, course, room, teacher, groups = place
    begin = begin_of(options, day, period)
    end = begin + datetime.timedelta(minutes=options.minutes)
    key = f"{name}/{course}/{times_before}/{options.first_day.isoformat()}"
    return [
        "BEGIN:VEVENT",
        f"UID:{uuid.uuid5(uuid.NAMESPACE_URL, 'tt:' + key)}",
        f"DTSTAMP:{made}",
        f"DTSTART:{begin:%Y%m%dT%H%M%S}",
        f"DTEND:{end:%Y%m%dT%H%M%S}",
        f"SUMMARY:{escaped(shown(course))}",
        f"LOCATION:{escaped(shown(room))}",
        f"DESCRIPTION:{escaped(shown(teacher))}" + (f"\\n{escaped('; '.join(map(shown, groups)))}" if groups else ""),
        "END:VEVENT",
    ]


def put_ics(out, instance, week, options):
    """Writes one event for each lecture of the first week."""
    name, _, _, courses, _, curricula = instance
    made, seen = stamp(), {}
    lines = ["BEGIN:VCALENDAR", "VERSION:2.0", "PRODID:-//tt//from_solution//EN", "CALSCALE:GREGORIAN"]
    for day, period, number, course, room in week:
        place = (day, period, number, course, room, courses[course][0], curricula[course])
        lines += event_lines(name, options, made, place, seen.get(course, 0))
        seen[course] = seen.get(course, 0) + 1
    for line in lines + ["END:VCALENDAR"]:
        out.write(folded(line))


def main():
    parser = argparse.ArgumentParser(description="Shows a timetable as a table for a spreadsheet, or as a calendar of the term's first week.")
    parser.add_argument("instance")
    parser.add_argument("solution")
    form = parser.add_mutually_exclusive_group(required=True)
    form.add_argument("--csv", action="store_true", help="a table with one line for each lecture")
    form.add_argument("--ics", action="store_true", help="an iCalendar file of the first week")
    parser.add_argument("--no-formulas", action="store_true", help="with --csv: an apostrophe before each name that looks like a formula")
    parser.add_argument("--days", metavar="NAME,..", help="the names of the days in the table")
    parser.add_argument("--periods", metavar="NAME,..", help="the names of the periods of a day in the table")
    parser.add_argument("--first-day", type=datetime.date.fromisoformat, metavar="YYYY-MM-DD", help="the date of day 0")
    parser.add_argument("--times", metavar="HH:MM,..", help="when the periods of a day begin")
    parser.add_argument("--minutes", type=int, default=90, help="how long a lecture is (default: 90)")
    options = parser.parse_args()
    if options.ics and (options.first_day is None or options.times is None):
        parser.error("--ics needs --first-day and --times")
    out = open(sys.stdout.fileno(), "w", encoding="utf-8", newline="", closefd=False)
    try:
        instance = read_instance(options.instance)
        week = read_week(options.solution, instance)
        options.days = read_names("--days", options.days, instance[1])
        options.periods = read_names("--periods", options.periods, instance[2])
        if options.times is not None:
            options.times = read_times(options.times, instance[2])
        (put_csv if options.csv else put_ics)(out, instance, week, options)
        out.flush()
    except Wrong as wrong:
        print(wrong, file=sys.stderr)
        return 2
    return 0


if __name__ == "__main__":
    sys.exit(main())
