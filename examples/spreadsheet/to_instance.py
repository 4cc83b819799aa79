#!/usr/bin/env python3
"""Writes an instance file from the four tables of a spreadsheet.

    python3 to_instance.py FOLDER [--name NAME] [--days 5] [--periods 4] > INSTANCE

FOLDER has courses.csv, rooms.csv, curricula.csv and unavailability.csv, as a spreadsheet program saves them. The first line of
each names the columns; unavailability.csv may be missing. A row of it has a course or a teacher, which stands for all courses of that teacher;
without a period it stands for the whole day, and without a day for the period of each day. In place of their numbers --days and --periods may
have the names that the tables give to days and periods, as --days Montag,Dienstag,Mittwoch --periods 8:00,10:00. If something is wrong, nothing
is written: each problem is one line on standard error, with its file, line and column, and how many more lines have it, and the exit status is 2.
"""
import argparse
import csv
import io
import os
import sys
import unicodedata

COLUMNS = {
    "courses.csv": ("course", "teacher", "lectures", "days", "students"),
    "rooms.csv": ("room", "seats"),
    "curricula.csv": ("curriculum", "course"),
    "unavailability.csv": ("day", "period"),
    "closed.csv": ("room", "day", "period"),
    "holds.csv": ("course", "room", "day", "period"),
    "course_rooms.csv": ("course", "room"),
}
# Of these tables the columns may be empty that a row need not have.
FREE = {
    "unavailability.csv": ("day", "period"),
    "closed.csv": ("room", "day", "period"),
    "holds.csv": ("room", "day", "period"),
}
WEEKDAYS = ("monday", "tuesday", "wednesday", "thursday", "friday", "saturday", "sunday")
MOST = {"lectures": 4_096, "days": 512, "students": 1_000_000, "seats": 1_000_000}
MOST_ROWS = {"courses": 2_048, "rooms": 512, "curricula": 8_192, "unavailable periods": 65_536, "lectures together": 4_096}

# The lines that have each problem, by its file, its column and its text.
problems = {}


def report(file, line, column, text):
    problems.setdefault((file, column, text), []).append(line)


def problem_lines():
    """A line of text for each problem, in the order in which they were found."""
    for (file, column, text), lines in problems.items():
        place = file + (f", line {lines[0]}" if lines[0] else "") + (f", column {column}" if column else "")
        more = f" (and in {len(lines) - 1} more lines)" if len(lines) > 1 else ""
        yield f"{place}: {text}{more}"


def word(text):
    """A name as one word, since an instance file separates words by spaces; letters with accents are the same however they are coded."""
    return unicodedata.normalize("NFC", "_".join(text.split()))


def read_rows(folder, file):
    """Yields the rows of a table: the number of the line, and the text of each column."""
    try:
        with open(os.path.join(folder, file), encoding="utf-8-sig", newline="") as opened:
            text = opened.read()
    except OSError as error:
        report(file, None, None, f"cannot be read: {error.strerror}")
        return
    except UnicodeDecodeError:
        report(file, None, None, "is not in UTF-8; save it as 'CSV UTF-8'")
        return
    first = text.split("\n", 1)[0]
    rows = csv.reader(io.StringIO(text, newline=""), delimiter=";" if first.count(";") > first.count(",") else ",")
    header = [cell.strip().lower() for cell in next(rows, [])]
    missing = [column for column in COLUMNS[file] if column not in header]
    if missing:
        report(file, 1, None, f"the first line has to name the columns {', '.join(COLUMNS[file])}; {', '.join(missing)} is missing")
        return
    line = rows.line_num + 1
    for row in rows:
        cells = {column: word(row[at]) if at < len(row) else "" for at, column in enumerate(header)}
        if any(cells.values()):
            for column in COLUMNS[file]:
                if not cells[column] and column not in FREE.get(file, ()):
                    report(file, line, column, "is empty")
            yield line, cells
        line = rows.line_num + 1


def number(file, line, column, text, most):
    """The number of a cell, or None if it is none from 0 to most; an empty cell is reported already."""
    if not text:
        return None
    if not (text.isascii() and text.isdigit()):
        report(file, line, column, f"'{text}' is not a whole number, such as 3")
    elif len(text.lstrip("0")) > len(str(most)) or int(text) > most:
        report(file, line, column, f"{text} is too large; at most {most} is allowed")
    else:
        return int(text)
    return None


def add_once(file, line, column, name, lines):
    """Whether the name is new; if not, says where it was first."""
    if name and name in lines:
        report(file, line, column, f"'{name}' is in line {lines[name]} already")
        return False
    lines[name] = line
    return True


def read_records(folder, file):
    """The records of courses or rooms: their names, and the words that follow them in the instance."""
    name, *others = COLUMNS[file]
    records, lines = [], {}
    for line, cells in read_rows(folder, file):
        words = [cells[name]]
        for column in others:
            value = cells[column]
            words.append(value if column == "teacher" else number(file, line, column, value, MOST[column]))
        if add_once(file, line, name, cells[name], lines):
            records.append(words)
    return records


def check_course(file, line, name, courses):
    """Reports a course that isn't in courses.csv, if any course could be read there."""
    if name and courses and name not in courses:
        report(file, line, "course", f"there is no course '{name}' in courses.csv")


def read_curricula(folder, courses):
    file, curricula = "curricula.csv", {}
    for line, cells in read_rows(folder, file):
        check_course(file, line, cells["course"], courses)
        members = curricula.setdefault(cells["curriculum"], [])
        if cells["course"] not in members:
            members.append(cells["course"])
    return curricula


def named(text, names):
    """The number of a name among those given, or None."""
    found = [at for at, name in enumerate(names) if word(name).casefold() == text.casefold()]
    return found[0] if found else None


def day_of(file, line, text, days, day_names):
    """The number of a day: one of the names given, the name of a weekday, where Monday is 0, or its number."""
    if not text:
        return None
    if named(text, day_names) is not None:
        return named(text, day_names)
    names = [at for at, name in enumerate(WEEKDAYS) if len(text) >= 2 and name.startswith(text.lower())]
    if names and names[0] >= days:
        report(file, line, "day", f"'{text}' is day {names[0]}, but the week has only the days 0 to {days - 1}")
        return None
    if names:
        return names[0]
    if text.isascii() and text.isdigit():
        return number(file, line, "day", text, days - 1)
    report(file, line, "day", f"'{text}' is neither a day of the week nor a number from 0 to {days - 1}")
    return None


def period_of(file, line, text, periods, period_names):
    """The number of a period: one of the names given, or its number."""
    if named(text, period_names) is not None:
        return named(text, period_names)
    return number(file, line, "period", text, periods - 1)


def courses_of_row(file, line, cells, teachers):
    """The courses for which a row stands: that of its course, or all of its teacher."""
    course, teacher = cells.get("course", ""), cells.get("teacher", "")
    if bool(course) == bool(teacher):
        report(file, line, None, "has to name a course or a teacher" + (", not both" if course else ""))
        return []
    if course:
        check_course(file, line, course, teachers)
        return [course]
    courses = [name for name, its in teachers.items() if its == teacher]
    if not courses and teachers:
        report(file, line, "teacher", f"there is no teacher '{teacher}' in courses.csv")
    return courses


def numbers_of(number, count):
    """A number, or all below a count if there is none."""
    return range(count) if number is None else [number]


def read_unavailability(folder, teachers, days, periods):
    """The periods in which courses can't meet; days and periods are each a number and their names. Each course has its teacher in teachers."""
    file, found = "unavailability.csv", {}
    if not os.path.lexists(os.path.join(folder, file)):
        return []
    for line, cells in read_rows(folder, file):
        courses = courses_of_row(file, line, cells, teachers)
        if not cells["day"] and not cells["period"]:
            report(file, line, None, "has neither a day nor a period")
            continue
        day = day_of(file, line, cells["day"], *days)
        period = period_of(file, line, cells["period"], *periods)
        for course in courses:
            for each_day in numbers_of(day, days[0]):
                for each_period in numbers_of(period, periods[0]):
                    found[course, each_day, each_period] = None
    return list(found)


def check_sizes(courses, rooms, curricula, bars):
    lectures = sum(words[2] or 0 for words in courses)
    for what, count in zip(MOST_ROWS, (len(courses), len(rooms), len(curricula), len(bars), lectures)):
        if count > MOST_ROWS[what]:
            report("all files", None, None, f"{count} {what} are too many; at most {MOST_ROWS[what]} are allowed")


def instance_text(name, days, periods, courses, rooms, curricula, bars):
    lines = [f"Name: {name}", f"Courses: {len(courses)}", f"Rooms: {len(rooms)}", f"Days: {days}", f"Periods_per_day: {periods}",
             f"Curricula: {len(curricula)}", f"Constraints: {len(bars)}", "", "COURSES:"]
    lines += [" ".join(map(str, words)) for words in courses]
    lines += ["", "ROOMS:"] + [" ".join(map(str, words)) for words in rooms]
    lines += ["", "CURRICULA:"] + [" ".join([group, str(len(members)), *members]) for group, members in curricula.items()]
    lines += ["", "UNAVAILABILITY_CONSTRAINTS:"] + [" ".join(map(str, bar)) for bar in bars]
    return "\n".join(lines + ["", "END.", ""])


def counted(text):
    """A number of days or of periods and their names, if names are given."""
    if text.isascii() and text.isdigit():
        return int(text), []
    names = text.split(",")
    if not all(word(name) for name in names) or len({word(name).casefold() for name in names}) < len(names):
        raise argparse.ArgumentTypeError("a number, or names that differ, separated by commas")
    return len(names), names


def parser_of(description):
    """A parser of a folder and the week's days and periods."""
    parser = argparse.ArgumentParser(description=description)
    parser.add_argument("folder")
    parser.add_argument("--days", type=counted, default="5", help="how many days the week has, 1 to 7, or their names (default: 5)")
    parser.add_argument("--periods", type=counted, default="4", help="how many periods a day has, 1 to 64, or their names (default: 4)")
    return parser


def options_of(parser):
    """The options that were given, with days and periods within their limits."""
    options = parser.parse_args()
    for option, (count, _), most in (("--days", options.days, 7), ("--periods", options.periods, 64)):
        if not 1 <= count <= most:
            parser.error(f"{option}: {count} is not from 1 to {most}")
    return options


def main():
    parser = parser_of("Writes an instance file from the four tables of a spreadsheet.")
    parser.add_argument("--name", help="the name of the instance; that of the folder if none is given")
    options = options_of(parser)
    name = word(options.name or os.path.basename(os.path.abspath(options.folder)))
    courses = read_records(options.folder, "courses.csv")
    rooms = read_records(options.folder, "rooms.csv")
    teachers = {words[0]: words[1] for words in courses}
    curricula = read_curricula(options.folder, teachers)
    bars = read_unavailability(options.folder, teachers, options.days, options.periods)
    check_sizes(courses, rooms, curricula, bars)
    if problems:
        print("\n".join(problem_lines()), file=sys.stderr)
        return 2
    text = instance_text(name, options.days[0], options.periods[0], courses, rooms, curricula, bars)
    sys.stdout.buffer.write(text.encode("utf-8"))
    return 0


if __name__ == "__main__":
    sys.exit(main())
