#!/usr/bin/env python3
"""Writes a file of wishes from the tables of a spreadsheet.

    python3 to_wishes.py FOLDER [--days 5] [--periods 4] > WISHES

FOLDER has courses.csv and rooms.csv, and any of these tables, whose columns may be empty where a row is to stand for each room, day or period:
closed.csv (room, day, period): no lecture is there; holds.csv (course, room, day, period): some lecture of the course is there; and
course_rooms.csv (course, room): the course is in one of its rooms, one row each. Days and periods are given as for to_instance.py, and what is
wrong is said in the same way.
"""
import os
import sys

from to_instance import check_course, day_of, options_of, parser_of, period_of, problem_lines, problems, read_records, read_rows, report

MOST_WISHES = 4_096


def rows_of(folder, file):
    """The rows of a table that may be missing."""
    return read_rows(folder, file) if os.path.lexists(os.path.join(folder, file)) else []


def check_room(file, line, name, rooms):
    """Reports a room that isn't in rooms.csv, if any room could be read there."""
    if name and rooms and name not in rooms:
        report(file, line, "room", f"there is no room '{name}' in rooms.csv")


def place_of(file, line, cells, rooms, options):
    """The room, the day and the period of a row; a star where a cell is empty."""
    check_room(file, line, cells["room"], rooms)
    day = day_of(file, line, cells["day"], *options.days)
    period = period_of(file, line, cells["period"], *options.periods)
    if not (cells["room"] or cells["day"] or cells["period"]):
        report(file, line, None, "has no room, no day and no period")
    return [cells["room"] or "*", "*" if day is None else day, "*" if period is None else period]


def read_wishes(options, courses, rooms):
    """The words of each wish."""
    for line, cells in rows_of(options.folder, "closed.csv"):
        yield ["closed", *place_of("closed.csv", line, cells, rooms, options)]
    for line, cells in rows_of(options.folder, "holds.csv"):
        check_course("holds.csv", line, cells["course"], courses)
        yield ["hold", cells["course"], *place_of("holds.csv", line, cells, rooms, options)]
    used = {}
    for line, cells in rows_of(options.folder, "course_rooms.csv"):
        check_course("course_rooms.csv", line, cells["course"], courses)
        check_room("course_rooms.csv", line, cells["room"], rooms)
        used.setdefault(cells["course"], {})[cells["room"]] = None
    for course, its in used.items():
        yield ["room", course, *its]


def main():
    options = options_of(parser_of("Writes a file of wishes from the tables of a spreadsheet."))
    courses = {words[0] for words in read_records(options.folder, "courses.csv")}
    rooms = {words[0] for words in read_records(options.folder, "rooms.csv")}
    wishes = list(read_wishes(options, courses, rooms))
    if len(wishes) > MOST_WISHES:
        report("all files", None, None, f"{len(wishes)} wishes are too many; at most {MOST_WISHES} are allowed")
    if problems:
        print("\n".join(problem_lines()), file=sys.stderr)
        return 2
    sys.stdout.buffer.write("".join(" ".join(map(str, words)) + "\n" for words in wishes).encode("utf-8"))
    return 0


if __name__ == "__main__":
    sys.exit(main())
