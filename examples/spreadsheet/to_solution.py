#!/usr/bin/env python3
"""Writes a solution from a table of lectures, such as that of './tt report --csv', of from_solution.py or of a spreadsheet.

    python3 to_solution.py INSTANCE TABLE [--days Mon,Tue,Wed,Thu,Fri] [--periods 8:00,10:00,12:00,14:00] [--drop] > SOLUTION

The first line of TABLE names the columns, which may be in any order: course, room, day and period; others are ignored. A day or a period is
its number from 0 or one of the names of --days or --periods, in any case of letters. A space in a name is read as an underscore. If something
is wrong, nothing is written: each problem is one line on standard error, with its line and column, and the exit status is 2. With --drop a
row whose course or room the instance doesn't have is left out, and named on standard error.
"""
import argparse
import csv
import io
import sys
import unicodedata

from from_solution import Wrong, read_instance, read_names

COLUMNS = ("course", "room", "day", "period")


def key(name):
    """A name in the form in which names are compared."""
    return unicodedata.normalize("NFC", "_".join(name.split()))


def read_rows(path):
    """The rows of a table: the number of the line, and the text of each column."""
    try:
        with open(path, encoding="utf-8-sig", newline="") as file:
            text = file.read()
    except OSError as error:
        raise Wrong(f"{path}: cannot be read: {error.strerror}") from None
    except UnicodeDecodeError:
        raise Wrong(f"{path}: is not in UTF-8; save it as 'CSV UTF-8'") from None
    first = text.split("\n", 1)[0]
    rows = csv.reader(io.StringIO(text, newline=""), delimiter=";" if first.count(";") > first.count(",") else ",")
    header = [cell.strip().lower() for cell in next(rows, [])]
    missing = [column for column in COLUMNS if column not in header]
    if missing:
        raise Wrong(f"{path}, line 1: the first line has to name the columns {', '.join(COLUMNS)}; {', '.join(missing)} is missing")
    line = rows.line_num + 1
    for row in rows:
        cells = {column: row[at].strip() if at < len(row) else "" for at, column in enumerate(header)}
        if any(cells.values()):
            yield line, cells
        line = rows.line_num + 1


def number_of(text, names, count):
    """The number of a day or of a period, or None."""
    wanted = key(text).casefold()
    for at, name in enumerate(names or []):
        if key(name).casefold() == wanted:
            return at
    if text.isascii() and text.isdigit() and len(text) < 9 and int(text) < count:
        return int(text)
    return None


class Table:
    """What a table says about an instance, and what is wrong with it."""

    def __init__(self, instance, options):
        _, days, periods, courses, rooms, _ = instance
        self.names = {"course": {key(name): name for name in courses}, "room": {key(name): name for name in rooms}}
        self.counts = {"day": (options.days, days), "period": (options.periods, periods)}
        self.drops = options.drop
        self.problems, self.dropped, self.lines = [], [], []

    def value_of(self, column, text):
        """What a cell stands for, a name or a number, or None; and what to say if it stands for nothing."""
        if not text:
            return None, "is empty"
        if column in self.names:
            return self.names[column].get(key(text)), f"there is no {column} '{text}' in the instance"
        names, count = self.counts[column]
        return number_of(text, names, count), f"'{text}' is no {column} from 0 to {count - 1}" + (", and no name of one" if names else "")

    def add(self, place, cells):
        """Adds the lecture of a row, or what is wrong with it."""
        words, wrong, unknown = [], [], []
        for column in COLUMNS:
            value, text = self.value_of(column, cells[column])
            words.append(value)
            if value is None:
                wrong.append(f"{place}, column {column}: {text}")
                if column in self.names and cells[column]:
                    unknown.append(wrong[-1])
        if not wrong:
            self.lines.append(" ".join(map(str, words)) + "\n")
        elif unknown and self.drops:
            self.dropped.extend(unknown)
        else:
            self.problems.extend(wrong)


def main():
    parser = argparse.ArgumentParser(description="Writes a solution from a table of lectures.")
    parser.add_argument("instance")
    parser.add_argument("table")
    parser.add_argument("--days", metavar="NAME,..", help="the names of the days, in their order")
    parser.add_argument("--periods", metavar="NAME,..", help="the names of the periods of a day, in their order")
    parser.add_argument("--drop", action="store_true", help="leaves out rows whose course or room the instance doesn't have")
    options = parser.parse_args()
    try:
        instance = read_instance(options.instance)
        options.days = read_names("--days", options.days, instance[1])
        options.periods = read_names("--periods", options.periods, instance[2])
        table = Table(instance, options)
        for line, cells in read_rows(options.table):
            table.add(f"{options.table}, line {line}", cells)
    except Wrong as wrong:
        print(wrong, file=sys.stderr)
        return 2
    for text in table.problems or table.dropped:
        print(text, file=sys.stderr)
    if table.problems:
        return 2
    sys.stdout.buffer.write("".join(table.lines).encode("utf-8"))
    return 0


if __name__ == "__main__":
    sys.exit(main())
