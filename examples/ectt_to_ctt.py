#!/usr/bin/env python3
"""Writes an instance of an .ectt file, the extended format of the problem, as a .ctt file, which tt reads.

    python3 examples/ectt_to_ctt.py FILE > INSTANCE

Courses, rooms, curricula and unavailable periods are kept, which is all that the competition's rules look at. What a .ctt file has no place for is
left out, and standard error says so: the fewest and the most lectures of a day, double lectures, the buildings of rooms, and rooms that a course
can't have. So costs are those of the competition's rules, and not of the other ones for which .ectt files are used.
"""
import sys

HEAD = ("Courses:", "Rooms:", "Days:", "Periods_per_day:", "Curricula:")
# The words of a line in each part, how many of them a .ctt file has, and the words that may end the part.
WIDTHS = {
    "COURSES:": (6, 5, ("ROOMS:",)),
    "ROOMS:": (3, 2, ("CURRICULA:",)),
    "UNAVAILABILITY_CONSTRAINTS:": (3, 3, ("ROOM_CONSTRAINTS:", "END.")),
}


class Wrong(Exception):
    """What is wrong with a file, in plain words."""


def after(words, name, start=0):
    """The place behind a word of the file."""
    try:
        return words.index(name, start) + 1
    except ValueError:
        raise Wrong(f"there is no word {name}, so this is no .ectt file") from None


def count_of(words, *names):
    """The number behind the first of these words that the head of the file has."""
    head = words[: words.index("COURSES:")] if "COURSES:" in words else words
    for name in names:
        if name in head:
            text = words[head.index(name) + 1]
            if not (text.isascii() and text.isdigit()):
                raise Wrong(f"{text} behind {name} is no number")
            return int(text)
    raise Wrong(f"there is no word {names[0]}, so this is no .ectt file")


def rows(words, part, count):
    """The lines of a part, each with the words that the extended format gives it."""
    width, _, ends = WIDTHS[part]
    at = after(words, part)
    if words[at + width * count : at + width * count + 1] not in [[end] for end in ends]:
        raise Wrong(f"behind {part} there aren't {count} lines of {width} words, so this is no .ectt file")
    return [words[at + width * k : at + width * (k + 1)] for k in range(count)]


def curricula_of(words, count):
    """The lines of the curricula: a name, how many courses follow, and these."""
    at, found = after(words, "CURRICULA:"), []
    for _ in range(count):
        size = words[at + 1] if at + 1 < len(words) else ""
        if not (size.isascii() and size.isdigit()):
            raise Wrong("a curriculum has no number of courses")
        found.append(words[at : at + 2 + int(size)])
        at += 2 + int(size)
    return found


def left_out(words, courses, rooms, room_bars):
    """What a .ctt file has no place for, as far as the file has it."""
    if "Min_Max_Daily_Lectures:" in words:
        yield "the fewest and the most lectures of a day"
    if any(row[5] != "0" for row in courses):
        yield f"double lectures of {sum(row[5] != '0' for row in courses)} courses"
    if len({row[2] for row in rooms}) > 1:
        yield "the buildings of the rooms"
    if room_bars:
        yield f"{room_bars} rooms that a course can't have"


def convert(words, out, err):
    """Writes a .ctt file of the words of an .ectt file."""
    sizes = [count_of(words, name) for name in HEAD]
    bars = count_of(words, "UnavailabilityConstraints:", "Constraints:")
    room_bars = count_of(words, "RoomConstraints:") if "RoomConstraints:" in words else 0
    name = words[after(words, "Name:") : words.index("Courses:")]
    courses, rooms = rows(words, "COURSES:", sizes[0]), rows(words, "ROOMS:", sizes[1])
    parts = {"COURSES:": courses, "ROOMS:": rooms, "CURRICULA:": curricula_of(words, sizes[4]),
             "UNAVAILABILITY_CONSTRAINTS:": rows(words, "UNAVAILABILITY_CONSTRAINTS:", bars)}
    print("Name:", *name, file=out)
    for word, size in zip((*HEAD, "Constraints:"), (*sizes, bars)):
        print(word, size, file=out)
    for part, lines in parts.items():
        print(f"\n{part}", file=out)
        kept = WIDTHS[part][1] if part in WIDTHS else None
        for line in lines:
            print(*line[:kept], file=out)
    print("\nEND.", file=out)
    for text in left_out(words, courses, rooms, room_bars):
        print(f"left out: {text}", file=err)


def main():
    if len(sys.argv) != 2 or sys.argv[1] == "--help":
        print(__doc__.strip(), file=sys.stdout if sys.argv[1:] == ["--help"] else sys.stderr)
        return 0 if sys.argv[1:] == ["--help"] else 2
    # Names may be any bytes, so they are kept as they are.
    out = open(sys.stdout.fileno(), "w", encoding="utf-8", errors="surrogateescape", closefd=False)
    try:
        with open(sys.argv[1], encoding="utf-8", errors="surrogateescape") as file:
            convert(file.read().split(), out, sys.stderr)
        out.flush()
    except OSError as error:
        print(f"{sys.argv[1]}: cannot be read: {error.strerror}", file=sys.stderr)
        return 2
    except Wrong as wrong:
        print(f"{sys.argv[1]}: {wrong}", file=sys.stderr)
        return 2
    return 0


if __name__ == "__main__":
    sys.exit(main())
