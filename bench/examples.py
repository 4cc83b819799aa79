#!/usr/bin/env python3
"""Runs examples/spreadsheet from its tables to the calendar, and examples/many, with the built program, and looks at what they write; and
looks whether docs/CALLING.md quotes the sources as they are.

    python3 bench/examples.py [WORD..]     # with words, only the checks whose names contain one of them

Each check prints a line; the last line says how many passed and failed. TT names the program; if it isn't set, it is ./tt. What a search
finds isn't fixed, so a timetable is compared with tt validate; all that the scripts make of it is fixed. examples/many needs GNU parallel;
without it, those of its checks that need it are left out, and a line says so.
"""
import csv
import datetime
import io
import os
import re
import shutil
import subprocess
import sys
import tempfile

TOP = os.path.dirname(os.path.dirname(os.path.abspath(__file__)))
SHEETS = TOP + "/examples/spreadsheet"
MANY = TOP + "/examples/many"
TT = os.environ.get("TT", TOP + "/tt")
FIRST_DAY, TIMES = "2027-02-01", "8:00,10:00,12:00,14:00"
CALENDAR = ["--ics", "--first-day", FIRST_DAY, "--times", TIMES]
MADE = {"SOURCE_DATE_EPOCH": "1800000000"}

# An edit of a table, and the line that to_instance.py has to say of it.
MISTAKES = [
    ("courses.csv", "Kowalevski,3", "Kowalevski,three", "courses.csv, line 3, column lectures: 'three' is not a whole number, such as 3"),
    ("courses.csv", "Logic,Hilbert", "Logic,", "courses.csv, line 5, column teacher: is empty"),
    ("courses.csv", "Optics", "Mechanics", "courses.csv, line 7, column course: 'Mechanics' is in line 6 already"),
    ("courses.csv", "students", "pupils",
     "courses.csv, line 1: the first line has to name the columns course, teacher, lectures, days, students; students is missing"),
    ("rooms.csv", "25", "1000001", "rooms.csv, line 4, column seats: 1000001 is too large; at most 1000000 is allowed"),
    ("curricula.csv", "2,Optics", "2,Optik", "curricula.csv, line 12, column course: there is no course 'Optik' in courses.csv"),
    ("unavailability.csv", "Logic,Monday", "Logic,Saturday",
     "unavailability.csv, line 3, column day: 'Saturday' is day 5, but the week has only the days 0 to 4"),
    ("unavailability.csv", "Friday,2", "Fridya,2",
     "unavailability.csv, line 4, column day: 'Fridya' is neither a day of the week nor a number from 0 to 4"),
    ("unavailability.csv", "Friday,3", "Friday,4", "unavailability.csv, line 5, column period: 4 is too large; at most 3 is allowed"),
]
# Sheets whose empty cells stand for each room, day or period, the constraints of the first, and the wishes of the others.
OFF = "teacher,day,period\nHilbert,Mo,\nCurie,,8:00\n"
OFF_BARS = [f"{course} 0 {period}" for course in ("Linear_algebra", "Logic") for period in range(4)]
OFF_BARS += [f"{course} {day} 0" for course in ("Mechanics", "Optics") for day in range(5)]
WISHES = {
    "closed.csv": "room,day,period\nHall,Fr,\n,,14:00\n",
    "holds.csv": "course,room,day,period\nLogic,,Di,10:00\nOptics,Room 1.07,,\n",
    "course_rooms.csv": "course,room\nMechanics,Hall\nOptics,Room 1.07\nMechanics,Room 1.07\n",
}
WISHES_MADE = """closed Hall 4 *
closed * * 3
hold Logic * 1 1
hold Optics Room_1.07 * *
room Mechanics Hall Room_1.07
room Optics Room_1.07
"""
WRONG_WISHES = {
    "closed.csv": "room,day,period,why\n,,,holiday\nHal,7,,\n",
    "holds.csv": "course,room,day,period\nOptik,,Di,9:00\n",
    "course_rooms.csv": "course,room\nOptics,\n",
}
WISHES_SAID = """closed.csv, line 2: has no room, no day and no period
closed.csv, line 3, column room: there is no room 'Hal' in rooms.csv
closed.csv, line 3, column day: 7 is too large; at most 4 is allowed
holds.csv, line 2, column course: there is no course 'Optik' in courses.csv
holds.csv, line 2, column period: '9:00' is not a whole number, such as 3
course_rooms.csv, line 2, column room: is empty
"""
WRONG_OFF = "course,teacher,day,period\nOptics,Curie,0,0\n,Bohr,0,0\nOptics,,,\n"
OFF_SAID = """unavailability.csv, line 2: has to name a course or a teacher, not both
unavailability.csv, line 3, column teacher: there is no teacher 'Bohr' in courses.csv
unavailability.csv, line 4: has neither a day nor a period
"""
# The text of a solution, and what from_solution.py has to say of it.
WRONG_SOLUTIONS = [
    ("Optics Hall 0 0 Optics", "lecture 2: a lecture has four words: course, room, day, period"),
    ("Optik Hall 0 0", "lecture 1: there is no course 'Optik' in the instance"),
    ("Optics Hal 0 0", "lecture 1: there is no room 'Hal' in the instance"),
    ("Optics Hall 5 0", "lecture 1: '5' is no day from 0 to 4"),
    ("Optics Hall 0 x", "lecture 1: 'x' is no period from 0 to 3"),
]
# The names of days and periods, and a solution with the table that from_solution.py makes of it with them.
DAY_NAMES, PERIOD_NAMES = "Mo,Di,Mi,Do,Fr", "8:00,10:00,12:00,14:00"
NAMES = ["--days", DAY_NAMES, "--periods", PERIOD_NAMES]
FEW = "Linear_algebra Hall 0 1\nGroups,_rings_and_fields Room_1.07 2 0\nOptics Seminar 4 3\n"
FEW_TABLE = [
    ["day", "period", "course", "teacher", "room", "curricula"],
    ["Mo", "10:00", "Linear algebra", "Hilbert", "Hall", "Mathematics 1; Physics 1"],
    ["Mi", "8:00", "Groups, rings and fields", "Noether", "Room 1.07", "Mathematics 2"],
    ["Fr", "14:00", "Optics", "Curie", "Seminar", "Physics 2"],
]
# Rows of a table, and what to_solution.py has to say of them.
WRONG_TABLES = [
    ("Optik,Hall,0,0", ["column course: there is no course 'Optik' in the instance"]),
    ("Optics,Halle,0,9", ["column room: there is no room 'Halle' in the instance", "column period: '9' is no period from 0 to 3, and no name of one"]),
    ("Optics,Hall,,Mittag", ["column day: is empty", "column period: 'Mittag' is no period from 0 to 3, and no name of one"]),
]
# Names that a calendar has to escape, to fold and to clean.
HARD_NAMES = """Name: hard
Courses: 1 Rooms: 1 Days: 5 Periods_per_day: 4 Curricula: 1 Constraints: 0
COURSES: a,b;c\\d_é{long} t\x01 1 1 1 ROOMS: r 1
CURRICULA: q 1 a,b;c\\d_é{long} UNAVAILABILITY_CONSTRAINTS: END.
""".replace("{long}", "ü" * 90)
# An instance in the extended format, and what ectt_to_ctt.py makes of it.
EXTENDED = """Name: toy
Courses: 2 Rooms: 1 Days: 2 Periods_per_day: 2 Curricula: 1 Min_Max_Daily_Lectures: 1 2 UnavailabilityConstraints: 1 RoomConstraints: 1
COURSES: =a t 1 1 9 0 b u 2 2 9 1 ROOMS: r 9 0 CURRICULA: q 2 =a b UNAVAILABILITY_CONSTRAINTS: b 1 0 ROOM_CONSTRAINTS: b r END.
"""
PLAIN = """Name: toy
Courses: 2 Rooms: 1 Days: 2 Periods_per_day: 2 Curricula: 1 Constraints: 1
COURSES: =a t 1 1 9 b u 2 2 9 ROOMS: r 9 CURRICULA: q 2 =a b UNAVAILABILITY_CONSTRAINTS: b 1 0 END.
"""

results = []


def run(command, folder, **more):
    return subprocess.run(command, cwd=folder, capture_output=True, text=True, env={**os.environ, "TT": TT, **more}, errors="surrogateescape")


def check(name, holds, text=""):
    """Counts a check, and prints it; what was seen is shown if it fails."""
    results.append(holds)
    print(("passed: " if holds else "FAILED: ") + name + ("" if holds else f": {text!r}"))


def script(name, *words, folder, **more):
    return run([sys.executable, f"{SHEETS}/{name}", *words], folder, **more)


def instance_checks(folder):
    with open(SHEETS + "/department.ctt", encoding="utf-8") as file:
        wanted = file.read()
    done = script("to_instance.py", SHEETS, "--name", "department", folder=folder)
    check("the tables make department.ctt", (done.stdout, done.stderr, done.returncode) == (wanted, "", 0), done.stderr)
    sheets = folder + "/semicolons"
    shutil.copytree(SHEETS, sheets)
    for name in ("courses", "rooms", "curricula", "unavailability"):
        with open(f"{SHEETS}/{name}.csv", encoding="utf-8", newline="") as file:
            rows = list(csv.reader(file))
        with open(f"{sheets}/{name}.csv", "w", encoding="utf-8-sig", newline="") as file:
            csv.writer(file, delimiter=";").writerows([row + [""] for row in rows] + [[]])
    done = script("to_instance.py", sheets, "--name", "department", folder=folder)
    check("so do tables with semicolons, a mark in front, and another column", done.stdout == wanted, done.stderr)


def mistake_checks(folder):
    for at, (file, old, new, line) in enumerate(MISTAKES):
        sheets = f"{folder}/mistake{at}"
        shutil.copytree(SHEETS, sheets)
        with open(f"{sheets}/{file}", encoding="utf-8") as opened:
            text = opened.read()
        with open(f"{sheets}/{file}", "w", encoding="utf-8") as opened:
            opened.write(text.replace(old, new, 1))
        done = script("to_instance.py", sheets, folder=folder)
        said = line in done.stderr.splitlines()
        check(f"a mistake in {file}: {line.split(': ', 1)[1]}", said and (done.stdout, done.returncode) == ("", 2), done.stderr)


def solution_mistake_checks(folder):
    for text, line in WRONG_SOLUTIONS:
        with open(folder + "/wrong.sol", "w", encoding="utf-8") as file:
            file.write(text)
        done = script("from_solution.py", SHEETS + "/department.ctt", "wrong.sol", "--csv", folder=folder)
        check(f"a mistake in a solution: {line}", (done.stderr, done.stdout, done.returncode) == (f"wrong.sol, {line}\n", "", 2), done.stderr)


def back(table, folder, *words):
    """What to_solution.py makes of a table for department.ctt, on both streams, and its status."""
    with open(folder + "/table.csv", "w", encoding="utf-8", newline="") as file:
        file.write(table)
    done = script("to_solution.py", SHEETS + "/department.ctt", "table.csv", *words, folder=folder)
    return done.stdout, done.stderr, done.returncode


def table_checks(folder):
    """Looks whether a table becomes a solution, and a solution a table."""
    with open(folder + "/few.sol", "w", encoding="utf-8") as file:
        file.write(FEW)
    done = script("from_solution.py", SHEETS + "/department.ctt", "few.sol", "--csv", *NAMES, folder=folder)
    check("a table with the names of days and periods", list(csv.reader(io.StringIO(done.stdout))) == FEW_TABLE, done.stdout + done.stderr)
    check("it becomes the solution again", back(done.stdout, folder, *NAMES) == (FEW, "", 0), back(done.stdout, folder, *NAMES))
    turned = "\ufeff" + "".join(";".join(f'"{row[at]}"' for at in (4, 2, 1, 0)) + "\r\n" for row in FEW_TABLE).replace('"Mo"', '"mo"')
    check("so does one with other columns, semicolons and a mark", back(turned, folder, *NAMES) == (FEW, "", 0), back(turned, folder, *NAMES))
    done = run([TT, "report", SHEETS + "/department.ctt", "few.sol", "--csv"], folder)
    check("the table of report --csv becomes the solution", back(done.stdout, folder) == (FEW, "", 0), back(done.stdout, folder))
    for row, lines in WRONG_TABLES:
        said = "".join(f"table.csv, line 2, {line}\n" for line in lines)
        found = back(f"course,room,day,period\n{row}\n", folder, *NAMES)
        check(f"a mistake in a table: {lines[0]}", found == ("", said, 2), found)
    found = back("course,room,day,period\nOptik,Hall,0,0\nOptics,Seminar,4,3\n", folder, "--drop")
    check("a course that isn't there is left out", found == ("Optics Seminar 4 3\n", "table.csv, line 2, column course: there is no course 'Optik' in the instance\n", 0), found)
    sheets = folder + "/named"
    shutil.copytree(SHEETS, sheets)
    with open(sheets + "/unavailability.csv", "w", encoding="utf-8") as file:
        file.write("course,day,period\nLinear algebra,mo,8:00\nLogic,Monday,0\nMechanics,Fr,12:00\nMechanics,4,3\nOptics,fr,12:00\nOptics,Friday,14:00\nAlgorithms,Mi,1\n")
    done = script("to_instance.py", sheets, "--name", "department", *NAMES, folder=folder)
    with open(SHEETS + "/department.ctt", encoding="utf-8") as file:
        check("tables with names of days and periods make department.ctt", (done.stdout, done.stderr) == (file.read(), ""), done.stderr)


def sheets_with(tables, folder, name):
    """A copy of the sheets with these tables in place of theirs."""
    sheets = f"{folder}/{name}"
    shutil.copytree(SHEETS, sheets)
    for file, text in tables.items():
        with open(f"{sheets}/{file}", "w", encoding="utf-8") as opened:
            opened.write(text)
    return sheets


def wish_checks(folder):
    """Looks whether rows of teachers become constraints, and tables wishes."""
    sheets = sheets_with({**WISHES, "unavailability.csv": OFF}, folder, "wishes")
    done = script("to_instance.py", sheets, *NAMES, folder=folder)
    bars = done.stdout.partition("UNAVAILABILITY_CONSTRAINTS:\n")[2].partition("\n\nEND.")[0].split("\n")
    check("a row stands for a teacher's day, or for a period of each day", bars == OFF_BARS, done.stdout + done.stderr)
    with open(folder + "/wished.ctt", "w", encoding="utf-8") as file:
        file.write(done.stdout)
    done = script("to_wishes.py", sheets, *NAMES, folder=folder)
    check("tables make wishes", (done.stdout, done.stderr, done.returncode) == (WISHES_MADE, "", 0), done.stdout + done.stderr)
    with open(folder + "/made.wishes", "w", encoding="utf-8") as file:
        file.write(done.stdout)
    with open(folder + "/few.sol", "w", encoding="utf-8") as file:
        file.write(FEW)
    done = run([TT, "validate", "wished.ctt", "few.sol", "--wishes", "made.wishes"], folder)
    check("tt reads them", done.stdout.endswith("\nwishes 4\n"), done.stdout + done.stderr)
    sheets = sheets_with({**WRONG_WISHES, "unavailability.csv": WRONG_OFF}, folder, "wrong_wishes")
    done = script("to_wishes.py", sheets, *NAMES, folder=folder)
    check("mistakes in tables of wishes", (done.stdout, done.stderr, done.returncode) == ("", WISHES_SAID, 2), done.stderr)
    done = script("to_instance.py", sheets, folder=folder)
    check("mistakes in rows of teachers", (done.stdout, done.stderr, done.returncode) == ("", OFF_SAID, 2), done.stderr)
    decomposed = sheets_with({"curricula.csv": "curriculum,course\nq,Me\u0301canique\n", "courses.csv":
                              "course,teacher,lectures,days,students\nM\u00e9canique,Curie,1,1,9\n", "unavailability.csv": OFF[:19]}, folder, "decomposed")
    done = script("to_instance.py", decomposed, folder=folder)
    check("letters with accents are the same however they are coded", done.returncode == 0 and "M\u00e9canique Curie" in done.stdout, done.stderr)


def lectures_of(solution):
    """The lectures of a solution file, in the order of the week: day, period, course, room."""
    with open(solution, encoding="utf-8") as file:
        words = file.read().split()
    return sorted((int(d), int(p), c.replace("_", " "), r.replace("_", " ")) for c, r, d, p in zip(*[iter(words)] * 4))


def begin_of(day, period):
    hour, minute = map(int, TIMES.split(",")[period].split(":"))
    return datetime.datetime.fromisoformat(FIRST_DAY) + datetime.timedelta(days=day, hours=hour, minutes=minute)


def events_of(text):
    """The events of a calendar, each a dictionary of its properties, unfolded and as text."""
    events = []
    for line in text.replace("\r\n ", "").split("\r\n"):
        name, _, value = line.partition(":")
        if line == "BEGIN:VEVENT":
            events.append({})
        elif events:
            events[-1].setdefault(name, re.sub(r"\\(.)", lambda found: {"n": "\n"}.get(found[1], found[1]), value))
    return events


def folding_holds(text):
    lines = text.split("\r\n")
    return lines[-1] == "" and "\n" not in text.replace("\r\n", "") and all(len(line.encode("utf-8")) <= 75 for line in lines)


def hall_week(solution, folder):
    """The program's calendar of the hall, as text; a line keeps its own end."""
    words = ["report", "department.ctt", solution, "--by", "room", "--ics", "Hall", "--first-day", FIRST_DAY, "--times", TIMES, "--minutes", "90"]
    done = subprocess.run([TT, *words], cwd=folder, capture_output=True)
    return done.stdout.decode("utf-8")


def hall_checks(folder, events):
    """Looks whether the program's calendar of the hall has what the script's has, and keeps its identities if a lecture moves."""
    text = hall_week("department/best.sol", folder)
    found = events_of(text)
    seen = sorted((event["SUMMARY"].replace("_", " "), event["LOCATION"], event["DTSTART"], event["DURATION"]) for event in found)
    wanted = sorted((event["SUMMARY"], "Hall", event["DTSTART"], "PT90M") for event in events if event["LOCATION"] == "Hall")
    check("the program's calendar of a room has the script's events", seen == wanted and len(seen) > 0, seen[:2])
    identities = sorted(event["UID"] for event in found)
    check("its events have names of their own", len(set(identities)) == len(found))
    check("its lines end in CRLF and have at most 75 octets", folding_holds(text))
    with open(folder + "/department/best.sol", encoding="utf-8") as file:
        lines = file.read().splitlines()
    number = next(number for number, line in enumerate(lines) if line.split()[1] == "Hall")
    course, room, day, period = lines[number].split()
    lines[number] = f"{course} {room} {(int(day) + 1) % 5} {period}"
    with open(folder + "/moved.sol", "w", encoding="utf-8") as file:
        file.write("\n".join(lines) + "\n")
    moved = events_of(hall_week("moved.sol", folder))
    check("a lecture that moves keeps its name", identities == sorted(event["UID"] for event in moved) and moved != found)


def calendar(instance, solution, folder):
    """The bytes of a calendar as text; a line keeps its own end."""
    done = subprocess.run([sys.executable, f"{SHEETS}/from_solution.py", instance, solution, *CALENDAR], cwd=folder, capture_output=True,
                          env={**os.environ, **MADE})
    return done.stdout.decode("utf-8")


def week_checks(folder):
    with open(SHEETS + "/README.md", encoding="utf-8") as file:
        block = re.search(r"^```\n(python3 .*?)^```", file.read(), re.M | re.S).group(1)
    os.symlink(TOP + "/examples", folder + "/examples")
    with open(folder + "/tt", "w", encoding="utf-8") as file:
        file.write(f'#!/bin/sh\nexec "{TT}" "$@"\n')
    os.chmod(folder + "/tt", 0o755)
    done = run(["bash", "-euc", block], folder, **MADE)
    found = re.fullmatch(r"cost (\d+) bound (\d+)( optimal)?\n", done.stdout)
    check("the commands of the spreadsheet's README", done.returncode == 0 and found is not None, done.stdout + done.stderr)
    if found is None:
        return
    done = run([TT, "validate", "department.ctt", "department/best.sol"], folder)
    check("the timetable breaks no hard rule, at its cost", done.stdout.endswith(f"\nhard 0\ncost {found[1]}\n"), done.stdout)
    week = lectures_of(folder + "/department/best.sol")
    with open(folder + "/department.csv", encoding="utf-8", newline="") as file:
        rows = list(csv.DictReader(file))
    check("the table has a line for each lecture",
          sorted((int(row["day"]), int(row["period"]), row["course"], row["room"]) for row in rows) == week and len(week) == 20, rows[:2])
    times = [(int(row["day"]), int(row["period"])) for row in rows]
    check("the table is in the order of the week", times == sorted(times), times)
    with open(folder + "/department.ics", encoding="utf-8", newline="") as file:
        text = file.read()
    events = events_of(text)
    seen = [(event["SUMMARY"], event["LOCATION"], event["DTSTART"], event["DTEND"], event["DTSTAMP"]) for event in events]
    form = "%Y%m%dT%H%M%S"
    wanted = [(course, room, begin_of(day, period).strftime(form), (begin_of(day, period) + datetime.timedelta(minutes=90)).strftime(form),
               "20270115T080000Z") for day, period, course, room in week]
    check("the calendar has an event for each lecture", sorted(seen) == sorted(wanted), seen[:2])
    check("the events have names of their own", len({event["UID"] for event in events}) == len(events))
    check("the calendar's lines end in CRLF and have at most 75 octets", folding_holds(text))
    check("the calendar is the same each time", calendar("department.ctt", "department/best.sol", folder) == text)
    hall_checks(folder, events)


def hard_name_checks(folder):
    with open(folder + "/hard.ctt", "w", encoding="utf-8") as file:
        file.write(HARD_NAMES)
    name = HARD_NAMES.split()[15]
    with open(folder + "/hard.sol", "w", encoding="utf-8") as file:
        file.write(f"{name} r 0 0\n")
    text = calendar("hard.ctt", "hard.sol", folder)
    events = events_of(text)
    check("hard names are escaped and folded", folding_holds(text) and events and events[0]["SUMMARY"] == name.replace("_", " "), text)
    check("a control in a name becomes U+FFFD", events and events[0]["DESCRIPTION"] == "t\ufffd\nq", text)


def extended_checks(folder):
    for name, text in (("toy.ectt", EXTENDED), ("toy.sol", "=a r 0 0\n")):
        with open(f"{folder}/{name}", "w", encoding="utf-8") as file:
            file.write(text)
    convert = [sys.executable, TOP + "/examples/ectt_to_ctt.py"]
    done = run([*convert, "toy.ectt"], folder)
    check("an .ectt file becomes a .ctt file", done.stdout.split() == PLAIN.split() and done.returncode == 0, done.stdout)
    wanted = ["left out: the fewest and the most lectures of a day", "left out: double lectures of 1 courses",
              "left out: 1 rooms that a course can't have"]
    check("what is left out of an .ectt file is said", done.stderr.splitlines() == wanted, done.stderr)
    with open(folder + "/toy.ctt", "w", encoding="utf-8") as file:
        file.write(done.stdout)
    done = run([*convert, "toy.ctt"], folder)
    check("a .ctt file is no .ectt file", (done.stdout, done.returncode) == ("", 2), done.stderr)
    done = script("from_solution.py", "toy.ctt", "toy.sol", "--csv", "--no-formulas", folder=folder)
    check("no name is a formula", "0,0,'=a,t,r,q" in done.stdout.splitlines(), done.stdout)


def without_parallel(folder):
    """A path of the system's commands on which there is no GNU parallel."""
    made = folder + "/commands"
    os.mkdir(made)
    for at in os.environ["PATH"].split(":"):
        for name in os.listdir(at) if os.path.isdir(at) else []:
            if name != "parallel" and not os.path.lexists(f"{made}/{name}"):
                os.symlink(f"{at}/{name}", f"{made}/{name}")
    return {"PATH": made}


def no_parallel_checks(folder):
    """What examples/many says and does where GNU parallel isn't there."""
    path = without_parallel(folder)
    sum_of = [TOP + "/examples/like04.ctt", "--solution", TOP + "/examples/like04.best.sol", TOP + "/examples/like04.groups"]
    done = run([MANY + "/check.sh", *sum_of], folder, **path)
    check("without parallel, check.sh says so and adds up",
          (done.stdout, done.returncode) == ("yes cost 28 bound 28 optimal\n", 0) and done.stderr.startswith("check.sh: there is no GNU parallel ")
          and "right" not in done.stderr, done.stdout + done.stderr)
    done = run([MANY + "/check.sh", *sum_of, TOP + "/examples/gap.proof"], folder, **path)
    check("without parallel, check.sh ends with the sum's status", done.returncode == 2 and "refused: proof 2: " in done.stderr, done.stderr)
    done = run([MANY + "/many.sh", "improve", "runs", TOP + "/examples/mini.ctt"], folder, **path)
    check("without parallel, many.sh says so before it begins", done.returncode == 2 and done.stderr.startswith("many.sh: there is no GNU parallel")
          and not os.path.exists(folder + "/runs"), done.stderr)


def failed_run_checks(folder):
    """What examples/many says and how it ends where something is missing or refused, with GNU parallel."""
    for name, text in [("alone.ctt", "none"), ("wrong.ctt", "none"), ("wrong.sol", "")]:
        with open(f"{folder}/{name}", "w", encoding="utf-8") as file:
            file.write(text)
    for words, said in [
        (["improve", "runs", "alone.ctt"], "many.sh: there is no solution alone.sol, from which the runs of alone.ctt begin\n"),
        (["parts", "runs", "nothere.ctt"], "many.sh: there is no instance nothere.ctt\n"),
        (["parts", "runs", "alone.ctt", "./alone.ctt"], "many.sh: two instances are named alone\n"),
        (["keep", "parts", "runs", "alone.ctt"], "many.sh: there are no runs of alone.ctt: no folder runs/alone\n"),
        (["parts", "--seed", "runs", "alone.ctt"], "many.sh: what is --seed?\n"),
        (["parts", "--seeds", "no", "runs", "alone.ctt"], "many.sh: --seeds wants a number from 1, and not no\n"),
        (["improve", ".", "wrong.ctt"], "many.sh: give another OUTDIR: the runs of wrong.ctt begin at ./wrong.sol, which would be replaced\n"),
    ]:
        done = run([MANY + "/many.sh", *words], folder)
        check(f"many.sh says: {said.strip()}", (done.stderr, done.stdout, done.returncode) == (said, "", 2) and not os.path.exists(folder + "/runs"), done.stderr)
    for kind, left in [("improve", "a timetable"), ("parts", "proofs")]:
        done = run([MANY + "/many.sh", kind, "--seeds", "2", "runs", "wrong.ctt", TOP + "/examples/mini.ctt"], folder)
        check(f"many.sh {kind} ends with status 1 if a run failed, and keeps the others",
              done.returncode == 1 and done.stdout.startswith("mini: ") and f"wrong: no run left {left}\n" in done.stderr
              and f"some runs failed; runs/{kind}.log has" in done.stderr, done.stdout + done.stderr)
        with open(f"{folder}/runs/{kind}.log", encoding="utf-8") as file:
            statuses = sorted(line.split("\t")[6] for line in file.read().splitlines()[1:])
        check(f"runs/{kind}.log has the statuses", statuses == ["0", "0", "2", "2"], statuses)
    shutil.copy(TOP + "/examples/gap.ctt", folder)
    for command, status in [(["one.sh", "improve", "wrong", "1", "10"], 2), (["one.sh", "cost", "mini", "1"], 0), (["one.sh", "cost", "mini", "9"], 2),
                            (["one.sh", "bound", "wrong", "1"], 2), (["one.sh", "improve", "mini", "1"], 2), (["slurm.sh", "improve", "10", "wrong", "mini"], 1),
                            (["slurm.sh", "parts", "10", "mini"], 0)]:
        done = run([f"{MANY}/{command[0]}", *command[1:]], folder + "/runs", HERE=MANY, SLURM_ARRAY_TASK_ID="7")
        check(f"{' '.join(command)} ends with status {status}", done.returncode == status, f"{done.returncode}, {done.stdout}{done.stderr}")
    check("a task makes the other runs after one that failed", os.path.exists(folder + "/runs/mini/7.sol"))
    done = run([MANY + "/check.sh", TOP + "/examples/gap.ctt", TOP + "/examples/gap.proof", "wrong.sol"], folder)
    check("check.sh says that a proof is wrong, with status 2", done.returncode == 2 and "not every proof is right" in done.stderr, done.stderr)


def many_checks(folder):
    if shutil.which("parallel") is None:
        print("left out: examples/many, since GNU parallel isn't here")
        return
    failed_run_checks(folder)
    folder += "/good ones"
    os.mkdir(folder)
    instances = [TOP + "/examples/mini.ctt", TOP + "/examples/tiny01.ctt"]
    done = run([MANY + "/many.sh", "improve", "--seeds", "3", "--steps", "200", "runs", *instances], folder)
    lines = re.findall(r"^(\w+): hard 0 cost (\d+), made by seed [123], the best of 3$", done.stdout, re.M)
    check("many.sh keeps a timetable of each instance", [name for name, _ in lines] == ["mini", "tiny01"], done.stdout + done.stderr)
    for name, cost in lines:
        done = run([TT, "validate", f"{TOP}/examples/{name}.ctt", f"runs/{name}.sol"], folder)
        check(f"the timetable kept of {name} has its cost", f"\ncost {cost}\n" in done.stdout, done.stdout)
    again = run([MANY + "/many.sh", "keep", "improve", "runs", *instances], folder)
    check("many.sh keep says the same", re.findall(r"^(\w+): hard 0 cost (\d+)", again.stdout, re.M) == lines, again.stdout)
    missing = run([MANY + "/many.sh", "keep", "improve", "--seeds", "4", "runs", *instances], folder)
    check("many.sh keep names the seeds that are missing", missing.returncode == 1 and "mini: these seeds left nothing: 4\n" in missing.stderr
          and missing.stdout == again.stdout, missing.stdout + missing.stderr)
    run([MANY + "/many.sh", "prepare", "improve", "runs", *instances], folder)
    left = sorted(name for name in os.listdir(folder + "/runs") + os.listdir(folder + "/runs/mini") if ".sol" in name)
    check("many.sh puts aside what an earlier call left",
          left == ["1.sol.old", "2.sol.old", "3.sol.old", "mini.sol.old", "start.sol", "tiny01.sol.old"], left)
    instance = TOP + "/examples/like04.ctt"
    done = run([MANY + "/many.sh", "parts", "--seeds", "2", "--nodes", "1000", "runs", instance], folder)
    found = re.fullmatch(r"like04: bound (\d+): groups.proof \d+ by seed [12](?:, rooms.proof \d+ by seed [12])?, the best of 2\n", done.stdout)
    check("many.sh keeps proofs", found is not None, done.stdout + done.stderr)
    if found is not None:
        proofs = sorted(f"runs/like04.proofs/{name}" for name in os.listdir(folder + "/runs/like04.proofs"))
        done = run([MANY + "/check.sh", instance, *proofs], folder)
        check("check.sh adds up the proofs kept", done.stdout.endswith(f"\nbound {found[1]}\n"), done.stdout + done.stderr)
        done = run([TT, "sum", instance, *(f"runs/like04/{seed}.proofs/groups.proof" for seed in (1, 2))], folder)
        check("groups of two seeds don't add up", done.returncode == 2 and "refused: proof 2: ClaimedElsewhere at group " in done.stderr, done.stdout + done.stderr)
    proofs = sorted(f"{TOP}/examples/like04/{name}" for name in os.listdir(TOP + "/examples/like04"))
    done = run([MANY + "/check.sh", instance, "--solution", TOP + "/examples/like04.best.sol", *proofs], folder)
    check("check.sh checks eleven proofs and their sum",
          len(done.stdout.splitlines()) == 12 and done.stdout.endswith("\nyes cost 28 bound 28 optimal\n"), done.stdout + done.stderr)


def bare(text):
    """A text of Rust without its comments, spaces and last commas."""
    lines = (line for line in text.splitlines() if not line.lstrip().startswith("//"))
    return re.sub(r",(?=[)}])", "", re.sub(r"\s", "", "\n".join(lines)))


def names_in(lines):
    return set(re.findall(r"[^\s{},;:.]+", " ".join(lines))) - {"use", "ghost", "tt_app", "crate"}


def calling_checks(_folder):
    """Looks whether what docs/CALLING.md quotes is in the sources that it names."""
    with open(TOP + "/docs/CALLING.md", encoding="utf-8") as file:
        page = file.read()
    for line, block in re.findall(r"^([^\n]*From \[[^\n]*:)\n\n```\w+\n(.*?)^```", page, re.M | re.S):
        sources = []
        for path in re.findall(r"\]\(\.\./(crates/[^)]*\.rt)\)", line):
            with open(f"{TOP}/{path}", encoding="utf-8") as file:
                sources.append(file.read())
        quoted = block.splitlines()
        imports = [row for row in quoted if row.startswith(("use ", "ghost use "))]
        known = names_in(row for text in sources for row in text.splitlines() if row.startswith(("use ", "ghost use ")))
        missing = names_in(imports) - known
        code = "\n".join(row for row in quoted if row not in imports)
        for function in re.split(r"^(?=(?:pub )?fn )", code, flags=re.M)[1:]:
            name = re.match(r"(?:pub )?fn ([\w:]+)", function)[1]
            text = bare(re.sub(r"^((?:pub )?fn )\w+::", r"\1", function))
            check(f"CALLING quotes {name}", any(text in bare(source) for source in sources), text[:60])
        check(f"CALLING's imports are those of {re.search(r'crates/[^]]*', line)[0]}", not missing, missing)


GROUPS = [instance_checks, mistake_checks, solution_mistake_checks, table_checks, wish_checks, hard_name_checks, extended_checks, calling_checks, week_checks,
          no_parallel_checks, many_checks]


def main():
    for group in GROUPS:
        if len(sys.argv) == 1 or any(word in group.__name__ for word in sys.argv[1:]):
            with tempfile.TemporaryDirectory() as folder:
                group(folder)
    print(f"{sum(results)} passed, {len(results) - sum(results)} failed")
    return 0 if all(results) else 1


if __name__ == "__main__":
    sys.exit(print(__doc__) if sys.argv[1:] == ["--help"] else main())
