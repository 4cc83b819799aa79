#!/usr/bin/env python3
"""Writes a proof of what each course costs by itself: days that it can't reach, and students for whom no room has a seat.

    python3 examples/simple_bound.py INSTANCE > PROOF
"""
import sys

if len(sys.argv) != 2:
    sys.exit("usage: python3 simple_bound.py INSTANCE > PROOF")
words = open(sys.argv[1], "rb").read().split()
names = (b"Courses:", b"Rooms:", b"Days:", b"Periods_per_day:", b"Constraints:")
for name in names + (b"COURSES:", b"ROOMS:", b"UNAVAILABILITY_CONSTRAINTS:"):
    if name not in words:
        sys.exit(f"{sys.argv[1]} has no word {name.decode()}; `tt inspect` says where an instance is wrong")
size = {name: int(words[words.index(name) + 1]) for name in names}
at = words.index(b"COURSES:") + 1
courses = [words[at + 5 * k : at + 5 * k + 5] for k in range(size[b"Courses:"])]
at = words.index(b"ROOMS:") + 1
most_seats = max((int(words[at + 2 * k + 1]) for k in range(size[b"Rooms:"])), default=0)
at = words.index(b"UNAVAILABILITY_CONSTRAINTS:") + 1
bars = {tuple(words[at + 3 * k : at + 3 * k + 3]) for k in range(size[b"Constraints:"])}

bound, claims = 0, []
for number, (name, _, lectures, min_days, students) in enumerate(courses):
    barred = [sum(bar[0] == name and int(bar[1]) == day for bar in bars) for day in range(size[b"Days:"])]
    days = min(int(lectures), sum(count < size[b"Periods_per_day:"] for count in barred))
    unseated = max(0, int(students) - most_seats)
    for kind, worth, price in [("D", 5 * (int(min_days) - days), ""), ("C", int(lectures) * unseated, f" {unseated}")]:
        if worth > 0:
            bound, claims = bound + worth, claims + [f"{kind} c{number}{price}"]
print(f"CTTP 1 bound {bound}\nB {' '.join(claims)} ;\nend")
