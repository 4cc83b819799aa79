#!/usr/bin/env python3
"""Prints the time and the peak memory of `tt validate` on three pairs of files, which it makes in a folder of its own, and
beside them those of plain.rs, a program in plain Rust that counts the same, where rustc is there to compile it.

Run by hand, after ./tt has built the program:  python3 bench/validate.py
Each command is run five times, and the least time counts.
"""

import os
import random
import shutil
import subprocess
import sys
import tempfile
import time
from pathlib import Path

HERE = Path(__file__).resolve().parent
PROGRAM = HERE.parent / "crates" / "tt" / "out" / "tt"


def instance(name, courses, rooms, days, periods, curricula, bars):
    """The text of an instance; courses are (teacher, lectures, days, students), curricula lists of course numbers."""
    lines = [f"Name: {name}", f"Courses: {len(courses)}", f"Rooms: {len(rooms)}", f"Days: {days}",
             f"Periods_per_day: {periods}", f"Curricula: {len(curricula)}", f"Constraints: {len(bars)}", "", "COURSES:"]
    lines += [f"c{i:04} t{t:04} {n} {m} {s}" for i, (t, n, m, s) in enumerate(courses)]
    lines += ["", "ROOMS:"] + [f"r{i:03} {c}" for i, c in enumerate(rooms)]
    lines += ["", "CURRICULA:"]
    lines += [f"q{i:04} {len(ms)} " + " ".join(f"c{m:04}" for m in ms) for i, ms in enumerate(curricula)]
    lines += ["", "UNAVAILABILITY_CONSTRAINTS:"] + [f"c{c:04} {d} {p}" for c, d, p in bars]
    return "\n".join(lines + ["", "END.", ""])


def solution(entries):
    return "".join(f"c{c:04} r{r:03} {d} {p}\n" for c, r, d, p in entries)


def hundred(rng):
    courses = [(rng.randrange(70), rng.randint(2, 6), rng.randint(1, 4), rng.randint(10, 200)) for _ in range(100)]
    rooms = [rng.randint(20, 300) for _ in range(18)]
    curricula = [rng.sample(range(100), 5) for _ in range(70)]
    bars = sorted({(rng.randrange(100), rng.randrange(5), rng.randrange(6)) for _ in range(400)})
    entries = [(c, rng.randrange(18), rng.randrange(5), rng.randrange(6)) for c, k in enumerate(courses) for _ in range(k[1])]
    return instance("Hundred", courses, rooms, 5, 6, curricula, bars), solution(entries)


def largest(rng, entries):
    """2,048 courses, 8 rooms and 512 periods are 8,388,608 cells; 64 rooms make them 67,108,864, which is the limit."""
    courses = [(rng.randrange(512), 2, rng.randint(1, 2), rng.randint(10, 1000)) for _ in range(2048)]
    rooms = [rng.randint(20, 1000) for _ in range(64)]
    curricula = [rng.sample(range(2048), 16) for _ in range(8192)]
    slots = [(d, p) for d in range(64) for p in range(8)]
    bars = [(c, *slots[k]) for c in range(2048) for k in rng.sample(range(512), 32)]
    placed = [(rng.randrange(2048), rng.randrange(64), *rng.choice(slots)) for _ in range(entries)]
    return instance("Largest", courses, rooms, 64, 8, curricula, bars), solution(placed)


def least(name, words):
    """The least time of five runs in milliseconds, the peak memory in KiB, and what was printed."""
    best, peak = float("inf"), 0
    for _ in range(5):
        with tempfile.TemporaryFile() as out:
            start = time.perf_counter()
            child = subprocess.Popen(words, stdout=out)
            _, status, usage = os.wait4(child.pid, 0)
            best = min(best, time.perf_counter() - start)
            peak = max(peak, usage.ru_maxrss)
            if os.waitstatus_to_exitcode(status) not in (0, 1):
                sys.exit(f"{name}: refused, or stopped")
            out.seek(0)
            text = out.read()
    return best * 1000, peak, text


def measure(folder, plain, name, texts):
    paths = [folder / f"{name}.{kind}" for kind in ("ctt", "sol")]
    for path, text in zip(paths, texts):
        path.write_text(text)
    size = sum(path.stat().st_size for path in paths)
    taken, peak, text = least(name, [PROGRAM, "validate", *paths])
    print(f"{name}: files {size / 1024:.0f} KiB; tt {taken:.1f} ms, peak {peak} KiB", end="")
    if plain:
        taken, peak, other = least(name, [plain, *paths])
        print(f"; plain {taken:.1f} ms, peak {peak} KiB; {'same' if text == other else 'OTHER'} counts", end="")
        if text != other:
            sys.exit(f"\n{name}: the counts differ: {text}, {other}")
    print()


def compiled(folder):
    """plain.rs, where there is a rustc."""
    if not shutil.which("rustc"):
        return None
    subprocess.run(["rustc", "-O", "-o", folder / "plain", HERE / "plain.rs"], check=True)
    return folder / "plain"


def main():
    if not PROGRAM.exists():
        sys.exit("run ./tt first: the program is not built")
    rng = random.Random(1)
    with tempfile.TemporaryDirectory() as folder:
        folder = Path(folder)
        plain = compiled(folder)
        measure(folder, plain, "hundred", hundred(rng))
        measure(folder, plain, "largest", largest(rng, 4096))
        measure(folder, plain, "largest-16384", largest(rng, 16384))
    print(f"cores: {os.cpu_count()}")


if __name__ == "__main__":
    sys.exit(print(__doc__) if sys.argv[1:] == ["--help"] else main())
