#!/usr/bin/env python3
"""Prints how fast `tt bound` goes through long proofs, which it makes in a folder of its own, beside `wc -w` on the same bytes, and
the peak memory of both: many small nodes, and few leaves with long lists; each in two lengths, of about 50 and 200 MB.

Run by hand, after ./tt has built the program:  python3 bench/bound.py
Each command is run five times, in turn with the others, and the least processor time counts (user and system). `wc -w` is run in the locales C.UTF-8 and C.
A MB is 1,000,000 bytes. The peak is what /usr/bin/time says where it is there, else what the system says, which is no less than
what this script itself has.
"""

import os
import random
import shutil
import subprocess
import sys
import tempfile
from pathlib import Path

HERE = Path(__file__).resolve().parent
PROGRAM = HERE.parent / "crates" / "tt" / "out" / "tt"
RUNS = 5
DAYS, PERIODS = 5, 6


def instance(courses, rooms):
    """The text of an instance whose courses have two lectures each, and no two of which conflict."""
    lines = ["Name: Long", f"Courses: {courses}", f"Rooms: {rooms}", f"Days: {DAYS}", f"Periods_per_day: {PERIODS}",
             "Curricula: 0", "Constraints: 0", "", "COURSES:"]
    lines += [f"c{i:04} t{i:04} 2 1 50" for i in range(courses)]
    lines += ["", "ROOMS:"] + [f"r{i:03} 60" for i in range(rooms)]
    return "\n".join(lines + ["", "CURRICULA:", "", "UNAVAILABILITY_CONSTRAINTS:", "", "END.", ""])


def tree(path, depth, splits, leaves):
    """Writes a whole tree of this depth in preorder, with the splits and the leaves in turn, over and over."""
    with path.open("w") as out:
        out.write("CTTP 2 bound 0\n")
        part, split = [], 0
        for leaf in range(2 ** depth):
            # The splits between two leaves: as many as the number of the second has zeros at its end.
            for _ in range(depth if leaf == 0 else (leaf & -leaf).bit_length() - 1):
                part.append(splits[split % len(splits)])
                split += 1
            part.append(leaves[leaf % len(leaves)])
            if len(part) > 10_000 or leaf % 256 == 0:
                out.write("".join(part))
                part = []
        out.write("".join(part) + "end\n")


def patterns(rng, courses):
    """Splits on a course, a day and a period, the last day left out."""
    return [f"S c{rng.randrange(courses)} * d{rng.randrange(DAYS - 1)} p{rng.randrange(PERIODS)}\n" for _ in range(65_521)]


def listed(rng, word, end, item):
    """Leaves with an item for each of 2,048 courses, in 64 random orders."""
    leaves = []
    for _ in range(64):
        items = "".join(item(course) for course in rng.sample(range(2048), 2048))
        leaves.append(f"{word}{items}{end} ;\n")
    return leaves


def shapes(rng):
    """For each shape its name, courses and rooms, splits, leaves, and the depths of its two trees."""
    few, many = patterns(rng, 100), patterns(rng, 2048)
    prices = listed(rng, "B P", " r0 9 r1 9 /", lambda course: f" c{course} {rng.randrange(10)}")
    yield "a split or `B ;` each", 100, 18, few, ["B ;\n"], (21, 23)
    yield "leaves `B P` with the prices of 2,048 courses", 2048, 2, many, prices, (12, 14)
    yield "leaves `H` with 2,048 courses", 2048, 2, many, listed(rng, "H", "", lambda course: f" c{course}"), (12, 14)
    yield "leaves `B` with 2,048 claims", 2048, 2, many, listed(rng, "B", "", lambda course: f" R c{course}"), (12, 14)


def run(words, locale):
    """The processor time of one run in seconds, the peak memory in KiB, and what was printed."""
    timer = shutil.which("time")
    if timer:
        words = [timer, "-q", "-f", "%M", *words]
    with tempfile.TemporaryFile() as out, tempfile.TemporaryFile() as err:
        child = subprocess.Popen(words, stdout=out, stderr=err, env={**os.environ, "LC_ALL": locale})
        _, status, usage = os.wait4(child.pid, 0)
        taken = usage.ru_utime + usage.ru_stime
        out.seek(0)
        err.seek(0)
        text, told = out.read().decode(), err.read().decode()
    if os.waitstatus_to_exitcode(status) != 0:
        sys.exit(f"{words}: {told}")
    return taken, int(told.split()[-1]) if timer else usage.ru_maxrss, text


def measure(name, instance_path, proof_path):
    commands = {
        "tt": ([PROGRAM, "bound", instance_path, proof_path], "C.UTF-8"),
        "wc": (["wc", "-w", proof_path], "C.UTF-8"),
        "wc C": (["wc", "-w", proof_path], "C"),
    }
    best = {key: float("inf") for key in commands}
    peak = {key: 0 for key in commands}
    printed = {}
    for _ in range(RUNS):
        for key, (words, locale) in commands.items():
            taken, kib, printed[key] = run(words, locale)
            best[key] = min(best[key], taken)
            peak[key] = max(peak[key], kib)
    if printed["tt"] != "bound 0\n":
        sys.exit(f"{name}: tt bound printed {printed['tt']}")
    size = proof_path.stat().st_size / 1e6
    tokens = int(printed["wc"].split()[0]) / 1e6
    rates = {key: size / best[key] for key in commands}
    print(f"| {name} | {size:.0f} MB, {tokens:.1f} million tokens | {best['tt']:.2f} s, {rates['tt']:.0f} MB/s | {peak['tt'] / 1024:.1f} MiB "
          f"| {rates['wc']:.0f} MB/s | {rates['wc C']:.0f} MB/s | {rates['tt'] / rates['wc']:.2f}, {rates['tt'] / rates['wc C']:.2f} |", flush=True)


def main():
    if not PROGRAM.exists():
        sys.exit("run ./tt first: the program is not built")
    rng = random.Random(1)
    print("| Nodes | Proof | `tt bound` | Its peak memory | `wc -w`, C.UTF-8 | `wc -w`, C | Of `wc -w`'s speed |\n|---|---|---|---|---|---|---|")
    with tempfile.TemporaryDirectory() as folder:
        instance_path, proof_path = Path(folder) / "long.ctt", Path(folder) / "long.proof"
        for name, courses, rooms, splits, leaves, depths in shapes(rng):
            instance_path.write_text(instance(courses, rooms))
            for depth in depths:
                tree(proof_path, depth, splits, leaves)
                measure(name, instance_path, proof_path)
    print(f"cores: {os.cpu_count()}")


if __name__ == "__main__":
    sys.exit(print(__doc__) if sys.argv[1:] == ["--help"] else main())
