#!/usr/bin/env python3
"""Prints what `tt parts` proves on instances whose best timetables are known: the week, the seed, the bound, the cost of the timetable, and the
processor seconds.

Run by hand, after ./tt has built the program:  python3 bench/aims.py [--nodes N] [--seeds N] [INSTANCE SOLUTION]..
Where no instance is given, like02, like04, like05, small01 and small05 of examples/ are taken, with the solutions beside them.
"""

import argparse
import os
import resource
import subprocess
import sys
import tempfile
from pathlib import Path

HERE = Path(__file__).resolve().parent
PROGRAM = Path(os.environ.get("TT", HERE.parent / "crates" / "tt" / "out" / "tt"))
EXAMPLES = HERE.parent / "examples"
NAMES = ["like02", "like04", "like05", "small01", "small05"]
NODES = 100_000
SEEDS = 3


def spent():
    """The processor seconds of all programs so far."""
    used = resource.getrusage(resource.RUSAGE_CHILDREN)
    return used.ru_utime + used.ru_stime


def run(*words):
    """What a command of the program prints."""
    done = subprocess.run([PROGRAM, *map(str, words)], capture_output=True, text=True)
    if done.returncode != 0:
        sys.exit(f"{words}: {done.stderr}")
    return done.stdout.split()


def row(instance, solution, cost, nodes, seed):
    """Prints one search."""
    with tempfile.TemporaryDirectory() as folder:
        before = spent()
        words = run("parts", instance, folder, "--solution", solution, "--nodes", nodes, "--seed", seed)
        print(f"| {instance.stem} | {seed} | {words[1]} | {cost} | {spent() - before:.1f} |", flush=True)


def beside(instance):
    """The best solution beside an instance."""
    found = sorted(instance.parent.glob(f"{instance.stem}*.sol"))
    best = [path for path in found if ".best." in path.name]
    if not found:
        sys.exit(f"{instance}: no solution beside it")
    return (best or found)[0]


def cost_of(instance, solution):
    """The cost of a solution, as `tt validate` prints it."""
    words = run("validate", instance, solution)
    return words[words.index("cost") + 1]


def main():
    if not PROGRAM.exists():
        sys.exit("run ./tt first: the program is not built")
    reader = argparse.ArgumentParser()
    reader.add_argument("--nodes", type=int, default=NODES)
    reader.add_argument("--seeds", type=int, default=SEEDS)
    reader.add_argument("files", type=Path, nargs="*")
    given = reader.parse_args()
    pairs = list(zip(given.files[::2], given.files[1::2]))
    pairs = pairs or [(path, beside(path)) for path in (EXAMPLES / f"{name}.ctt" for name in NAMES)]
    print("| Week | Seed | Bound | Cost | Processor seconds |\n|---|---|---|---|---|")
    for instance, solution in pairs:
        cost = cost_of(instance, solution)
        for seed in range(1, given.seeds + 1):
            row(instance, solution, cost, given.nodes, seed)


if __name__ == "__main__":
    sys.exit(print(__doc__) if sys.argv[1:] == ["--help"] else main())
