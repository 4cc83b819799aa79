#!/usr/bin/env python3
"""Prints a table of what `tt improve` comes to: for each week and number of steps the mean cost of the seeds, the least and the greatest, and
the mean processor time. With --again a second search, with a seed of its own, goes on from what each came to, and a line tells how many of
these gained. With --plain a last column has the same of annealing in plain Rust (anneal.rs, by rustc -O), given --plain seconds a run.

Run by hand, after ./tt has built the program:
python3 bench/search.py [--steps N[,N..]] [--seeds N] [--jobs N] [--again] [--plain SECONDS] [NAME..]
2x5000 in place of N makes two runs of 5,000 steps; TT names another program.
The names are examples (those below where none is given) or paths of instances, NAME.ctt; a search begins with the timetable NAME.sol beside.
Every timetable is counted by `tt validate`, and one that breaks a hard rule ends the script.
"""

import argparse
import os
import subprocess
import sys
import tempfile
from concurrent.futures import ThreadPoolExecutor
from pathlib import Path

HERE = Path(__file__).resolve().parent
PROGRAM = os.environ.get("TT", HERE.parent / "crates" / "tt" / "out" / "tt")
EXAMPLES = HERE.parent / "examples"
NAMES = ["tiny01", "tiny05", "small01", "small05", "like01", "like02", "like04", "like05", "like11"]


def said(*words):
    """What a program prints, and the seconds of a processor that it takes."""
    with subprocess.Popen([*map(str, words)], stdout=subprocess.PIPE, text=True) as run:
        text = run.stdout.read()
        _, status, used = os.wait4(run.pid, 0)
        run.returncode = os.waitstatus_to_exitcode(status)
    if run.returncode:
        sys.exit(f"{words}: {text}")
    return text, used.ru_utime + used.ru_stime


def parts(steps):
    """The number of runs and the steps of each."""
    runs, _, each = steps.rpartition("x")
    return int(runs or 1), int(each)


def head(steps):
    """The words above a column."""
    runs, each = parts(steps)
    return f"{each:,} steps" if runs == 1 else f"{runs} runs of {each:,} steps"


def improved(instance, solution, out, seed, steps):
    """The cost that a search comes to, and its seconds. No two searches share the seed of a run."""
    runs, each = parts(steps)
    first = (seed - 1) * runs + 1
    _, seconds = said(PROGRAM, "improve", instance, solution, out, "--seed", first, "--steps", each, "--runs", runs)
    counts = dict(line.split() for line in said(PROGRAM, "validate", instance, out)[0].splitlines())
    if int(counts["hard"]):
        sys.exit(f"{out}: breaks hard rules")
    return int(counts["cost"]), seconds


def annealed(program, instance, seed, seconds):
    """The cost that annealing in plain Rust comes to, and its seconds."""
    text, used = said(program, instance, instance.with_suffix(".sol"), seed, seconds)
    return int(text.split()[1]), used


def cell(results):
    """The mean cost, the least and the greatest, and the mean time of some runs."""
    costs = [cost for cost, _ in results]
    seconds = sum(time for _, time in results) / len(results)
    return f"{sum(costs) / len(costs):.1f} ({min(costs)} to {max(costs)}), {seconds:.1f} s"


def row(instance, words, plain, folder):
    """Prints one week's line."""
    seeds = range(1, words.seeds + 1)
    cells, notes = [], []
    with ThreadPoolExecutor(words.jobs) as pool:
        for steps in words.steps.split(","):
            outs = [folder / f"{instance.stem}.{steps}.{seed}.sol" for seed in seeds]
            start = instance.with_suffix(".sol")
            found = list(pool.map(lambda seed: improved(instance, start, outs[seed - 1], seed, steps), seeds))
            cells.append(cell(found))
            if words.again:
                go_on = lambda seed: improved(instance, outs[seed - 1], folder / f"again.{seed}.sol", seed + len(seeds), steps)
                second = list(pool.map(go_on, seeds))
                gains = sum(after < before for (before, _), (after, _) in zip(found, second))
                notes.append(f"{instance.stem}, {steps} steps again: {cell(second)}, {gains} gain")
        if plain:
            cells.append(cell(list(pool.map(lambda seed: annealed(plain, instance, seed, words.plain), seeds))))
    print(f"| {instance.stem} | {' | '.join(cells)} |", *notes, sep="\n", flush=True)


def main():
    parser = argparse.ArgumentParser()
    parser.add_argument("--steps", default="10000,100000,1000000")
    parser.add_argument("--seeds", type=int, default=5)
    parser.add_argument("--jobs", type=int, default=1)
    parser.add_argument("--again", action="store_true")
    parser.add_argument("--plain", type=float)
    parser.add_argument("names", nargs="*")
    words = parser.parse_args()
    with tempfile.TemporaryDirectory() as folder:
        folder, plain = Path(folder), None
        heads = [head(steps) for steps in words.steps.split(",")]
        if words.plain:
            plain = folder / "anneal"
            subprocess.run(["rustc", "-O", "-o", plain, HERE / "anneal.rs"], check=True)
            heads.append(f"plain annealing, {words.plain:g} s")
        print(f"| Week | {' | '.join(heads)} |", "|---" * (len(heads) + 1) + "|", sep="\n")
        for name in words.names or NAMES:
            instance = Path(name) if name.endswith(".ctt") else EXAMPLES / f"{name}.ctt"
            row(instance, words, plain, folder)


if __name__ == "__main__":
    main()
