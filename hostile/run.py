#!/usr/bin/env python3
"""Puts the program and its calls into a hostile world, and looks at what they answer.

    python3 hostile/run.py [PART[:TEXT] ..]

The parts, all of them if none is named; with a text only the rows of a part whose names contain it:

calls    each public call that takes memory, with its first growth refused, then its second, until none is met
memory   the program, each command the same way; one that writes files also where none are there yet
disk     the program, each command with each call to the system failing in turn, in several ways; of more than 150 calls, as those that
         write a page byte by byte, the first and the last 50 and some 50 between; one that writes files also where none are there yet
inputs   cut files, endless files, numbers at their limits, files that aren't there
outputs  standard streams, links, folders, files that can't be replaced, searches that are stopped or begin at earlier results
largest  the largest inputs that are taken, and what is one above a limit; prints times and peak memory
slow     files that hold the program long for their size; fails if a row takes twice what is aimed at

The others take some twenty minutes, the largest inputs less than a third of that; the last line but one says how long it took. It needs what `rt ci`, or
`./tt` and `rt all test`, have built; TT names another program. Rows that need what the system doesn't give, as root's rights, are left out and say so.
The last line is `N passed, M failed`; the status is 1 where something failed.
"""

import os
import sys
import tempfile
import time
from pathlib import Path

import calls
import inputs
import largest
import outputs
import program
import slow
from refusing import Refuser


class Tally:
    passed = failed = 0
    text = ""

    def run(self, name, work):
        """Does one piece of work, if it is asked for, and says what came of it."""
        if self.text not in name:
            return
        start = time.perf_counter()
        try:
            said = work() or ""
            self.passed += 1
        except Exception as fault:
            said = f"FAILED: {type(fault).__name__}: {fault}"
            self.failed += 1
        print(f"{name}: {said}{', ' if said else ''}{time.perf_counter() - start:.1f} s", flush=True)


def answers_of(answers):
    told = ", ".join(f"{count} {answer}" for answer, count in sorted(answers.items()))
    return f"{answers.total()} growths{', answers: ' if told else ''}{told}"


def run_calls(tally, refuser, folder):
    for built in calls.programs():
        tally.run(built.name, lambda: f"{len(calls.tests(built))} calls")
        for name in calls.tests(built) if built.exists() else []:
            tally.run(name.removeprefix("memory::"), lambda: answers_of(calls.growths(refuser, built, name)))


def on_shelves(tally, refuser, folder, work):
    """Does some work with the runs of each command: where older files are, and, if it writes some, where none are."""
    for command in program.COMMANDS:
        for has_older in (True, False) if command.written != {} else (True,):
            with tempfile.TemporaryDirectory(dir=folder) as room:
                shelf = program.Shelf(Path(room), has_older)
                tally.run(command.name() + ("" if has_older else ", no older files"), lambda: work(program.Runs(refuser, shelf, command)))


def run_memory(tally, refuser, folder):
    on_shelves(tally, refuser, folder, lambda runs: answers_of(runs.growths()))


def run_disk(tally, refuser, folder):
    on_shelves(tally, refuser, folder, lambda runs: f"{runs.calls()} runs")


def run_inputs(tally, refuser, folder):
    for name, row in inputs.ROWS:
        with tempfile.TemporaryDirectory(dir=folder) as room:
            tally.run(name, lambda: row(inputs.Desk(Path(room), refuser)))


def run_outputs(tally, refuser, folder):
    for name, row in outputs.ROWS:
        with tempfile.TemporaryDirectory(dir=folder) as room:
            tally.run(name, lambda: row(inputs.Desk(Path(room), refuser)))


def run_largest(tally, refuser, folder):
    for name, row in largest.ROWS:
        with tempfile.TemporaryDirectory(dir=folder) as room:
            tally.run(name, lambda: row(largest.Table(Path(room))))


def run_slow(tally, refuser, folder):
    for name, row in slow.ROWS:
        with tempfile.TemporaryDirectory(dir=folder) as room:
            tally.run(name, lambda: row(largest.Table(Path(room))))


PARTS = {"calls": run_calls, "memory": run_memory, "disk": run_disk, "inputs": run_inputs, "outputs": run_outputs, "largest": run_largest, "slow": run_slow}


def main():
    asked = [it.partition(":")[::2] for it in sys.argv[1:] or PARTS]
    if not {part for part, _ in asked} <= set(PARTS):
        sys.exit(__doc__)
    if not program.PROGRAM.exists():
        sys.exit("run ./tt first: the program is not built")
    tally, start = Tally(), time.perf_counter()
    for part, tally.text in asked:
        print(f"== {part}", flush=True)
        with tempfile.TemporaryDirectory() as library, tempfile.TemporaryDirectory() as folder:
            PARTS[part](tally, Refuser(library), Path(folder))
    print(f"{time.perf_counter() - start:.0f} seconds on {os.cpu_count()} cores")
    print(f"{tally.passed} passed, {tally.failed} failed")
    return 1 if tally.failed or not tally.passed else 0


if __name__ == "__main__":
    sys.exit(print(__doc__) if sys.argv[1:] == ["--help"] else main())
