#!/usr/bin/env python3
"""Runs tt on each instance of a folder, and prints a table of cost, bound and seconds.

    python3 bench/folder.py FOLDER [--rounds N] [--time SECONDS] [--seed N] [--keep DIR] [--jobs N]
    python3 bench/folder.py FOLDER --solve [--nodes N] [--time SECONDS] [--seed N] [--keep DIR] [--jobs N]

The instances are the files of FOLDER that end in .ctt. Each is given to `tt best`, or with --solve to `tt solve`. The timetable and the proofs are
then checked by `tt sum --solution`. Rows are printed in the order of names, also with --jobs, which runs so many instances side by side. Seconds
are those of the search on the clock. With --keep the files of each instance are left in a folder of its name in DIR. The status is 1 if an instance
was refused, a run failed, or the checker comes to another cost or bound. Run by hand, after ./tt has built the program; TT names another one.
"""
import argparse
import os
import subprocess
import sys
import tempfile
import time
from concurrent.futures import ThreadPoolExecutor
from pathlib import Path

PROGRAM = Path(os.environ.get("TT") or Path(__file__).resolve().parent.parent / "crates" / "tt" / "out" / "tt")
PROOFS = ("groups.proof", "prices.proof", "tree.proof")
FILES = ("best.sol", "page.html", *PROOFS)


def run(*words):
    return subprocess.run([PROGRAM, *map(str, words)], capture_output=True, text=True)


def search(options, instance, folder):
    """Runs the search on an instance, which writes its files to a folder; returns the run, the timetable's file and those of the proofs."""
    shared = ["--seed", options.seed, *(["--time", options.time] if options.time else [])]
    if options.solve:
        timetable, proof = folder / "best.sol", folder / "tree.proof"
        return run("solve", instance, timetable, proof, "--nodes", options.nodes, *shared), timetable, [proof]
    done = run("best", instance, folder, "--rounds", options.rounds, *shared)
    proofs = [folder / name for name in PROOFS]
    return done, folder / "best.sol", [it for it in proofs if it.exists()]


def check(instance, cost, bound, timetable, proofs):
    """Returns what the checker finds wrong with a cost and a bound; an empty text if nothing is."""
    if cost == "none":
        done = run("sum", instance, *proofs)
        wanted = ["bound", bound]
    else:
        done = run("sum", instance, "--solution", timetable, *proofs)
        wanted = ["yes", "cost", cost, "bound", bound]
    if done.stdout.split()[: len(wanted)] == wanted:
        return ""
    return f"the checker does not confirm cost {cost} bound {bound}: {(done.stdout + done.stderr).strip()}"


def row(options, instance, folder):
    """Returns the row of an instance, and whether it was searched and the checker confirms what was found."""
    folder.mkdir(parents=True, exist_ok=True)
    for older in FILES:
        (folder / older).unlink(missing_ok=True)
    start = time.perf_counter()
    done, timetable, proofs = search(options, instance, folder)
    seconds = time.perf_counter() - start
    words = done.stdout.split()
    if done.returncode not in (0, 1) or len(words) < 4:
        why = f"ended by signal {-done.returncode}" if done.returncode < 0 else done.stderr.strip() or f"status {done.returncode}"
        return f"| {instance.stem} | | | {seconds:.1f} | {why} |", False
    cost, bound = words[1], words[3]
    wrong = check(instance, cost, bound, timetable, proofs)
    if cost == "none":
        remark = "no feasible timetable" if bound == "none" else "none found"
    else:
        remark = "optimal" if cost == bound else ""
    return f"| {instance.stem} | {cost} | {bound} | {seconds:.1f} | {wrong or remark} |", not wrong


def instances_of(folder):
    """The instances of a folder, in the order of their names."""
    if not folder.exists():
        sys.exit(f"there is no folder {folder}")
    if not folder.is_dir():
        sys.exit(f"{folder} is no folder")
    found = sorted(folder.glob("*.ctt"))
    return found or sys.exit(f"{folder} has no file that ends in .ctt")


def main():
    parser = argparse.ArgumentParser(description="Runs tt on each instance of a folder, and prints a table of cost, bound and seconds.")
    parser.add_argument("folder", type=Path, help="the folder of the .ctt files")
    parser.add_argument("--rounds", type=int, default=10, help="rounds of `tt best`, 1 to 1000")
    parser.add_argument("--solve", action="store_true", help="runs `tt solve` in place of `tt best`")
    parser.add_argument("--nodes", type=int, default=1_000, help="nodes of `tt solve`, 1 to 65536")
    parser.add_argument("--time", type=int, metavar="SECONDS", help="when each search ends at the latest")
    parser.add_argument("--seed", type=int, default=1)
    parser.add_argument("--keep", type=Path, metavar="DIR", help="leaves the files of each instance in DIR")
    parser.add_argument("--jobs", type=int, default=1, metavar="N", help="how many instances are run side by side")
    options = parser.parse_args()
    if options.jobs < 1:
        parser.error("--jobs: at least one")
    instances = instances_of(options.folder)
    if not PROGRAM.exists():
        sys.exit("run ./tt first: the program is not built")
    print("| Instance | Cost | Bound | Seconds | |\n|---|---|---|---|---|", flush=True)
    with tempfile.TemporaryDirectory() as scratch, ThreadPoolExecutor(options.jobs) as pool:
        folders = [(options.keep or Path(scratch)) / it.stem for it in instances]
        confirmed = True
        for text, is_right in pool.map(row, [options] * len(instances), instances, folders):
            print(text, flush=True)
            confirmed = confirmed and is_right
    return 0 if confirmed else 1


if __name__ == "__main__":
    sys.exit(main())
