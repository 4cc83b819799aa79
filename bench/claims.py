#!/usr/bin/env python3
"""Prints how long `tt_leaf_find::best_claims` takes on a path of at most sixteen drawn facts of some examples, and beside it what paths.rs, plain
Rust over words of the same kind, takes.

Run by hand:  python3 bench/claims.py
The Rattle side is the program in claims/: it is proved and built, as rt run builds programs, in a repository made for it, with the crates
that it stands on; what has been proved of them is taken over. The two programs are run twenty times in turn, and the least time of each
counts. That they agree in the number of facts and claims and in the sum of the prices is checked each time.
"""

import os
import shutil
import subprocess
import sys
import tempfile
from pathlib import Path

from rattle import repository

HERE = Path(__file__).resolve().parent
PROJECT = HERE.parent
EXAMPLES = PROJECT / "examples"
RUNS = 20
NAMES = ["small01", "small05", "like01", "like02", "like05"]


def built(folder, words):
    """The program of claims/, proved."""
    crate = repository(folder, "claims")
    done = subprocess.run(["rt", "run", "--", *words], cwd=crate, stdout=subprocess.PIPE, stderr=subprocess.STDOUT, text=True, check=False)
    if done.returncode != 0:
        sys.exit(done.stdout[-4000:])
    return crate / "out" / "tt_claims"


def measured(program, words):
    """The facts, the claims and the sum of their prices, and the nanoseconds."""
    numbers = subprocess.run([program, *words], stdout=subprocess.PIPE, text=True, check=True).stdout.split()
    return tuple(map(int, numbers[:3])), int(numbers[3])


def main():
    for command in ("rt", "rustc"):
        if not shutil.which(command):
            sys.exit(f"there is no {command}")
    with tempfile.TemporaryDirectory() as folder:
        folder = Path(folder)
        subprocess.run(["rustc", "-O", "-o", folder / "plain", HERE / "paths.rs"], check=True)
        proved = built(folder / "repository", [EXAMPLES / "small01.ctt"])
        print("| Instance | Facts, claims, prices | `best_claims` | Plain Rust | Times its time |\n|---|---|---|---|---|")
        for name in NAMES:
            path = EXAMPLES / f"{name}.ctt"
            programs = {"proved": [proved, [path]], "plain": [folder / "plain", [path, "claims"]]}
            best = {}
            for _ in range(RUNS):
                runs = {key: measured(*command) for key, command in programs.items()}
                if runs["proved"][0] != runs["plain"][0]:
                    sys.exit(f"{name}: the programs differ: {runs['proved'][0]}, {runs['plain'][0]}")
                best = {key: min(best.get(key, 1 << 62), run[1]) for key, run in runs.items()}
            told = ", ".join(map(str, runs["proved"][0]))
            print(f"| {name} | {told} | {best['proved'] / 1000:.2f} µs | {best['plain'] / 1000:.2f} µs | {best['proved'] / best['plain']:.1f} |")
    print(f"cores: {os.cpu_count()}")


if __name__ == "__main__":
    sys.exit(print(__doc__) if sys.argv[1:] == ["--help"] else main())
