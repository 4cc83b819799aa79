#!/usr/bin/env python3
"""Prints what `tt solve` finds on the examples: the cost, the bound, how many nodes the proof has, the seconds, and those that
`tt bound` takes to check the proof, whose bound must be the same.

Run by hand, after ./tt has built the program:  python3 bench/solve.py [SECONDS]
A limit of nodes is left out for an instance once a smaller one took more than SECONDS (default 60).
"""

import subprocess
import sys
import tempfile
import time
from pathlib import Path

HERE = Path(__file__).resolve().parent
PROGRAM = HERE.parent / "crates" / "tt" / "out" / "tt"
EXAMPLES = HERE.parent / "examples"
LIMITS = [1, 10, 100, 1_000, 10_000, 65_536]


def timed(*words):
    start = time.perf_counter()
    done = subprocess.run([PROGRAM, *words], capture_output=True, text=True)
    return time.perf_counter() - start, done


def row(name, limit, folder):
    """Prints one search, and answers how long it took and whether it ended."""
    instance, out, proof = EXAMPLES / f"{name}.ctt", folder / "best.sol", folder / "best.proof"
    taken, found = timed("solve", instance, out, proof, "--nodes", str(limit))
    if found.returncode == 2:
        sys.exit(f"{name}: {found.stderr}")
    checked, bound = timed("bound", instance, proof)
    words = found.stdout.split()
    if bound.stdout.split() != words[2:4]:
        sys.exit(f"{name}: solve says {found.stdout} and bound says {bound.stdout}{bound.stderr}")
    nodes = sum(1 for _ in proof.open()) - 2
    print(f"| {name} | {limit:,} | {words[1]} | {words[3]} | {words[4]} | {nodes:,} | {taken:.2f} | {checked:.2f} |", flush=True)
    return taken, words[4] == "finished"


def main():
    if not PROGRAM.exists():
        sys.exit("run ./tt first: the program is not built")
    most = float(sys.argv[1]) if len(sys.argv) > 1 else 60
    print("| Instance | Nodes at most | Cost | Bound | | Nodes of the proof | Seconds | `tt bound`, seconds |\n|---|---|---|---|---|---|---|---|")
    with tempfile.TemporaryDirectory() as folder:
        for path in sorted(EXAMPLES.glob("*.ctt")):
            for limit in LIMITS:
                taken, finished = row(path.stem, limit, Path(folder))
                if finished or taken > most:
                    break


if __name__ == "__main__":
    sys.exit(print(__doc__) if sys.argv[1:] == ["--help"] else main())
