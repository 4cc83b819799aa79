#!/usr/bin/env python3
"""Prints what `tt parts` finds on instances: the sum of the bounds, how many proofs there are, how many nodes they have, the seconds, and
those that `tt sum` takes to check the proofs, whose sum must be the same.

Run by hand, after ./tt has built the program:  python3 bench/parts.py [INSTANCE..]
The instances are .ctt files; where none is given, like02, like04, like05, small01 and small05 of examples/ are taken.
"""

import subprocess
import sys
import tempfile
import time
from pathlib import Path

HERE = Path(__file__).resolve().parent
PROGRAM = HERE.parent / "crates" / "tt" / "out" / "tt"
EXAMPLES = HERE.parent / "examples"
NAMES = ["like02", "like04", "like05", "small01", "small05"]
LIMITS = [10_000, 100_000, 1_000_000]


def timed(*words):
    start = time.perf_counter()
    done = subprocess.run([PROGRAM, *words], capture_output=True, text=True)
    return time.perf_counter() - start, done


def row(instance, limit, folder):
    """Prints one search."""
    taken, found = timed("parts", instance, folder, "--nodes", str(limit))
    if found.returncode != 0:
        sys.exit(f"{instance.stem}: {found.stderr}")
    proofs = sorted(folder.glob("*.proof"))
    checked, bound = timed("sum", instance, *proofs)
    words = found.stdout.split()
    if bound.stdout.split() != words[:2]:
        sys.exit(f"{instance.stem}: parts says {found.stdout} and sum says {bound.stdout}{bound.stderr}")
    nodes = sum(sum(1 for _ in proof.open()) - 2 for proof in proofs)
    print(f"| {instance.stem} | {limit:,} | {words[1]} | {words[3]} | {nodes:,} | {taken:.2f} | {checked:.2f} |", flush=True)


def main():
    if not PROGRAM.exists():
        sys.exit("run ./tt first: the program is not built")
    instances = [Path(word) for word in sys.argv[1:]] or [EXAMPLES / f"{name}.ctt" for name in NAMES]
    print("| Instance | Nodes at most | Bound | Proofs | Their nodes | Seconds | `tt sum`, seconds |\n|---|---|---|---|---|---|---|")
    for instance in instances:
        for limit in LIMITS:
            with tempfile.TemporaryDirectory() as folder:
                row(instance, limit, Path(folder))


if __name__ == "__main__":
    sys.exit(print(__doc__) if sys.argv[1:] == ["--help"] else main())
