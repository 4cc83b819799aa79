#!/usr/bin/env python3
"""Tries the wrong edits that the gate leaves out: bodies that break a clause, which the prover has to refuse.

    python3 hostile/edits.py [CRATE ..]
    python3 hostile/edits.py --look

A crate with must-fail edits is proved a second time before the first of them, so the gate has a part of them, in few crates
(crates/*/must-fail). The others are files of the same form in crates/*/edits. This script copies the repository without what was built,
makes them the must-fail edits of the named crates, or of all, and runs `rt ci` over these, which takes from earlier runs what they proved.
The last line is `N edits of M crates were refused`, or the status is 1.

With --look nothing is proved: it looks, in a second, whether each old text of each edit, also of those in the gate, stands once in its file.
"""

import shutil
import subprocess
import sys
import tempfile
from pathlib import Path

TOP = Path(__file__).resolve().parent.parent
CRATES = TOP / "crates"


def copy_crates(to):
    """Copies what proves the crates, and no edits."""
    (to / ".git").mkdir()
    for name in ("HANDLES", "crates.txt"):
        shutil.copy(TOP / name, to / name)
    shutil.copytree(CRATES, to / "crates", ignore=shutil.ignore_patterns("out", "must-fail", "edits"))


def missing_texts(edit, crate):
    """The old texts of an edit that don't stand once in their file, once the edit's earlier changes are made."""
    texts, file, old = {}, None, None
    for line in edit.read_text(encoding="utf-8").splitlines():
        word, _, text = line.partition(": ")
        if word == "file":
            file = TOP / "crates" / crate / text
        elif word == "old":
            old = text
        elif word == "new":
            whole = texts.get(file) or (file.read_text(encoding="utf-8") if file.exists() else "")
            if whole.count(old) != 1:
                yield f"{edit.relative_to(TOP)}: stands {whole.count(old)} times in {file.relative_to(TOP)}: {old}"
            texts[file] = whole.replace(old, text, 1)


def look():
    """Prints the texts that are missing, and returns the status."""
    edits = [(it, it.parent.parent.name) for folder in ("must-fail", "edits") for it in sorted(CRATES.glob(f"*/{folder}/*.edit"))]
    missing = [text for edit, crate in edits for text in missing_texts(edit, crate)]
    print("".join(f"{it}\n" for it in missing) + f"{len(edits)} edits, {len(missing)} texts that don't stand once")
    return 1 if missing else 0


def try_edits(folder, names):
    """Runs the gate over the named crates of the copy, and returns its status and the number of edits that were refused."""
    refused = 0
    with subprocess.Popen(["rt", "ci", *names], cwd=folder, stdin=subprocess.DEVNULL, stdout=subprocess.PIPE, text=True) as run:
        for line in run.stdout:
            print(line, end="", flush=True)
            refused += ": refused, as it must be" in line
    return run.returncode, refused


def main(names):
    if names == ["--look"]:
        return look()
    known = sorted(it.parent.name for it in CRATES.glob("*/edits"))
    for name in names:
        if name not in known:
            sys.exit(f"{name} has no folder edits: {', '.join(known)} have")
    names = names or known
    with tempfile.TemporaryDirectory() as folder:
        to = Path(folder)
        copy_crates(to)
        for name in names:
            shutil.copytree(CRATES / name / "edits", to / "crates" / name / "must-fail")
        status, refused = try_edits(to, names)
    count = sum(1 for name in names for _ in (CRATES / name / "edits").glob("*.edit"))
    if status or refused != count:
        sys.exit("some of the edits were not refused, or not tried")
    print(f"{count} edits of {len(names)} crates were refused")
    return 0


if __name__ == "__main__":
    sys.exit(print(__doc__) if sys.argv[1:] == ["--help"] else main(sys.argv[1:]))
