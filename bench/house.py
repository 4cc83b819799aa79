#!/usr/bin/env python3
"""Counts what the whole tree has, in one table: lines by kind, crates, functions that are long or take many values, edits, and words.

    python3 bench/house.py [--since COMMIT]

and names below the functions of the second kind. With --since the same is counted of another commit, in a folder of its own, and stands beside it.

A line of a source counts once: `ghost use` lines are left out of src and tests. Answers are the files Answers, Invariants and Proof of proofs/;
every other file there has lemmas. The program's crates are those that `tt` stands on. The parameters of a function count with `self`; its lines are
those between its braces, without its contract. The statement is what bench/statement.py of that tree counts.
"""
import argparse
import re
import subprocess
import sys
import tempfile
from pathlib import Path

TOP = Path(__file__).resolve().parent.parent
MOST_PARAMETERS, MOST_LINES = 6, 40
ANSWERS = {"Answers.antt", "Invariants.antt", "Proof.antt"}
HEAD = re.compile(r"^( *)(?:pub(?:\([a-z]+\))? )?(?:const )?fn (\w+)", re.M)
GHOST_USE = re.compile(r"^\s*ghost use ", re.M)


def text_of(path):
    return path.read_text(encoding="utf-8")


def lines_in(paths):
    return sum(text_of(it).count("\n") for it in paths)


def crates_of(top):
    """The crates of crates.txt: those on which the program stands, and the others."""
    below = {}
    for line in text_of(top / "crates.txt").splitlines():
        name, colon, words = line.partition("#")[0].partition(":")
        if colon:
            below[name.strip()] = words.split()
    found, waiting = set(), ["tt"]
    while waiting:
        crate = waiting.pop()
        if crate in below and crate not in found:
            found.add(crate)
            waiting += below[crate]
    return found, set(below) - found


def without_comments(text):
    """A source whose comments are spaces, so that places stay."""
    return re.sub(r"//.*", lambda found: " " * len(found[0]), text)


def closing(text, at):
    """Where the bracket that opens at a place is closed; an arrow closes nothing."""
    opened, closed, depth = text[at], {"(": ")", "<": ">", "{": "}"}[text[at]], 0
    while at < len(text):
        if text[at] == opened:
            depth += 1
        elif text[at] == closed and not (closed == ">" and text[at - 1] in "-="):
            depth -= 1
            if depth == 0:
                return at
        at += 1
    return at


def parameters_in(text):
    """How many parameters a list has."""
    depth, count, some = 0, 0, False
    for at, letter in enumerate(text):
        if letter in "([{<":
            depth += 1
        elif letter in ")]}" or (letter == ">" and text[at - 1] not in "-="):
            depth -= 1
        if letter == "," and depth == 0:
            count, some = count + some, False
        elif not letter.isspace():
            some = True
    return count + some


def body_lines(lines, at, indent):
    """How many lines a function's body has whose parameters end on a line; none where it has no body."""
    if lines[at].rstrip().endswith((";", "}")):
        return 0
    while not lines[at].rstrip().endswith("{") or (lines[at].strip() != "{" and lines[at].lstrip().startswith(("ensures", "requires"))):
        at += 1
        if at == len(lines) or HEAD.match(lines[at]) or lines[at].rstrip() == " " * (indent - 4) + "}":
            return 0
    end = at + 1
    while end < len(lines) and lines[end].rstrip() != " " * indent + "}":
        end += 1
    return end - at - 1


def functions_of(path):
    """The functions of a source: place, name, parameters, and lines of the body."""
    text = without_comments(text_of(path))
    lines = text.splitlines()
    for head in HEAD.finditer(text):
        at = head.end()
        if text[at] == "<":
            at = closing(text, at) + 1
        if text[at] != "(":
            continue
        end = closing(text, at)
        yield text.count("\n", 0, head.start()) + 1, head[2], parameters_in(text[at + 1 : end]), body_lines(lines, text.count("\n", 0, end), len(head[1]))


def lines_of_statement(top):
    """What the tree's own script counts of the headline."""
    script = top / "bench" / "statement.py"
    if not script.exists():
        return None
    said = subprocess.run([sys.executable, script], capture_output=True, text=True).stdout
    found = re.search(r"^ *(\d+)  lines, \d+ definitions", said, re.M)
    return int(found[1]) if found else None


def documents_of(top):
    kept = [it for it in top.rglob("*.md") if not {"out", "crates", ".git", "hostile"} & set(it.relative_to(top).parts[:-1])]
    return sorted(kept)


def counted(top):
    """What a tree has: each row of the table with its number, and the functions that are too long or take too many values."""
    program, tests = crates_of(top)
    files = lambda crates, pattern: [it for crate in sorted(crates) for it in sorted((top / "crates" / crate).glob(pattern))]
    sources, trials = files(program, "src/**/*.rt"), files(tests, "src/**/*.rt")
    ghosts = lambda paths: sum(len(GHOST_USE.findall(text_of(it))) for it in paths)
    proofs = files(program | tests, "proofs/**/*.antt")
    functions = [(it, *function) for it in [*sources, *trials] for function in functions_of(it)]
    many = [it for it in functions if it[3] > MOST_PARAMETERS]
    long = [it for it in functions if it[4] > MOST_LINES]
    rows = {
        "lines of src, program": lines_in(sources) - ghosts(sources),
        "lines of `ghost use`, program": ghosts(sources),
        "lines of specs": lines_in(files(program | tests, "specs/**/*.antt")),
        "lines of lemmas": lines_in(it for it in proofs if it.name not in ANSWERS),
        "lines of answers": lines_in(it for it in proofs if it.name in ANSWERS),
        "lines of tests": lines_in(trials) - ghosts(trials),
        "lines of the statement": lines_of_statement(top),
        "crates of the program": len(program),
        "crates of tests": len(tests),
        "functions, program": sum(1 for it in functions if it[0] in set(sources)),
        f"functions with more than {MOST_PARAMETERS} parameters": len(many),
        f"functions of more than {MOST_LINES} lines": len(long),
        "enums of faults": sum(len(re.findall(r"^\s*pub enum \w*Fault\b", text_of(it), re.M)) for it in sources),
        "must-fail edits in crates/": len(files(program | tests, "must-fail/*.edit")),
        "must-fail edits that the gate leaves out": len(list((top / "crates").glob("*/edits/*.edit"))),
        "documents": len(documents_of(top)),
        "words of documents": sum(len(text_of(it).split()) for it in documents_of(top)),
    }
    return rows, many, long


def counted_of(commit):
    """What another commit has, from a copy of its files."""
    with tempfile.TemporaryDirectory() as folder:
        at = Path(folder) / "tree"
        done = subprocess.run(["git", "worktree", "add", "--quiet", "--detach", at, commit], cwd=TOP, capture_output=True, text=True)
        if done.returncode:
            sys.exit(f"there is no commit {commit}: {done.stderr.strip()}")
        try:
            return counted(at)
        finally:
            subprocess.run(["git", "worktree", "remove", "--force", at], cwd=TOP, check=True)


def shown(number):
    return "" if number is None else f"{number:,}"


def main():
    parser = argparse.ArgumentParser(description="Counts what the whole tree has, in one table.")
    parser.add_argument("--since", metavar="COMMIT", help="another commit, whose counts stand beside those of this tree")
    options = parser.parse_args()
    older = counted_of(options.since)[0] if options.since else None
    rows, many, long = counted(TOP)
    columns = ["now"] if older is None else [options.since, "now", "more"]
    print(f"| What | {' | '.join(columns)} |\n|---|{'---|' * len(columns)}")
    for name, number in rows.items():
        cells = [shown(number)]
        if older is not None:
            before = older.get(name)
            more = "" if number is None or before is None or number == before else f"{number - before:+,}"
            cells = [shown(before), shown(number), more]
        print(f"| {name} | {' | '.join(cells)} |")
    for what, functions, place in [("parameters", many, 3), ("lines", long, 4)]:
        for it in sorted(functions, key=lambda it: (-it[place], str(it[0]))):
            print(f"{it[0].relative_to(TOP)}:{it[1]}: {it[2]} has {it[place]} {what}")


if __name__ == "__main__":
    main()
