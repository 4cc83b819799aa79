#!/usr/bin/env python3
"""Prints how fast `tt bound` checks proofs that are as searches write them: trees over random paths of an instance of realistic shape,
which split on cells that are live as far as this script can see, and whose leaves are right for the bound 0.

Run by hand, after ./tt has built the program:  python3 bench/facts.py [NODES]
NODES is how many nodes each proof has at most (default 1,000,000). Beside each time stand those of bench/paths.rs, a checker of the same
proofs in plain Rust (`rustc -O`), and of `wc -w` on the same bytes. Every command is run five times, in turn with the others, and the least
processor time counts (user and system); one that takes more than 120 seconds is stopped and says so.
"""

import os
import random
import resource
import shutil
import subprocess
import sys
import tempfile
from pathlib import Path

HERE = Path(__file__).resolve().parent
PROGRAM = HERE.parent / "crates" / "tt" / "out" / "tt"
EXAMPLES = HERE.parent / "examples"
RUNS, MOST_SECONDS = 5, 120


class Instance:
    """What of an instance the choice of splits looks at."""

    def __init__(self, path):
        words = path.read_text().split("END.")[0].split()
        number = {name: int(words[words.index(name) + 1]) for name in ("Courses:", "Rooms:", "Days:", "Periods_per_day:", "Curricula:", "Constraints:")}
        self.days, self.periods = number["Days:"], number["Periods_per_day:"]
        at = words.index("COURSES:") + 1
        rows = [words[at + 5 * i:at + 5 * i + 5] for i in range(number["Courses:"])]
        self.names = {row[0]: i for i, row in enumerate(rows)}
        self.courses, self.rooms, self.curricula = len(rows), number["Rooms:"], number["Curricula:"]
        self.lectures = [int(row[2]) for row in rows]
        teachers = [row[1] for row in rows]
        self.conflicts = [{j for j in range(self.courses) if j != i and teachers[i] == teachers[j]} for i in range(self.courses)]
        at = words.index("CURRICULA:") + 1
        for _ in range(self.curricula):
            size = int(words[at + 1])
            members = [self.names[it] for it in words[at + 2:at + 2 + size]]
            at += 2 + size
            for course in members:
                self.conflicts[course] |= {it for it in members if it != course}
        at = words.index("UNAVAILABILITY_CONSTRAINTS:") + 1
        rows = [words[at + 3 * i:at + 3 * i + 3] for i in range(number["Constraints:"])]
        self.barred = {(self.names[c], int(d), int(p)) for c, d, p in rows}


class Tree:
    """Writes a tree node by node; the path is held as what it pins and bars of courses and periods."""

    def __init__(self, instance, rng, out, pattern, leaf):
        self.instance, self.rng, self.out, self.pattern, self.leaf = instance, rng, out, pattern, leaf
        self.gone = [dict() for _ in range(instance.courses)]
        self.nodes = 0

    def live_period(self):
        """A course and a period that seem live, after at most 20 tries."""
        for _ in range(20):
            course = self.rng.randrange(self.instance.courses)
            day, period = self.rng.randrange(self.instance.days), self.rng.randrange(self.instance.periods)
            if (day, period) not in self.gone[course] and (course, day, period) not in self.instance.barred:
                break
        return course, day, period

    def mark(self, courses, slot, by):
        for course in courses:
            self.gone[course][slot] = self.gone[course].get(slot, 0) + by
            if not self.gone[course][slot]:
                del self.gone[course][slot]

    def grow(self, depth):
        """Writes whole trees of this depth below the path, without recursion: a list of what is still to be done."""
        todo = [("open", depth)]
        while todo:
            what, *rest = todo.pop()
            if what == "open":
                self.nodes += 1
                (left,) = rest
                if left == 0:
                    self.out.write(self.leaf(self.rng, self.instance))
                    continue
                course, day, period = self.live_period()
                self.out.write("S " + self.pattern(self.rng, self.instance, course, day, period) + "\n")
                beside = self.instance.conflicts[course]
                todo.append(("unmark", [course], (day, period)))
                todo.append(("open", left - 1))
                todo.append(("mark", [course], (day, period)))
                todo.append(("unmark", beside, (day, period)))
                todo.append(("open", left - 1))
                todo.append(("mark", beside, (day, period)))
            else:
                courses, slot = rest
                self.mark(courses, slot, 1 if what == "mark" else -1)


def by_period(rng, instance, course, day, period):
    return f"c{course} * d{day} p{period}"


def mixed(rng, instance, course, day, period):
    """Half of the patterns give course, day and period; the others leave something out, give a room or speak of a curriculum."""
    kind = rng.randrange(10)
    room = rng.randrange(instance.rooms)
    if kind < 5:
        return f"c{course} * d{day} p{period}"
    if kind == 5:
        return f"c{course} r{room} d{day} p{period}"
    if kind == 6:
        return f"c{course} * d{day} *"
    if kind == 7:
        return f"c{course} r{room} * *"
    if kind == 8:
        return f"q{rng.randrange(instance.curricula)} * d{day} p{period}" if instance.curricula else f"c{course} * * p{period}"
    return f"c{course} * * p{period}"


def no_claim(rng, instance):
    return "B ;\n"


def all_claims(rng, instance):
    claims = [f"C c{c} {rng.randrange(1, 20)}" for c in range(instance.courses)] + [f"D c{c}" for c in range(instance.courses)]
    claims += [f"Q q{q}" for q in range(instance.curricula)] + [f"R c{c}" for c in range(instance.courses)]
    return "B " + " ".join(claims) + " ;\n"


def write_tree(path, instance, pattern, leaf, depth, nodes):
    """Trees of this depth below a comb, until there are about so many nodes."""
    rng = random.Random(1)
    with path.open("w") as out:
        out.write("CTTP 2 bound 0\n")
        tree = Tree(instance, rng, out, pattern, leaf)
        # A comb: the first child of each of its splits is a whole tree, the second the rest of the comb.
        while tree.nodes + 2 ** (depth + 1) < nodes:
            course, day, period = tree.live_period()
            out.write(f"S c{course} * d{day} p{period}\n")
            tree.nodes += 1
            beside = instance.conflicts[course]
            tree.mark(beside, (day, period), 1)
            tree.grow(depth)
            tree.mark(beside, (day, period), -1)
        out.write("B ;\nend\n")
    return tree.nodes + 1


def write_deep(path, instance, facts, nodes):
    """A comb of facts, and below it small trees."""
    rng = random.Random(2)
    cells = [(c, r, d, p) for c in range(instance.courses) for r in range(instance.rooms) for d in range(instance.days) for p in range(instance.periods)]
    rng.shuffle(cells)
    count = 0
    with path.open("w") as out:
        out.write("CTTP 2 bound 0\n")
        for c, r, d, p in cells[:facts]:
            out.write(f"S c{c} r{r} d{d} p{p}\nB ;\n")
            count += 2
        tree = Tree(instance, rng, out, by_period, no_claim)
        tree.grow(max(nodes.bit_length() - 2, 1))
        out.write("end\n")
    return count + tree.nodes


def write_below(path, instance, patterns, nodes):
    """Yes-facts of these patterns, one below the other, and below them a whole tree; the second child of each is a leaf."""
    with path.open("w") as out:
        out.write("CTTP 2 bound 0\n")
        out.writelines(f"S {pattern}\n" for pattern in patterns)
        tree = Tree(instance, random.Random(3), out, by_period, no_claim)
        tree.grow(max(nodes.bit_length() - 2, 1))
        out.write("B ;\n" * len(patterns) + "end\n")
    return 2 * len(patterns) + tree.nodes


def write_large(path):
    """An instance with more than 30,000 cells: 120 courses, ten rooms and 36 periods, and curricula of three courses."""
    courses = [f"c{i} t{i % 40} 3 2 {20 + i % 30}" for i in range(120)]
    curricula = [f"q{i} 3 c{3 * i} c{3 * i + 1} c{3 * i + 2}" for i in range(40)]
    heads = {"Name": "large", "Courses": 120, "Rooms": 10, "Days": 6, "Periods_per_day": 6, "Curricula": 40, "Constraints": 0}
    blocks = {"COURSES": courses, "ROOMS": [f"r{i} {25 + 2 * i}" for i in range(10)], "CURRICULA": curricula, "UNAVAILABILITY_CONSTRAINTS": []}
    lines = [f"{word}: {value}" for word, value in heads.items()]
    for word, rows in blocks.items():
        lines += ["", f"{word}:", *rows]
    path.write_text("\n".join(lines + ["", "END.", ""]))


def a_timetable(instance, rng):
    """A pattern for each lecture, in periods that a timetable can have at the same time."""
    taken, used, patterns = [set() for _ in range(instance.courses)], {}, []
    slots = [(d, p) for d in range(instance.days) for p in range(instance.periods)]
    for course in sorted(range(instance.courses), key=lambda c: -instance.lectures[c]):
        rng.shuffle(slots)
        can = [it for it in slots if (course, *it) not in instance.barred and used.get(it, 0) < instance.rooms
               and not any(it in taken[c] for c in [course, *instance.conflicts[course]])]
        for day, period in can[:instance.lectures[course]]:
            taken[course].add((day, period))
            used[day, period] = used.get((day, period), 0) + 1
            patterns.append(f"c{course} * d{day} p{period}")
    return patterns


def shapes_of(instance):
    """All patterns of one kind, by the kind."""
    each = [(c, r, d, p) for c in range(instance.courses) for r in range(instance.rooms) for d in range(instance.days) for p in range(instance.periods)]
    return {
        "c r d p": [f"c{c} r{r} d{d} p{p}" for c, r, d, p in each],
        "c * d p": [f"c{c} * d{d} p{p}" for c, r, d, p in each if r == 0],
        "c r * p": [f"c{c} r{r} * p{p}" for c, r, d, p in each if d == 0],
        "c r * *": [f"c{c} r{r} * *" for c, r, d, p in each if d == p == 0],
    }


def below_yes_facts(folder):
    """The rows whose trees are below yes-facts: a name, an instance and the patterns."""
    rng = random.Random(4)
    for file in ("like02", "like05"):
        path = EXAMPLES / f"{file}.ctt"
        yield f"a tree below a timetable's yes-facts `c * d p`, {file}", path, a_timetable(Instance(path), rng)
    path = folder / "large.ctt"
    write_large(path)
    shapes = shapes_of(Instance(path))
    for shape, count in [("c r d p", 0), ("c r d p", 8_000), ("c r d p", 30_000), ("c * d p", 4_000), ("c r * p", 7_000), ("c r * *", 1_200)]:
        yield f"a tree below {count:,} yes-facts `{shape}`, 120 courses", path, rng.sample(shapes[shape], count)


def processor_seconds():
    """What all commands so far have taken of a processor."""
    used = resource.getrusage(resource.RUSAGE_CHILDREN)
    return used.ru_utime + used.ru_stime


def run(words):
    """The processor seconds of a run, none where it was stopped, and what it printed."""
    before = processor_seconds()
    try:
        done = subprocess.run(words, capture_output=True, text=True, timeout=MOST_SECONDS, env={**os.environ, "LC_ALL": "C.UTF-8"})
    except subprocess.TimeoutExpired:
        return None, ""
    if done.returncode:
        sys.exit(f"{words}: {done.stderr}")
    return processor_seconds() - before, done.stdout


def row(name, instance, proof, nodes, plain):
    commands = {"tt": [PROGRAM, "bound", instance, proof], "plain": [plain, instance, proof], "wc": ["wc", "-w", proof]}
    best = {}
    for _ in range(RUNS):
        for key, words in commands.items():
            taken, printed = run(words)
            if key != "wc" and taken is not None and printed != "bound 0\n":
                sys.exit(f"{name}: {words[0]} printed {printed}")
            best[key] = taken if taken is None or key not in best else min(best[key], taken)
        if None in best.values():
            break
    size = proof.stat().st_size / 1e6
    rate = lambda key: f"stopped at {MOST_SECONDS} s" if best[key] is None else f"{size / best[key]:.0f} MB/s"
    if best["tt"] is None or best["plain"] is None:
        print(f"| {name} | {nodes:,} nodes, {size:.1f} MB | {rate('tt')} | | {rate('plain')} | | |", flush=True)
        return
    print(f"| {name} | {nodes:,} nodes, {size:.1f} MB | {best['tt']:.2f} s, {rate('tt')} | {1e6 * best['tt'] / nodes:.2f} µs | {best['plain']:.2f} s, {rate('plain')} | {best['tt'] / best['plain']:.2f} | {rate('wc')} |", flush=True)


def main():
    if not PROGRAM.exists():
        sys.exit("run ./tt first: the program is not built")
    nodes = int(sys.argv[1]) if len(sys.argv) > 1 else 1_000_000
    if not shutil.which("rustc"):
        sys.exit("there is no rustc")
    print("| Proof | Size | `tt bound` | A node | Plain Rust | Times its time | `wc -w` |\n|---|---|---|---|---|---|---|")
    with tempfile.TemporaryDirectory() as folder:
        plain = Path(folder) / "plain"
        subprocess.run(["rustc", "-O", "-o", plain, HERE / "paths.rs"], check=True)
        proof = Path(folder) / "long.proof"
        for name, file, pattern, leaf, depth, share in [
            ("`c * d p`, like01", "like01", by_period, no_claim, 12, 1),
            ("`c * d p`, like02", "like02", by_period, no_claim, 12, 1),
            ("mixed patterns, like02", "like02", mixed, no_claim, 12, 1),
            ("long Cost leaves, like01", "like01", by_period, all_claims, 6, 20),
            ("long Cost leaves, like02", "like02", by_period, all_claims, 6, 20),
        ]:
            path = EXAMPLES / f"{file}.ctt"
            count = write_tree(proof, Instance(path), pattern, leaf, depth, nodes // share)
            row(name, path, proof, count, plain)
        path = EXAMPLES / "like05.ctt"
        for facts in (1_500, 50_000):
            count = write_deep(proof, Instance(path), facts, nodes)
            row(f"{facts:,} facts above, like05", path, proof, count, plain)
        for name, path, patterns in below_yes_facts(Path(folder)):
            count = write_below(proof, Instance(path), patterns, nodes)
            row(name, path, proof, count, plain)
    print(f"cores: {os.cpu_count()}")


if __name__ == "__main__":
    sys.exit(print(__doc__) if sys.argv[1:] == ["--help"] else main())
