"""The largest inputs that the limits accept, each through the program, with its time and its peak memory; and one above each limit."""

import os
import shutil
import subprocess
import tempfile
import time
from dataclasses import dataclass

from inputs import LEAF, SPACES, SPLIT, Desk, refused, same
from program import PROGRAM
from samples import MINI

COURSES, ROOMS, DAYS, PERIODS = 2_048, 64, 64, 8
CURRICULA, LINES, ENTRIES, FILE_BYTES = 8_192, 65_536, 16_384, 67_108_864
PROOF_BYTES = 4_294_967_295
HEADER = b"CTTP 1 bound 0\n"
END = b"end\n"
TIMER = shutil.which("time")
# The status of a run that was stopped, by the command timeout.
STOPPED = 124


@dataclass
class Measured:
    status: int
    out: bytes
    err: bytes
    seconds: float
    peak: float

    def told(self):
        return self.status, self.out, self.err

    def figures(self):
        return f"{self.seconds:.2f} s, {self.peak:.1f} MiB"


@dataclass
class Table:
    """A folder, and the program run in it, with its time and the peak of its memory in MiB: what /usr/bin/time says where it is there,
    else what the system says, which is no less than what this script itself has."""

    folder: object

    def put(self, **texts):
        for name, text in texts.items():
            (self.folder / name).write_bytes(text)

    def run(self, words, pieces=(), seconds=1200):
        timer = [TIMER, "-q", "-f", "%M"] if TIMER else []
        timer += ["timeout", f"{seconds:.0f}"]
        with tempfile.TemporaryFile() as out, tempfile.TemporaryFile() as err:
            start = time.perf_counter()
            child = subprocess.Popen([*timer, PROGRAM, *words.split()], cwd=self.folder, stdin=subprocess.PIPE, stdout=out, stderr=err)
            try:
                for piece in pieces:
                    child.stdin.write(piece)
                child.stdin.close()
            except BrokenPipeError:
                pass
            _, status, usage = os.wait4(child.pid, 0)
            taken = time.perf_counter() - start
            child.returncode = os.waitstatus_to_exitcode(status)
            out.seek(0)
            err.seek(0)
            told, peak = err.read(), usage.ru_maxrss
            if TIMER:
                told, _, number = told[:-1].rpartition(b"\n")
                told, peak = told + (b"\n" if told else b""), int(number)
            return Measured(child.returncode, out.read(), told, taken, peak / 1024)


def padded(text, count):
    """A text followed by spaces, so many bytes in all."""
    assert len(text) <= count
    return text + b" " * (count - len(text))


def course(number):
    """A name of two letters."""
    return chr(ord("0") + number // 64) + chr(ord("0") + number % 64)


def largest_instance():
    """Each number at its limit, each course on each line of the curricula, and as many bytes as a file may have."""
    members = " ".join(course(it) for it in range(COURSES))
    lines = ["Name: Largest", f"Courses: {COURSES}", f"Rooms: {ROOMS}", f"Days: {DAYS}", f"Periods_per_day: {PERIODS}", f"Curricula: {CURRICULA}"]
    lines += [f"Constraints: {LINES}", "COURSES:", *(f"{course(it)} t{it} 2 512 1000000" for it in range(COURSES))]
    lines += ["ROOMS:", *(f"R{it} 1000000" for it in range(ROOMS))]
    lines += ["CURRICULA:", *(f"q{it} {COURSES} {members}" for it in range(CURRICULA)), "UNAVAILABILITY_CONSTRAINTS:"]
    lines += [f"{course(it % COURSES)} {it // COURSES} {it % PERIODS}" for it in range(LINES)]
    return padded("\n".join([*lines, "END.\n"]).encode(), FILE_BYTES)


def largest_solution():
    entries = (f"{course(it % COURSES)} R{it % ROOMS} {it % DAYS} {it // 7 % PERIODS}\n" for it in range(ENTRIES))
    return padded("".join(entries).encode(), FILE_BYTES)


def whole_tree(depth, leaf):
    """A tree in preorder, in pieces."""
    if depth <= 12:
        piece = leaf
        for _ in range(depth):
            piece = SPLIT + piece + piece
        yield piece
        return
    yield SPLIT
    yield from whole_tree(depth - 1, leaf)
    yield from whole_tree(depth - 1, leaf)


def proof_of(depth, leaf):
    yield HEADER
    yield from whole_tree(depth, leaf)
    yield END


def filled_up(pieces, count):
    """The pieces, followed by spaces, so many bytes in all."""
    for piece in pieces:
        count -= len(piece)
        yield piece
    assert count >= 0
    while count > 0:
        yield SPACES[:count]
        count -= len(SPACES)


def largest_files(table):
    """The largest instance with the largest solution."""
    table.put(instance=largest_instance(), solution=largest_solution())
    validated = table.run("validate instance solution")
    assert validated.status == 1 and validated.out.startswith(b"lectures ") and not validated.err, f"{validated}"
    table.put(proof=HEADER + LEAF + END)
    bound = table.run("bound instance proof")
    same(bound.told(), (0, b"bound 0\n", b""))
    table.put(proof=b"CTTP 1 bound none\nK " + b" ".join(b"c%d" % it for it in range(COURSES)) + b" ;\nend\n")
    none = table.run("bound instance proof")
    same(none.told(), (0, b"bound none\n", b""))
    reported = table.run("report instance solution --by room")
    assert reported.status == 0 and reported.out.count(b"\n") == ROOMS * (DAYS * PERIODS + 1), f"{reported.err}"
    improved = table.run("improve instance solution out --steps 1")
    assert improved.status == 1 and improved.out.startswith(b"hard ") and not improved.err, f"{improved}"
    assert (table.folder / "out").read_bytes().count(b"\n") == ENTRIES
    timed = {"validate": validated, "bound 0 by one leaf": bound, "none by a clique of all": none, "report by room": reported}
    timed["improve by one step"] = improved
    return "; ".join(f"{what} {run.figures()}" for what, run in timed.items())


def one_byte_more(table):
    """A file of an instance or of a solution that is a byte longer."""
    table.put(instance=MINI, longer=padded(MINI, FILE_BYTES + 1))
    same(table.run("validate longer instance").told(), refused(b"instance: too long: longer"))
    same(table.run("validate instance longer").told(), refused(b"solution: too long: longer"))


def one_entry_more(table):
    table.put(instance=MINI, solution=b"a R 0 0\n" * (ENTRIES + 1))
    same(table.run("validate instance solution").told(), refused(b"solution: TooMany at byte 131072"))


def most_nodes(table):
    """A whole tree of 16,777,215 nodes: no tree has one more, and the next has two more."""
    table.put(instance=MINI)
    bound = table.run("bound instance /dev/stdin", proof_of(23, LEAF))
    same(bound.told(), (0, b"bound 0\n", b""))
    upgraded = table.run("upgrade instance /dev/stdin out", proof_of(23, LEAF))
    same(upgraded.told(), (0, b"bound 0\n", b""))
    with open(table.folder / "out", "rb") as out:
        for piece in proof_of(23, LEAF):
            assert out.read(len(piece)) == piece.replace(b"CTTP 1", b"CTTP 2")
        assert not out.read()
    return f"bound {bound.figures()}; upgrade {upgraded.figures()}"


def too_many_nodes(table):
    table.put(instance=MINI)
    told = table.run("bound instance /dev/stdin", proof_of(24, LEAF))
    same(told.told(), refused(b"proof: TooManyNodes at byte 142606351"))
    return told.figures()


def plain_instance():
    """2,048 courses without a lecture."""
    lines = ["Name: Plain", f"Courses: {COURSES}", "Rooms: 1", "Days: 1", "Periods_per_day: 1", "Curricula: 0", "Constraints: 0", "COURSES:"]
    lines += [f"c{it} t{it} 0 0 0" for it in range(COURSES)]
    return "\n".join([*lines, "ROOMS:", "R 1", "CURRICULA:", "UNAVAILABILITY_CONSTRAINTS:", "END.\n"]).encode()


def most_bytes(table):
    """262,144 leaves of 2,045 claims each, and spaces up to the last byte that is taken; then one more."""
    leaf = b"B" + b"".join(b" R c%04d" % it for it in range(2_045)) + b" ;\n"
    table.put(instance=plain_instance())
    taken = table.run("bound instance /dev/stdin", filled_up(proof_of(18, leaf), PROOF_BYTES))
    same(taken.told(), (0, b"bound 0\n", b""))
    more = table.run("bound instance /dev/stdin", filled_up(proof_of(18, leaf), PROOF_BYTES + 1))
    same(more.told(), refused(b"proof: TooManyBytes"))
    return f"{taken.figures()}; a byte more {more.figures()}"


def most_spaces(table):
    """A small proof, and spaces up to the last byte that is taken."""
    table.put(instance=MINI)
    taken = table.run("bound instance /dev/stdin", filled_up([HEADER + LEAF + END], PROOF_BYTES))
    same(taken.told(), (0, b"bound 0\n", b""))
    return taken.figures()


# A line of Mini with a number at its limit or above, the number that is faulty, and what comes of the one at the limit.
LIMITS = [
    (b"Courses: 2\n", b"Courses: %d\n", 2_048),
    (b"Rooms: 1\n", b"Rooms: %d\n", 512),
    (b"Days: 1\n", b"Days: %d\n", 64),
    (b"Periods_per_day: 3\n", b"Periods_per_day: %d\n", 64),
    (b"Days: 1\nPeriods_per_day: 3\n", b"Days: 27\nPeriods_per_day: %d\n", 18),
    (b"Courses: 2\nRooms: 1\nDays: 1\nPeriods_per_day: 3\n", b"Courses: 2048\nRooms: 512\nDays: 2\nPeriods_per_day: %d\n", 32),
    (b"Curricula: 1\n", b"Curricula: %d\n", 8_192),
    (b"Constraints: 0\n", b"Constraints: %d\n", 65_536),
    (b"a t1 1 1 10\n", b"a t1 %d 1 10\n", 4_096),
    (b"a t1 1 1 10\nb t2 1 1 12\n", b"a t1 1 1 10\nb t2 %d 1 12\n", 4_095),
    (b"a t1 1 1 10\n", b"a t1 1 %d 10\n", 512),
    (b"a t1 1 1 10\n", b"a t1 1 1 %d\n", 1_000_000),
    (b"R 11\n", b"R %d\n", 1_000_000),
    (b"q 2 a b\n", b"q %d a b\n", 4_096),
]


def numbers_at_limits(table):
    """A number at its limit isn't refused for that, and one above is, by name and place."""
    desk = Desk(table.folder, None)
    for old, new, limit in LIMITS:
        for number in (limit, limit + 1):
            text = MINI.replace(old, new % number)
            assert text != MINI
            at = text.index(new % number) + new.index(b"%d")
            desk.put(instance=text, solution=b"")
            told = desk.told("validate instance solution")
            wanted = refused(b"instance: OverLimit at byte %d" % at)
            assert (told == wanted) == (number > limit), f"{new % number}: {told}"


ROWS = [
    ("numbers at their limits and above", numbers_at_limits),
    ("the largest instance and the largest solution", largest_files),
    ("files of one byte more", one_byte_more),
    ("a solution of one entry more", one_entry_more),
    ("a proof of the most nodes", most_nodes),
    ("a proof of more nodes", too_many_nodes),
    ("a proof of the most bytes", most_bytes),
    ("a proof of the most bytes, most of them spaces", most_spaces),
]
