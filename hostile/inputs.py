"""Cut files, numbers at their limits, and files that aren't there or are something else, through the program."""

import json
import re
import subprocess
from dataclasses import dataclass

from program import PROGRAM
from refusing import READ_ERROR, Refusal
from samples import APART, CROWDED, GAP, GAP_GROUPS, GAP_PRICES, GAP_PROOF, MINI, NEXT_TO_EACH_OTHER, SAME

SPACES = b" " * 65_536
SPLIT = b"S c0 * d0 p0\n"
LEAF = b"B ;\n"
NOTHING = b"CTTP 1 bound 0 B ; end"
ONE_PERIOD = (
    b"Name: Full Courses: 1 Rooms: 1 Days: 1 Periods_per_day: 1 Curricula: 256 Constraints: 0 "
    b"COURSES: c0 t0 1 1 1 ROOMS: R0 1 CURRICULA: %s UNAVAILABILITY_CONSTRAINTS: END."
)


@dataclass
class Desk:
    """A folder, and the program run in it."""

    folder: object
    refuser: object

    def put(self, **texts):
        for name, text in texts.items():
            (self.folder / name).write_bytes(text)

    def told(self, words, given=b"", seconds=600):
        """The status and the two outputs of a run; words are a list where one of them is empty."""
        words = words.split() if isinstance(words, str) else words
        done = subprocess.run([PROGRAM, *words], cwd=self.folder, input=given, capture_output=True, timeout=seconds)
        return done.returncode, done.stdout, done.stderr

    def told_of_proof(self, instance, proof):
        """What `bound` says of a proof; `sum` says the same of it after a proof that claims nothing."""
        self.put(instance=instance, proof=proof, nothing=NOTHING)
        told = self.told("bound instance proof")
        same(self.told("sum instance nothing proof"), in_second_place(told))
        return told

    def told_of_stream(self, words, pieces):
        """The same, where the standard input is a pipe that gives the pieces until it is closed."""
        program = subprocess.Popen([PROGRAM, *words.split()], cwd=self.folder, stdin=subprocess.PIPE, stdout=subprocess.PIPE, stderr=subprocess.PIPE)
        try:
            for piece in pieces:
                program.stdin.write(piece)
            program.stdin.close()
        except BrokenPipeError:
            program.stdin = None
        out, err = program.communicate(timeout=600)
        return program.returncode, out, err


NOT_THERE = b"No such file or directory (os error 2)"
IS_FOLDER = b"Is a directory (os error 21)"


def refused(why):
    return 2, b"", b"refused: " + why + b"\n"


def not_read(role, path, reason):
    return refused(f"{role}: cannot read: {path}: ".encode() + reason)


def not_written(role, path, reason):
    return refused(f"cannot write: output {role}: {path}: ".encode() + reason)


def in_second_place(told):
    """What is said of a proof, said of the second of several."""
    return *told[:2], told[2].replace(b"refused: proof: ", b"refused: proof 2: ")


def same(told, wanted):
    assert told == wanted, f"{told}, and not {wanted}"


def at_byte(told, what, most):
    """A refusal of a text, at one of its first bytes or at its end."""
    found = re.fullmatch(rb"refused: " + what + rb": [A-Za-z]+( [A-Za-z_]+[:.]| CTTP| 1| 2| bound| scale| end)? at byte (\d+)\n", told[2])
    assert told[:2] == (2, b"") and found and int(found[2]) <= most, f"{told}"


def cut_instances(desk):
    for count in range(len(MINI) + 1):
        desk.put(instance=MINI[:count], solution=NEXT_TO_EACH_OTHER)
        told = desk.told("validate instance solution")
        if count < 187:
            at_byte(told, b"instance", count)
        else:
            assert told[0] == 0 and told[1].endswith(b"cost 1\n"), f"{told}"


def cut_proofs(desk):
    for count in range(len(GAP_PROOF) + 1):
        desk.put(instance=GAP, solution=APART, proof=GAP_PROOF[:count])
        told = desk.told("check instance solution proof")
        if count < 123:
            at_byte(told, b"proof", count)
        else:
            same(told, (0, b"yes cost 5 bound 5 optimal\n", b""))


def cut_proofs_in_a_sum(desk):
    for count in range(len(GAP_PROOF) + 1):
        told = desk.told_of_proof(GAP, GAP_PROOF[:count])
        if count < 123:
            at_byte(told, b"proof", count)
        else:
            same(told, (0, b"bound 5\n", b""))


def cut_groups(desk):
    """What is cut off leaves no `CTTG` at first, and then no whole file of groups."""
    for count in range(len(GAP_GROUPS) + 1):
        desk.put(instance=GAP, groups=GAP_GROUPS[:count])
        told = desk.told("sum instance groups")
        if count < len(GAP_GROUPS) - 1:
            at_byte(told, b"proof 1", count)
        else:
            same(told, (0, b"bound 4\n", b""))


def cut_prices(desk):
    """What is cut off is no whole file of groups with prices."""
    for count in range(len(GAP_PRICES) + 1):
        desk.put(instance=GAP, prices=GAP_PRICES[:count])
        told = desk.told("sum instance prices")
        if count < len(GAP_PRICES) - 1:
            at_byte(told, b"proof 1", count)
        else:
            same(told, (0, b"bound 5\n", b""))


def values_of_prices(desk):
    """Each a number at its limit and above."""
    begun = b"CTTG 2 bound 0 scale 1 "
    for text, wanted in [
        (begun + b"periods end", (0, b"bound 0\n", b"")),
        (begun + b"rooms end", (0, b"bound 0\n", b"")),
        (b"CTTG 2 bound 1 scale 1 rooms end", (0, b"bound 1\n", b"")),
        (b"CTTG 2 bound 1 scale 1 periods end", refused(b"proof 1: TooCheap")),
        (b"CTTG 2 bound 0 scale 1000 periods end", (0, b"bound 0\n", b"")),
        (b"CTTG 2 bound 0 scale 1001 periods end", refused(b"proof 1: NotANumber at byte 21")),
        (b"CTTG 2 bound 0 scale 0 periods end", refused(b"proof 1: NotANumber at byte 21")),
        (begun + b"seats end", refused(b"proof 1: UnknownWord at byte 23")),
        (begun + b"periods G / c0 / / / c0 +1000000 ; end", refused(b"proof 1: TooCheap")),
        (begun + b"periods G / c0 / / / c0 +1000001 ; end", refused(b"proof 1: PriceTooLarge at byte 47")),
        (begun + b"periods G / c0 / / / c0 -1000001 ; end", refused(b"proof 1: PriceTooLarge at byte 47")),
        (begun + b"rooms R r0 +1000000 ; end", refused(b"proof 1: TooCheap")),
        (begun + b"rooms R r0 +1000001 ; end", refused(b"proof 1: PriceTooLarge at byte 34")),
        (begun + b"rooms R r0 -1 ; end", refused(b"proof 1: UnknownWord at byte 34")),
        (begun + b"rooms R r0 +0 x2 ; end", (0, b"bound 0\n", b"")),
        (begun + b"rooms R r0 +0 x3 ; end", refused(b"proof 1: TooManyPrices at byte 37")),
        (begun + b"periods G q0 / c0 / / q0 ; end", refused(b"proof 1: UnknownWord at byte 45")),
        (begun + b"periods G q0 / c0 c0 / / / ; end", refused(b"proof 1: RepeatedIndex at byte 41")),
        (begun + b"periods G q1 / / / / ; end", refused(b"proof 1: UnknownIndex at byte 33")),
        (begun + b"periods end end", refused(b"proof 1: TrailingToken at byte 35")),
    ]:
        desk.put(instance=GAP, prices=text)
        same(desk.told("sum instance prices"), wanted)


def values_of_groups(desk):
    """Each a value and a bound, at its limit and above."""
    for text, wanted in [
        (b"CTTG 1 bound 0 end", (0, b"bound 0\n", b"")),
        (b"CTTG 1 bound 0 G 0 / ; end", (0, b"bound 0\n", b"")),
        (b"CTTG 1 bound 1 G 1 / ; end", refused(b"proof 1: TooCheap at group 0")),
        (b"CTTG 1 bound 1 end", refused(b"proof 1: TooCheap")),
        (b"CTTG 1 bound 5 G 4 q0 / c0 ; end", refused(b"proof 1: TooCheap")),
        (b"CTTG 1 bound 5 G 5 q0 / c0 ; end", refused(b"proof 1: TooCheap at group 0")),
        (b"CTTG 1 bound 0 G 127 / ; end", refused(b"proof 1: TooCheap at group 0")),
        (b"CTTG 1 bound 0 G 128 / ; end", refused(b"proof 1: TooWide at group 0")),
        (b"CTTG 1 bound 4 G 2 q0 / ; G 2 q0 / ; end", refused(b"proof 1: ClaimedTwice at group 1")),
        (b"CTTG 1 bound 0 G 0 q1 / ; end", refused(b"proof 1: UnknownIndex at byte 19")),
        (b"CTTG 1 bound 0 G 0 q0 q0 / ; end", refused(b"proof 1: RepeatedIndex at byte 22")),
        (b"CTTG 1 bound 0 end end", refused(b"proof 1: TrailingToken at byte 19")),
        (b"CTTG 1 bound 1000000000001 end", refused(b"proof 1: NotANumber at byte 13")),
        (b"CTTG 2 bound 0 end", refused(b"proof 1: Expected scale at byte 15")),
        (b"CTTG 3 bound 0 end", refused(b"proof 1: Expected 1 at byte 5")),
        (b"CTTX 1 bound 0 end", refused(b"proof 1: Expected CTTP at byte 0")),
        (b" " * 4_092 + b"CTTG 1 bound 0 end", (0, b"bound 0\n", b"")),
        (b" " * 4_092 + b"CTTGx", refused(b"proof 1: Expected CTTG at byte 4092")),
        (b" " * 4_093 + b"CTTG 1 bound 0 end", refused(b"proof 1: Expected CTTP at byte 4093")),
    ]:
        desk.put(instance=GAP, groups=text)
        same(desk.told("sum instance groups"), wanted)
    desk.put(groups=GAP_GROUPS)
    same(desk.told("bound instance groups"), refused(b"proof: Expected CTTP at byte 0"))


def failed_reads_of_a_proof(desk):
    """One byte a read: 124 reads give a byte, and one finds the end; so do 22 and one of the proof that claims nothing. A sum tells of a
    proof that can't be opened in the same words."""
    desk.put(instance=GAP, solution=APART, proof=GAP_PROOF, nothing=NOTHING)
    for words, reads in [
        ("check instance solution proof", {b"proof: Read: proof": 125}),
        ("sum instance nothing proof", {b"proof 1: Read: nothing": len(NOTHING) + 2, b"proof 2: Read: proof": 126}),
    ]:
        run = [PROGRAM, *words.split()]
        calls = desk.refuser.run(run, Refusal(narrow=1), desk.folder).counted.calls
        told = [desk.refuser.run(run, Refusal(narrow=1, call=it + 1, fault=READ_ERROR), desk.folder).told() for it in range(calls)]
        for what, wanted in reads.items():
            count = told.count(refused(what + b": Input/output error (os error 5)"))
            assert count == wanted, f"{words}: {what} after {count} reads"


def endless_spaces(desk):
    def spaces():
        while True:
            yield SPACES

    desk.put(instance=MINI, solution=APART)
    same(desk.told_of_stream("validate /dev/stdin solution", spaces()), refused(b"instance: too long: /dev/stdin"))
    same(desk.told_of_stream("validate instance /dev/stdin", spaces()), refused(b"solution: too long: /dev/stdin"))
    same(desk.told_of_stream("bound instance /dev/stdin", spaces()), refused(b"proof: TooManyBytes"))
    desk.put(nothing=NOTHING)
    same(desk.told_of_stream("sum instance nothing /dev/stdin", spaces()), refused(b"proof 2: TooManyBytes"))


def nested_splits(desk):
    for splits, wanted in [(65_536, (0, b"bound 0\n", b"")), (65_537, refused(b"proof: TooDeep at node 65537"))]:
        proof = b"CTTP 1 bound 0\n" + SPLIT * splits + LEAF * (splits + 1) + b"end\n"
        same(desk.told_of_proof(MINI, proof), wanted)


def bounds_and_prices(desk):
    for proof, wanted in [
        (b"CTTP 1 bound 1000000000000 B ; end", refused(b"proof: TooCheap at node 0")),
        (b"CTTP 1 bound 1000000000001 B ; end", refused(b"proof: NotANumber at byte 13")),
        (b"CTTP 1 bound " + b"9" * 23 + b" B ; end", refused(b"proof: NotANumber at byte 13")),
        (b"CTTP 1 bound " + b"0" * 31 + b"1 B C c1 1 ; end", (0, b"bound 1\n", b"")),
        (b"CTTP 1 bound " + b"0" * 32 + b"1 B C c1 1 ; end", refused(b"proof: TokenTooLong at byte 13")),
        (b"CTTP 1 bound 0 B C c1 1000000 ; end", (0, b"bound 0\n", b"")),
        (b"CTTP 1 bound 0 B C c1 1000001 ; end", refused(b"proof: NotANumber at byte 22")),
    ]:
        same(desk.told_of_proof(MINI, proof), wanted)


def many_dear_lectures(desk):
    same(desk.told_of_proof(CROWDED, b"CTTP 1 bound 4096000000 B C c0 1000000 ; end"), (0, b"bound 4096000000\n", b""))
    same(desk.told_of_proof(CROWDED, b"CTTP 1 bound 4096000001 B C c0 1000000 ; end"), refused(b"proof: TooCheap at node 0"))


def missing_files(desk):
    desk.put(instance=GAP, solution=APART, proof=GAP_PROOF)
    for words, role in [
        ("validate none solution", "instance"),
        ("validate instance none", "solution"),
        ("validate instance solution --wishes none", "wishes"),
        ("check instance none proof", "solution"),
        ("check instance solution none", "proof"),
        ("bound instance none", "proof"),
        ("upgrade instance none out", "proof"),
        ("improve instance none out", "solution"),
        ("improve instance none out --complete --drop", "solution"),
        ("improve instance none out --stay 5", "solution"),
        ("improve instance solution out --wishes none", "wishes"),
        ("solve none out proof", "instance"),
        ("solve instance out proof --wishes none", "wishes"),
        ("bound instance proof --wishes none", "wishes"),
        ("check instance solution proof --wishes none", "wishes"),
        ("report instance none --by room", "solution"),
        ("report instance none --changes solution", "solution"),
        ("report instance solution --changes none", "older solution"),
        ("page instance none out", "solution"),
        ("page instance solution out --older none", "older solution"),
        ("sum none proof", "instance"),
        ("sum instance --solution none proof", "solution"),
        ("parts none out", "instance"),
        ("parts instance out --solution none", "solution"),
        ("best none out", "instance"),
        ("best instance out --wishes none", "wishes"),
        ("best instance out --from none", "solution"),
        ("inspect none", "instance"),
        ("inspect instance none", "solution"),
    ]:
        same(desk.told(words), not_read(role, "none", NOT_THERE))
    same(desk.told("sum instance proof none"), refused(b"proof 2: Read: none: " + NOT_THERE))
    same(desk.told("page instance solution out --proof none"), refused(b"proof 1: Read: none: " + NOT_THERE))
    assert not (desk.folder / "out").exists()


def folders_in_the_place_of_files(desk):
    desk.put(instance=GAP, solution=APART, proof=GAP_PROOF)
    (desk.folder / "folder").mkdir()
    before = {it.name for it in desk.folder.iterdir()}
    same(desk.told("validate folder solution"), not_read("instance", "folder", IS_FOLDER))
    same(desk.told("validate instance folder"), not_read("solution", "folder", IS_FOLDER))
    same(desk.told("validate instance solution --wishes folder"), not_read("wishes", "folder", IS_FOLDER))
    same(desk.told("bound instance folder"), refused(b"proof: Read: folder: " + IS_FOLDER))
    same(desk.told("sum instance proof folder"), refused(b"proof 2: Read: folder: " + IS_FOLDER))
    for words, role in [
        ("page instance solution folder", "page"),
        ("upgrade instance proof folder", "proof"),
        ("improve instance solution folder", "solution"),
        ("solve instance folder other", "solution"),
        ("solve instance other folder", "proof"),
    ]:
        same(desk.told(words), not_written(role, "folder", b"is a folder"))
        assert {it.name for it in desk.folder.iterdir()} == before, f"{words} leaves something"


def standard_input(desk):
    """`-` is standard input, at most once; a file of that name has a longer path."""
    desk.put(instance=GAP, solution=APART, proof=GAP_PROOF, nothing=NOTHING)
    desk.put(**{"-": GAP})
    told = desk.told("validate instance solution")
    for words, given, wanted in [
        ("validate - solution", GAP, told),
        ("validate instance -", APART, told),
        ("validate ./- solution", b"", told),
        ("check instance solution -", GAP_PROOF, (0, b"yes cost 5 bound 5 optimal\n", b"")),
        ("bound instance -", GAP_PROOF, (0, b"bound 5\n", b"")),
        ("sum instance nothing -", GAP_PROOF, (0, b"bound 5\n", b"")),
        ("sum instance --solution - nothing proof", APART, (0, b"yes cost 5 bound 5 optimal\n", b"")),
        ("sum instance - nothing", GAP_GROUPS, (0, b"bound 4\n", b"")),
        ("improve - solution out", GAP, (0, b"hard 0 cost 5\n", b"")),
        ("improve instance - out --complete --drop", b"z R 0 0\n" + APART, (0, b"hard 0 cost 5\n", b"line 1 left out, no such course: z R 0 0\n")),
        ("improve - solution out --stay 5", GAP, (0, b"hard 0 cost 5 moved 0 rooms 0\n", b"")),
        ("upgrade instance - out", GAP_PROOF, (0, b"bound 5\n", b"")),
        ("solve - out other", GAP, (0, b"cost 5 bound 5 finished\n", b"")),
        ("page instance solution out --proof -", GAP_PROOF, (0, b"", b"")),
        ("parts - parts", GAP, (0, b"bound 5 parts 2\n", b"")),
        ("best - best", GAP, (0, b"cost 5 bound 5 optimal\n", b"")),
        ("best instance best --from -", APART, (0, b"cost 5 bound 5 optimal\n", b"")),
        ("validate - solution", b"", refused(b"instance: Ended at byte 0")),
    ]:
        same(desk.told(words, given), wanted)
    assert (desk.folder / "-").read_bytes() == GAP
    for words, role in [
        ("validate - -", b"solution"),
        ("check - solution -", b"proof"),
        ("check instance - -", b"proof"),
        ("sum - - nothing", b"proof 1"),
        ("sum instance - nothing -", b"proof 3"),
        ("sum - --solution - proof", b"solution"),
        ("page - - out", b"solution"),
        ("upgrade - - out", b"proof"),
        ("parts - new --solution -", b"solution"),
        ("best - new --from -", b"solution"),
    ]:
        told = desk.told(words, GAP)
        assert told[:2] == (2, b"") and re.fullmatch(b"refused: " + role + rb": cannot read: -: [^\n]+\n", told[2]), f"{words}: {told}"
    assert not (desk.folder / "new").exists()


def weeks_by_name(desk):
    """A name that is markup, or no ASCII, is that of a week like any other; one that nobody has is refused."""
    for name in ("t2", "<b>", "a&amp;", "é"):
        desk.put(instance=MINI.replace(b" t1 ", f" {name} ".encode()), solution=APART)
        words = ["page", "instance", "solution", "out", "--week"]
        same(desk.told([*words, name]), (0, b"", b""))
        assert (desk.folder / "out").read_bytes().count(b"<h3 ") == 1, name
        same(desk.told([*words, name + name]), refused(f"--week: unknown name: {name}{name}".encode()))


# How the lines of `inspect` begin whose kind isn't `text` or `cost`.
FRONTS = {"impossible": "can't be: ", "remark": "look at: ", "advice": "likely: "}


def json_says_the_same(desk):
    """With --json `validate` and `inspect` say what they say without, whatever the names are."""
    named = [MINI.replace(b" t1 ", b" " + name + b" ") for name in (b'"', b"\\", b"\xff", "é\u2028".encode(), b"\x1b[2J\x00", b"can't")]
    desk.put(solution=NEXT_TO_EACH_OTHER, wishes=b"hold a R 0 2\n")
    for instance in named:
        desk.put(instance=instance)
        for more in ("", " --wishes wishes"):
            status, out, _ = desk.told(f"validate instance solution{more}")
            counts = {"wishes": None, **{line.split()[0]: int(line.split()[1]) for line in out.decode().splitlines()}}
            said = desk.told(f"validate instance solution{more} --json")
            assert (said[0], json.loads(said[1]), said[2]) == (status, counts, b""), f"{instance}{more}: {said}"
    for instance in (*named, MINI, SAME, CROWDED, GAP[:-30], MINI.replace(b"a t1 1", b'a t1 "x"'), b"\xff\xfe"):
        desk.put(instance=instance)
        for words in ("inspect instance", "inspect instance solution"):
            status, out, _ = desk.told(words)
            said = desk.told(f"{words} --json")
            found = json.loads(said[1])
            lines = "".join(FRONTS.get(line["kind"], "") + line["text"] + "\n" for line in found["lines"])
            assert (lines, said[2]) == (out.decode(), b"") and status == said[0] == found["status"], f"{words}: {said}"


ROWS = [
    ("Mini cut to each length", cut_instances),
    ("the proof of Gap cut to each length", cut_proofs),
    ("the same, second of two in a sum", cut_proofs_in_a_sum),
    ("a file of groups cut to each length", cut_groups),
    ("values of groups, and their lists", values_of_groups),
    ("a file of groups with prices cut to each length", cut_prices),
    ("values of prices and rents, and their lists", values_of_prices),
    ("each read of a proof fails", failed_reads_of_a_proof),
    ("spaces without end", endless_spaces),
    ("65,536 nested splits, and one more", nested_splits),
    ("bounds and prices at their limits and above", bounds_and_prices),
    ("4,096 lectures at the greatest price", many_dear_lectures),
    ("files that aren't there", missing_files),
    ("folders in the place of files", folders_in_the_place_of_files),
    ("weeks by name", weeks_by_name),
    ("JSON", json_says_the_same),
    ("standard input as an input", standard_input),
]
