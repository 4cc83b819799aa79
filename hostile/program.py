"""The commands of the program, each growth and each call to the system refused in turn."""

import os
import re
import shutil
import subprocess
from collections import Counter
from dataclasses import dataclass, field
from pathlib import Path

from refusing import ENDS_THERE, INTERRUPTED, TAKES_NOTHING, NOTHING, READ_ERROR, ROOT, STOPPED, Refusal
from samples import APART, FREE, GAP, GAP_GROUPS, GAP_PROOF, GAP_UPGRADED, MINI, MINI_COUNTS, NEXT_TO_EACH_OTHER, SAME

# The program itself, and not ./tt, since growths and calls are counted from its start.
PROGRAM = Path(os.environ.get("TT") or ROOT / "crates" / "tt" / "out" / "tt").resolve()
OLDER = b"an older file\n"
# How a call fails, and whether the later ones fail too. What goes on being interrupted goes on being tried.
FAILURES = [(READ_ERROR, 0), (READ_ERROR, 1), (INTERRUPTED, 0), (TAKES_NOTHING, 0), (ENDS_THERE, 0)]
# Of more calls than this, as those that write a page byte by byte, the first, the last and some between fail.
MOST_CALLS, FIRST_CALLS = 150, 50
OUT_OF_MEMORY = (2, b"", b"refused: out of memory\n")
# The milliseconds that a look at the clock takes where a search is to keep something at each look.
HURRY = 400
# What a refusal says after a failed call: the role and the path of the file, and the system's reason.
PATH, REASON = rb"([^\n:]*)", rb"([^\n;]+)"
NOT_READ = re.compile(rb"refused: (instance|(?:older )?solution|wishes|proof(?: \d+)?): (?:cannot read|Read): " + PATH + rb": " + REASON + rb"\n")
WHEREABOUTS = rb"((?:; output \w+ is (?:kept as [^\n;]+|on standard output|in its place|lost))*)"
NOT_WRITTEN = re.compile(rb"refused: cannot write: (output \w+): " + PATH + rb": " + REASON + WHEREABOUTS + rb"\n")
NOT_PRINTED = re.compile(rb"refused: cannot write: standard output: " + REASON + rb"\n")
IS_AT = re.compile(r"; (output \w+) is (?:(kept) as ([^;]+)|(on standard output)|(in its place)|(lost))")
DRAFT, SECOND_NAME = re.compile(r"tt-[0-9a-f]{16}\.new"), re.compile(r"tt-[0-9a-f]{16}\.old")
# The links by which the standard streams are found, and their folder.
STREAM_LINKS = {"0", "1", "2", "fd"}

# What a refusal calls the files that a command reads and those that it writes, in the order of its words.
INPUTS = {
    "validate": ["instance", "solution"],
    "improve": ["instance", "solution"],
    "report": ["instance", "solution"],
    "inspect": ["instance", "solution"],
    "page": ["instance", "solution"],
    "check": ["instance", "solution", "proof"],
    "bound": ["instance", "proof"],
    "upgrade": ["instance", "proof"],
    "solve": ["instance"],
    "parts": ["instance"],
    "best": ["instance"],
}
OUTPUTS = {"improve": ["output solution"], "solve": ["output solution", "output proof"], "upgrade": ["output proof"], "page": ["output page"]}
IN_FOLDER = {
    "parts": {"groups.proof": "output proof", "rooms.proof": "output proof"},
    "best": {"best.sol": "output solution", "partial.sol": "output solution", "page.html": "output page", "groups.proof": "output proof", "prices.proof": "output proof", "tree.proof": "output proof"},
}
INPUT_OPTIONS = {"--solution": "solution", "--from": "solution", "--older": "older solution", "--wishes": "wishes", "--proof": "proof"}
FLAGS = {"--keep", "--complete", "--drop", "--progress", "--quiet", "--csv", "--no-formulas", "--help", "--version"}


def without_older(files):
    """The files that aren't older ones under their other names."""
    return {name: text for name, text in files.items() if not name.endswith(".old")}


@dataclass
class Command:
    """A command line with the files that it reads, what it answers, and the files that it writes."""

    words: str
    status: int = 0
    out: bytes | None = None  # None: some text
    err: bytes | None = b""
    written: dict = field(default_factory=dict)  # None: some text
    given: str | None = None  # the file that standard input is
    hurry: int = 0

    def name(self):
        return f"tt {self.words}".strip() + (f" < {self.given}" if self.given else "") + (", hurried" if self.hurry else "")

    def split(self):
        """The command, its words without the options, and the values of those options that name an input, in their order."""
        command, *rest = self.words.split() or [""]
        words, options = [], []
        while rest:
            word = rest.pop(0)
            if not word.startswith("--"):
                words.append(word)
            elif word not in FLAGS:
                options.append((word, rest.pop(0)))
        return command, words, [(option, value) for option, value in options if option in INPUT_OPTIONS]

    def inputs(self):
        """The files that it reads: each by its name without folders, with its role and its path."""
        command, words, options = self.split()
        roles = ["instance", *(f"proof {it}" for it in range(1, len(words)))] if command == "sum" else INPUTS.get(command, [])
        found = [(role, path) for path, role in zip(words, roles)]
        count = 0
        for option, path in options:
            count += option == "--proof"
            found.append((f"proof {count}" if option == "--proof" else INPUT_OPTIONS[option], path))
        return [("-0" if path == "-" else Path(path).name, role, path) for role, path in found]

    def folder(self):
        """The folder that it writes to, if it writes to one."""
        command, words, _ = self.split()
        return words[1] if command in IN_FOLDER and len(words) > 1 else None

    def outputs(self):
        """The files that it may write, in their order: each by its path, with its role."""
        command, words, _ = self.split()
        if command in IN_FOLDER:
            return [(f"{self.folder()}/{name}", role) for name, role in IN_FOLDER[command].items()]
        found = list(zip(words[len(INPUTS.get(command, [])) :], OUTPUTS.get(command, [])))
        # A timetable that breaks hard rules and its page are next to where the best one would be.
        return found + [(name, BESIDE[end]) for name in self.written or {} for end in BESIDE if name.endswith(end)]

    def keeps(self):
        return "--keep" in self.words.split()

    def searches(self):
        return self.words.split()[:1] in (["improve"], ["solve"], ["parts"], ["best"])


FILES = {
    "mini": MINI,
    "gap": GAP,
    "same": SAME,
    "free": FREE,
    "mini.sol": NEXT_TO_EACH_OTHER,
    "gap.sol": APART,
    "last.sol": b"z R 0 0\n" + APART,
    "gap.proof": GAP_PROOF,
    "gap.groups": GAP_GROUPS,
    "nothing.proof": b"CTTP 1 bound 0 B ; end",
    "wishes": b"hold a R 0 0\nclosed * 0 1\n",
    "clashing": b"\nhold a R 0 0\nhold b * 0 0\n",
    "kept.proof": b"wishes\n" + GAP_PROOF,
    "bad": b"bad",
    "empty": b"",
}
BESIDE = {".partial": "output solution", ".partial.html": "output page"}
CLASH = b"wishes: lines 2 and 3 clash: no feasible timetable keeps both\n"
SOLVE_GAP = {"out": None, "out.proof": None}
SOLVE_NONE = {"out.partial": None, "out.partial.html": None, "out.proof": None}
PARTS_OF_GAP = {"groups.proof": None, "rooms.proof": None}
BEST_OF_GAP = {"best.sol": None, "page.html": None, "tree.proof": None}
BEST_OF_NONE = {"partial.sol": None, "page.html": None, "tree.proof": None}


def in_new(names):
    """The same files in a folder that is made."""
    return {"new/": b"", **{f"new/{name}": text for name, text in names.items()}}


def not_written(role, path, reason):
    return f"refused: cannot write: output {role}: {path}: {reason}\n".encode()


COMMANDS = [
    Command("", out=b"yes cost 5 bound 5 optimal\n"),
    Command("validate mini gap.sol", out=MINI_COUNTS),
    Command("validate mini gap.sol --quiet --progress", out=MINI_COUNTS),
    Command("validate - gap.sol", out=MINI_COUNTS, given="mini"),
    Command("validate mini -", out=MINI_COUNTS, given="gap.sol"),
    Command("validate - -", 2, b"", None, given="mini"),
    Command("validate mini gap.sol --wishes wishes", out=MINI_COUNTS + b"wishes 0\n"),
    Command("validate mini gap.sol --wishes clashing", 1, MINI_COUNTS + b"wishes 1\n", CLASH),
    Command("validate mini gap.sol --wishes bad", 2, b"", b"refused: wishes: UnknownWord at byte 0\n"),
    Command("check gap gap.sol gap.proof", out=b"yes cost 5 bound 5 optimal\n"),
    Command("check gap gap.sol -", out=b"yes cost 5 bound 5 optimal\n", given="gap.proof"),
    Command("check mini bad gap.proof", 2, b"", b"refused: solution: UnknownCourse at byte 0\n"),
    Command("bound gap gap.proof", out=b"bound 5\n"),
    Command("bound gap -", out=b"bound 5\n", given="gap.proof"),
    Command("bound gap gap.proof --wishes empty", out=b"bound 5\nkept 0\n"),
    Command("bound gap kept.proof --wishes empty", out=b"bound 5\nkept 0\n"),
    Command("bound gap kept.proof", 2, b"", b"refused: proof: Expected CTTP at byte 0\n"),
    Command("check gap gap.sol kept.proof --wishes empty", out=b"yes cost 5 bound 5 optimal\nkept 0\n"),
    Command("sum gap gap.proof --wishes bad", 2, b"", b"refused: wishes: UnknownWord at byte 0\n"),
    Command("improve mini gap.sol out --seed 1 --steps 100", out=b"hard 0 cost 1\n", written={"out": None}),
    Command("improve mini gap.sol - --steps 100", out=None),
    Command("improve mini gap.sol out --steps 100 --runs 3", out=b"hard 0 cost 1\n", written={"out": None}),
    Command("improve gap empty out --complete --steps 100", out=b"hard 0 cost 5\n", written={"out": None}),
    Command("improve gap last.sol out --complete --drop --steps 100", out=b"hard 0 cost 5\n", err=b"line 1 left out, no such course: z R 0 0\n", written={"out": None}),
    Command("improve mini gap.sol out --stay 5 --steps 20", out=b"hard 0 cost 5 moved 0 rooms 0\n", written={"out": APART}),
    Command("improve mini gap.sol out --wishes wishes --steps 20", out=b"hard 0 cost 5 wishes 0 moved 0 rooms 0\n", written={"out": APART}),
    Command("improve mini gap.sol out --wishes clashing --steps 20", 1, None, CLASH, written={"out": None}),
    Command("improve mini gap.sol out --wishes bad", 2, b"", b"refused: wishes: UnknownWord at byte 0\n"),
    Command("improve mini gap.sol out --stay 1 --steps 20 --runs 2", out=b"hard 0 cost 1 moved 1 rooms 0\n", written={"out": None}),
    Command("improve mini gap.sol out --steps 100 --runs 5 --keep", out=b"hard 0 cost 1\n", written={"out": None}, hurry=HURRY),
    Command("improve mini gap.sol out --steps 1000 --runs 1000 --time 2", out=b"hard 0 cost 1\n", written={"out": None}, hurry=HURRY),
    Command("improve mini gap.sol mini", 2, b"", not_written("solution", "mini", "is a file that the command reads")),
    Command("solve gap out out", 2, b"", not_written("proof", "out", "is also output solution")),
    Command("upgrade gap gap.proof out.proof", out=b"bound 5\n", written={"out.proof": GAP_UPGRADED}),
    Command("upgrade gap - out.proof", out=b"bound 5\n", written={"out.proof": GAP_UPGRADED}, given="gap.proof"),
    Command("upgrade gap gap.proof -", out=GAP_UPGRADED + b"bound 5\n"),
    Command("solve gap out out.proof --nodes 100", out=b"cost 5 bound 5 finished\n", written=SOLVE_GAP),
    Command("solve gap out out.proof --nodes 1", out=b"cost 5 bound 1 unfinished\n", written=SOLVE_GAP),
    Command("solve gap out out.proof --nodes 100 --keep", out=b"cost 5 bound 5 finished\n", written=SOLVE_GAP, hurry=HURRY),
    Command("solve gap out out.proof --nodes 100 --time 1", out=None, written=SOLVE_GAP, hurry=HURRY),
    Command("solve gap - out.proof --nodes 100", written={"out.proof": None}),
    Command("solve gap out - --nodes 100", written={"out": None}),
    Command("solve gap - -", 2, b"", not_written("proof", "-", "is also output solution")),
    Command("solve same out out.proof", 1, b"cost none bound none finished\n", None, SOLVE_NONE),
    Command("solve gap out out.proof --wishes empty", out=b"cost 5 bound 5 finished\nkept 0\n", written=SOLVE_GAP),
    Command("solve gap out out.proof --wishes empty --keep", out=b"cost 5 bound 5 finished\nkept 0\n", written=SOLVE_GAP, hurry=HURRY),
    Command("solve gap out out.proof --wishes bad", 2, b"", b"refused: wishes: UnknownWord at byte 0\n"),
    Command("solve mini out out.proof --wishes clashing", 1, b"cost none bound none finished\nkept 2\n", None, SOLVE_NONE),
    Command("report mini mini.sol --by room", out=b"room R\n0 0 a\n0 1 b\n0 2\n"),
    Command("report mini mini.sol --by room --quiet", out=b"room R\n0 0 a\n0 1 b\n0 2\n"),
    Command("report mini mini.sol --by teacher", out=b"teacher t1\n0 0 a R\n0 1\n0 2\nteacher t2\n0 0\n0 1 b R\n0 2\n"),
    Command("report mini mini.sol --by curriculum", out=b"curriculum q\n0 0 a R\n0 1 b R\n0 2\n"),
    Command("report mini mini.sol --csv", out=b'course,teacher,room,day,period\r\n"a","t1","R",0,0\r\n"b","t2","R",0,1\r\n'),
    Command("report mini mini.sol --by room --ics R --first-day 2027-02-01 --times 8:00,9:00,10:00"),
    Command("report mini mini.sol --by room --ics S --first-day 2027-02-01 --times 8:00,9:00,10:00", 2, b"", b"refused: unknown name\n"),
    Command("inspect mini"),
    Command("inspect mini --quiet"),
    Command("inspect mini gap.sol"),
    Command("inspect same", 1),
    Command("inspect bad", 2),
    Command("page mini gap.sol out", out=b"", written={"out": None}),
    Command("page mini gap.sol -"),
    Command("page mini gap.sol out --days Monday --periods 8:00,9:00,10:00", out=b"", written={"out": None}),
    Command("page mini gap.sol out --days Monday,Tuesday", 2, b"", b"refused: names of days: not one for each day\n"),
    Command("page mini gap.sol out --only rooms", out=b"", written={"out": None}),
    Command("page mini gap.sol - --week t1"),
    Command("page mini gap.sol out --week nobody", 2, b"", b"refused: --week: unknown name: nobody\n"),
    Command("page gap gap.sol out --proof gap.proof --proof nothing.proof", out=b"", written={"out": None}),
    Command("page gap gap.sol out --proof gap.proof --proof gap.groups", 2, b"", b"refused: proof 2: ClaimedElsewhere at group 0, by proof 1\n"),
    Command("page gap gap.sol out --proof kept.proof --wishes empty", out=b"", written={"out": None}),
    Command("page mini mini.sol out --older gap.sol", out=b"", written={"out": None}),
    Command("page mini mini.sol out --older bad", 2, b"", b"refused: older solution: UnknownCourse at byte 0\n"),
    Command("sum gap", out=b"bound 0\n"),
    Command("sum gap nothing.proof gap.proof", out=b"bound 5\n"),
    Command("sum gap nothing.proof -", out=b"bound 5\n", given="gap.proof"),
    Command("sum gap --solution gap.sol gap.proof nothing.proof", out=b"yes cost 5 bound 5 optimal\n"),
    Command("sum gap gap.proof gap.proof", 2, b"", b"refused: proof 2: ClaimedElsewhere at node 2, by proof 1\n"),
    Command("sum gap nothing.proof gap.groups", out=b"bound 4\n"),
    Command("sum gap --solution gap.sol gap.groups", out=b"yes cost 5 bound 4\n"),
    Command("sum gap gap.groups gap.groups", 2, b"", b"refused: proof 2: ClaimedElsewhere at group 0, by proof 1\n"),
    Command("parts gap . --solution gap.sol --nodes 100", out=b"bound 5 parts 2\n", written=PARTS_OF_GAP),
    Command("parts gap . --nodes 100", out=b"bound 5 parts 2\n", written=PARTS_OF_GAP),
    Command("parts gap new --nodes 100", out=b"bound 5 parts 2\n", written=in_new(PARTS_OF_GAP)),
    Command("parts gap . --nodes 100 --keep", out=b"bound 5 parts 2\n", written=PARTS_OF_GAP, hurry=HURRY),
    Command("parts free . --nodes 100", out=b"bound 0 parts 0\n"),
    Command("best gap . --rounds 2", out=b"cost 5 bound 5 optimal\n", written=BEST_OF_GAP),
    Command("best gap new --rounds 2", out=b"cost 5 bound 5 optimal\n", written=in_new(BEST_OF_GAP)),
    Command("best gap . --rounds 2 --from gap.sol", out=b"cost 5 bound 5 optimal\n", written=None),
    Command("best gap . --rounds 2 --keep", out=b"cost 5 bound 5 optimal\n", written=BEST_OF_GAP, hurry=HURRY),
    Command("best gap new --rounds 2 --keep", out=b"cost 5 bound 5 optimal\n", written=in_new(BEST_OF_GAP), hurry=HURRY),
    Command("best gap . --rounds 2 --wishes empty", out=b"cost 5 bound 5 optimal\nkept 0\n", written=BEST_OF_GAP),
    Command("best same .", 1, b"cost none bound none\n", None, BEST_OF_NONE),
    Command("best same new", 1, b"cost none bound none\n", None, in_new(BEST_OF_NONE)),
    Command("best gap . --rounds 2 --days Mon --periods 8:00,9:00,10:00", out=b"cost 5 bound 5 optimal\n", written=BEST_OF_GAP),
    Command("best gap new --days Mon,Tue", 2, b"", b"refused: names of days: not one for each day\n"),
    Command("best bad .", 2, b"", b"refused: instance: Expected Name: at byte 0\n"),
    Command("best bad new", 2, b"", b"refused: instance: Expected Name: at byte 0\n"),
    Command("--help"),
    Command("solve --help"),
    Command("grade", 2, b"", None),
    Command("validate mini", 2, b"", None),
    Command("report mini mini.sol --by day", 2, b"", None),
    Command("report mini mini.sol --csv --by room", 2, b"", None),
    Command("report mini mini.sol --by room --ics R", 2, b"", None),
    Command("report mini mini.sol --by room --minutes 45", 2, b"", None),
    Command("report mini mini.sol --by room --weeks 2", 2, b"", None),
    Command("page mini gap.sol out --only weeks", 2, b"", None),
    Command("page mini gap.sol out --only rooms --week R", 2, b"", None),
    Command("page gap gap.sol out --week R --proof gap.proof", 2, b"", None),
    Command("page gap gap.sol out --wishes empty", 2, b"", None),
    Command("page mini gap.sol out --week R --older mini.sol", 2, b"", None),
    Command("solve gap out out.proof --nodes 65537", 2, b"", None),
    Command("solve gap out out.proof --time 0", 2, b"", None),
    Command("solve gap out out.proof --time 1000001", 2, b"", None),
    Command("improve mini gap.sol out --steps x", 2, b"", None),
    Command("improve mini gap.sol out --steps -5", 2, b"", None),
    Command("improve mini gap.sol out --drop", 2, b"", None),
    Command("improve mini gap.sol out --stay 1000001", 2, b"", None),
    Command("improve mini gap.sol out --stay 5 --keep", 2, b"", None),
    Command("improve mini gap.sol out --wishes wishes --keep", 2, b"", None),
]
WRITTEN = ["out", "out.proof", "groups.proof", "rooms.proof", "tree.proof", "best.sol", "page.html"]


def calls_to_fail(count):
    """The numbers of the calls that fail in turn, of this many."""
    if count <= MOST_CALLS:
        return range(1, count + 1)
    step = (count - 2 * FIRST_CALLS) // (MOST_CALLS - 2 * FIRST_CALLS)
    ends = {*range(1, FIRST_CALLS + 1), *range(count - FIRST_CALLS + 1, count + 1)}
    return sorted(ends | set(range(FIRST_CALLS + 1, count - FIRST_CALLS + 1, step)))


def is_draft(path):
    return DRAFT.fullmatch(Path(path).name) is not None


def is_second_name(path):
    return SECOND_NAME.fullmatch(Path(path).name) is not None


class Shelf:
    """A folder with the files of the commands, and, if asked for, with older files where they write."""

    def __init__(self, folder, has_older=True):
        self.folder, self.has_older = folder, has_older
        self.files = {**FILES, **({it: OLDER for it in WRITTEN} if has_older else {})}

    def fill(self):
        for path in self.folder.iterdir():
            if path.is_dir():
                shutil.rmtree(path)
            elif path.name not in FILES:
                path.unlink()
        for name, text in self.files.items():
            path = self.folder / name
            if name in WRITTEN or not path.exists():
                path.write_bytes(text)

    def texts(self):
        """Each file by its path in the folder, and each folder by its path with a slash."""
        names = {str(it.relative_to(self.folder)) + "/" * it.is_dir(): it for it in self.folder.rglob("*")}
        return {name: b"" if name.endswith("/") else path.read_bytes() for name, path in names.items()}


class Runs:
    """Runs of one command on a shelf."""

    def __init__(self, refuser, shelf, command):
        self.refuser, self.shelf, self.command = refuser, shelf, command
        self.known = {}
        self.own, self.own_files = self.run(NOTHING)
        self.check_own()

    def run(self, refusal):
        self.shelf.fill()
        refusal = Refusal(**{**vars(refusal), "hurry": self.command.hurry})
        words = [PROGRAM, *self.command.words.split()]
        with open(self.shelf.folder / self.command.given if self.command.given else os.devnull, "rb") as given:
            return self.refuser.run(words, refusal, self.shelf.folder, given), self.shelf.texts()

    def check_own(self):
        """Without a refusal the command gives its own answer, and what it renames is stored."""
        command, own = self.command, self.own
        assert own.status == command.status, f"answers {own.told()}"
        assert command.out is None or own.out == command.out, f"answers {own.told()}"
        assert command.err is None or own.err == command.err, f"answers {own.told()}"
        assert own.out or own.err or command.written
        if command.written is not None:
            self.check_own_files(command.written)
        counted = own.counted
        assert not counted.unstored, f"{counted.unstored} files are renamed before they are stored"
        assert not counted.unstored_names, f"{counted.unstored_names} names aren't stored"
        self.check_proofs()

    def check_own_files(self, written):
        """The files are those that the command writes; of those in a folder of its own, an earlier run's have other names: those that it doesn't
        write, and with --keep also those that it hadn't written when it kept the first one."""
        wanted = {**self.shelf.files, **written}
        if self.command.folder() == "." and self.own.status != 2:
            for name in IN_FOLDER[self.command.split()[0]]:
                if name in self.shelf.files and name not in written:
                    wanted[f"{name}.old"] = wanted.pop(name)
                elif name in self.shelf.files and self.command.keeps() and f"{name}.old" in self.own_files:
                    wanted[f"{name}.old"] = OLDER
        assert wanted.keys() == self.own_files.keys(), f"leaves {sorted(self.own_files)}, and not {sorted(wanted)}"
        for name, text in wanted.items():
            assert self.own_files[name] == text or (text is None and self.own_files[name] != OLDER), f"writes {name}"

    def check_proofs(self):
        """The files of a search hold."""
        if self.command.searches() and self.own.status != 2:
            for path, role in self.command.outputs():
                name = str(Path(path))
                # A timetable in partial.sol or OUT.partial breaks hard rules.
                if not name.endswith(("partial.sol", ".partial")) and name in self.own_files and self.own_files[name] != self.shelf.files.get(name):
                    assert self.holds(role, self.own_files[name]), f"{name} doesn't hold: {self.own_files[name][:200]}"

    def holds(self, role, text):
        """Whether a file of a search is whole and right."""
        key = role, text
        if key not in self.known:
            self.known[key] = self.is_right(role, text)
        return self.known[key]

    def is_right(self, role, text):
        if role == "output page":
            return text.endswith(b"</html>\n")
        words = ["validate", self.instance(), "/dev/stdin"] if role == "output solution" else ["sum", self.instance(), "/dev/stdin"]
        if role == "output proof":
            words += self.wishes()
        done = subprocess.run([PROGRAM, *words], cwd=self.shelf.folder, input=text, capture_output=True)
        is_strict = self.command.words.split()[0] != "improve"
        return done.returncode == 0 or (done.returncode == 1 and not is_strict)

    def instance(self):
        return self.command.split()[1][0]

    def wishes(self):
        """The option of the wishes under which the proofs of a command hold, if it has some. Without it they are refused."""
        return [word for option in self.command.split()[2] if option[0] == "--wishes" for word in option]

    def is_own(self, outcome, files):
        """Whether a run ended as the one without a refusal. With --keep an older file has its other name only if a step on the way was stored."""
        if outcome.told() != self.own.told():
            return False
        return files == self.own_files or (self.command.keeps() and without_older(files) == without_older(self.own_files))

    def growths(self):
        """Refuses the first growth, the second and so on, until none is met; answers how often which answer came."""
        answers = Counter()
        while True:
            growth = answers.total() + 1
            outcome, files = self.run(Refusal(growth=growth))
            if not outcome.counted.refused:
                assert self.is_own(outcome, files)
                return answers
            if self.is_own(outcome, files):
                answers["as without a refusal"] += 1
                continue
            assert (*outcome.told()[:2], self.after_own(outcome.err)) == OUT_OF_MEMORY, f"growth {growth}: a third answer {outcome.told()}"
            if self.command.keeps():
                self.check_kept(files, set(), f"growth {growth}")
            else:
                assert files == self.shelf.files, f"growth {growth}: the files are not as they were: {sorted(files)}"
            answers["out of memory"] += 1

    def calls(self):
        """Has the calls to the system fail in turn, in each way; answers how many runs that took."""
        runs = 0
        for narrow in (0, 1):
            outcome, files = self.run(Refusal(narrow=narrow))
            assert self.is_own(outcome, files), f"with {narrow=}: {outcome.told()}"
            tried = outcome.counted.tried
            for call in calls_to_fail(outcome.counted.calls):
                for fault, from_there in FAILURES:
                    refusal = Refusal(call=call, from_there=from_there, fault=fault, narrow=narrow)
                    self.check_outcome(refusal, *self.run(refusal), tried)
                    runs += 1
        return runs

    def check_outcome(self, refusal, outcome, files, tried):
        """After a failed call the answer is the command's own, or a refusal that names the file that failed; what it writes is as it was or as
        it is to be, whole, and what was found is where the refusal says. A file that can't be removed stays."""
        where = f"with {refusal}: {outcome.told()}, files {sorted(files)}"
        self.check_whole(files, where)
        if refusal.fault == ENDS_THERE:
            assert outcome.status in (STOPPED, self.own.status), where
            return
        if refusal.from_there:
            self.check_all_failed(outcome, where)
            return
        own_refusal = self.own.status == 2 and outcome.told() == self.own.told()
        if outcome.status != 2 or own_refusal:
            assert outcome.told()[:2] == self.own.told()[:2], where
            self.check_files(outcome, files, [self.own_files], set(), where)
            return
        self.check_refusal(refusal, outcome, files, tried, where)

    def check_whole(self, files, where):
        """Each file is the older one or the new one, whole; one that another run left may have its other name."""
        for name, text in self.shelf.files.items():
            if name not in files:
                assert files.get(f"{name}.old") == text and f"{name}.old" in self.own_files, f"{name} is lost {where}"
            elif not self.command.keeps():
                assert files[name] in (text, self.own_files.get(name)), f"{name} is neither old nor new {where}"
        if self.command.keeps():
            self.check_kept(files, None, where)

    def check_kept(self, files, named, where):
        """With --keep each output is the older file, or some timetable, proofs or page of this search, whole."""
        roles = {str(Path(path)): role for path, role in self.command.outputs()}
        for name, role in roles.items():
            if name in files and files[name] != self.shelf.files.get(name):
                assert self.holds(role, files[name]), f"{name} doesn't hold {where}"
        for name in files:
            known = name in self.shelf.files or name in roles or name.removesuffix(".old") in roles or name == "new/"
            assert known or is_second_name(name) or (is_draft(name) and (named is None or name in named)), f"{name} is left {where}"

    def check_all_failed(self, outcome, where):
        """Where all calls fail from one on, the answer may be cut off, and the reason may be lost."""
        if outcome.status == 2:
            assert self.what_is_said(self.after_own(outcome.err)) or self.own.err.startswith(outcome.err), where
        else:
            assert outcome.told()[:2] == self.own.told()[:2], where

    def after_own(self, err):
        """What stands on standard error after what the command says there by itself: the reason why there is no timetable, or what is left out."""
        return err.removeprefix(self.own.err) if self.own.status != 2 else err

    def what_is_said(self, err):
        return NOT_READ.fullmatch(err) or NOT_WRITTEN.fullmatch(err) or NOT_PRINTED.fullmatch(err)

    def check_refusal(self, refusal, outcome, files, tried, where):
        """A refusal after one failed call."""
        err = self.after_own(outcome.err)
        own_beginning = self.own.status == 2 and self.own.err.startswith(err)
        said = self.what_is_said(err)
        assert said or own_beginning, where
        if not said:
            self.check_files(outcome, files, [self.shelf.files], set(), where)
            return
        written = NOT_WRITTEN.fullmatch(err)
        if not NOT_PRINTED.fullmatch(err):
            self.check_role(outcome, said, where)
        if not written:
            assert self.own.out.startswith(outcome.out), where
            self.check_files(outcome, files, [self.shelf.files, self.own_files], set(), where)
            return
        kept = self.check_whereabouts(written, outcome, files, where)
        if self.command.searches() and refusal.call > tried > 0:
            told = sorted(it[0] for it in IS_AT.findall(written[4].decode()))
            assert told == sorted(self.own_results()), f"what was found is lost {where}"
        self.check_files(outcome, files, [self.shelf.files, self.own_files], kept, where)

    def own_results(self):
        """The roles of what the search found. A page is none, since it can be made again."""
        return [role for role, texts in self.own_texts().items() for _ in texts if role != "output page"]

    def check_role(self, outcome, said, where):
        """A refusal after one failed call names the file of that call by its role and its path."""
        file = outcome.counted.file
        role, path = said[1].decode(), said[2].decode()
        if not file:
            return
        outputs = [(role, path) for path, role in self.command.outputs()]
        folder = self.command.folder()
        if folder is not None:
            outputs.append(("output folder", folder))
        wanted = [(role, path) for name, role, path in self.command.inputs() if name == file or (file == "0" and path == "-")]
        wanted += [(role, path) for role, path in outputs if file == "-1" and path == "-"]
        names = {Path(path).name or "." for _, path in outputs} | {Path(path).parent.name or "." for _, path in outputs}
        if file.removesuffix(".old") in names or is_draft(file) or is_second_name(file) or file in STREAM_LINKS:
            wanted += outputs
        assert (role, path) in wanted, f"names {role}: {path}, and {file} failed, {where}"

    def check_whereabouts(self, written, outcome, files, where):
        """What a refusal says of the results is so; returns the files in which they are kept."""
        kept, printed = set(), b""
        texts = self.own_texts()
        for role, is_kept, path, is_printed, is_in_place, is_lost in IS_AT.findall(written[4].decode()):
            of_role = texts.get(role, [])
            assert of_role or self.command.keeps(), f"{role} is none of the results {where}"
            if is_kept:
                name = str(Path(path))
                kept.add(name)
                assert name in files, f"{path} isn't there {where}"
                assert files[name] in of_role or (self.command.keeps() and self.holds(role, files[name])), f"{path} isn't whole {where}"
            elif is_printed:
                rest = outcome.out[len(printed) :]
                fitting = [it for it in of_role if rest.startswith(it) and it]
                assert fitting, f"{role} isn't on standard output {where}"
                printed += max(fitting, key=len)
            elif is_in_place:
                assert any(files.get(str(Path(it))) in of_role for it, its in self.command.outputs() if its == role), f"{role} isn't in its place {where}"
            else:
                assert "-" in self.command.words.split(), f"{role} is lost {where}"
        # A page that is an output of its own stream is written in pieces, until one fails.
        is_begun = "-" in self.command.words.split() and self.own.out.startswith(outcome.out)
        assert outcome.out == printed or is_begun, f"prints more {where}"
        return kept

    def own_texts(self):
        """The results of the command, by role."""
        texts = {}
        for path, role in self.command.outputs():
            name = str(Path(path))
            if name in self.own_files and self.own_files[name] != self.shelf.files.get(name):
                texts.setdefault(role, []).append(self.own_files[name])
            elif path == "-":
                line = self.own.out.rstrip(b"\n").rfind(b"\n") + 1
                texts.setdefault(role, []).append(self.own.out[:line])
        return texts

    def check_files(self, outcome, files, states, kept, where):
        """The files are those of one of the states, all of them, beside those in which results are kept."""
        if self.command.keeps():
            self.check_kept(files, kept if outcome.counted.unlinks == 0 else None, where)
            return
        left = {name for name in files if (is_draft(name) and name not in kept) or is_second_name(name)}
        if outcome.counted.unlinks == 0:
            assert not left, f"something is left {where}"
        rest = {name: text for name, text in files.items() if name not in left | kept}
        is_made = "new/" in rest and all(name == "new/" or not name.startswith("new/") for name in rest)
        if is_made and (kept or outcome.counted.unlinks):
            del rest["new/"]
        # What `solve` could place, and its page, are left out if their files can't be written.
        for beside in BESIDE:
            states = [*states, *({name: text for name, text in it.items() if name != f"out{beside}"} for it in states)]
        assert rest in states, f"neither all as it was nor all as it is to be {where}"
