#!/usr/bin/env python3
"""Tries ./tt and ./gate with a stand-in for the toolchain, which proves nothing and builds a program that prints its words.

    python3 bench/launch.py

Each row is what happened to a small repository with these scripts, and whether ./tt then uses the program that is there or builds it again, packs
it, or has it tried before it is built. It takes some seconds; the last line is `N passed, M failed`, and the status is 1 where something failed.
"""
import os
import shutil
import subprocess
import sys
import tarfile
import tempfile
import time
from pathlib import Path

TOP = Path(__file__).resolve().parent.parent
# Says what it was built from, so that a program of older sources shows itself.
STAND_IN = """#!/bin/sh
echo "rt $*" >>"$CALLS"
[ -z "$EDIT_ON_THE_WAY" ] || echo edited >>"$EDIT_ON_THE_WAY"
if [ "$1" = try ]; then
  echo "in ${PWD##*/}: $*"
  cat
  echo 'a line of the program' >&2
  echo "checked: ended status=${STATUS:-0}" >&2
  echo "${LAST:-run=ended status=${STATUS:-0} runners=1 proved=no}" >&2
  exit "${STATUS:-0}"
fi
rm -rf crates/*/out
mkdir -p crates/tt/out
printf '#!/bin/sh\\n[ "$*" = --version ] && echo "tt 1.0 (stand-in)" || echo "%s: $*"\\n' "$(tail -n 1 crates/tt_text/src/lib.rt)" >crates/tt/out/tt
chmod +x crates/tt/out/tt
echo 'rt: tt_text proved'
exit "${STATUS:-0}"
"""
SOURCE = "crates/tt_text/src/lib.rt"
FILES = {
    "crates.txt": "# words\ntt_text: itoa # of a file\ntt_bits:\n# the program\ntt: tt_text tt_bits clap\n# tests\ntt_tests_app: tt\n",
    "HANDLES": "Handles allowed: none.\n",
    "README.md": (TOP / "README.md").read_text(),
    SOURCE: "first\n",
    "crates/tt_text/specs/Lib.antt": "",
    "crates/tt_text/proofs/Lib.antt": "",
    "crates/tt_text/must-fail/wrong.edit": "",
    "crates/tt_bits/src/lib.rt": "",
    "crates/tt/src/main.rt": "",
    "crates/tt_tests_commands/src/lib.rt": "",
    "bench/docs.py": "import os, sys\nsys.exit(int(os.environ.get('WRONG', 0)))\n",
    "bench/statement.py": "",
    "hostile/edits.py": "",
}
PACKED = ["LICENSE-MIT", "LICENSE-APACHE", "README.md", "CHANGELOG.md", "docs/RULES.md", "docs/PROOF_FORMAT.md", "docs/GROUPS_FORMAT.md", "examples/mini.ctt"]
SCRIPTS = ["tt", "gate", "bench/jobs.sh", "bench/sources.sh", "bench/texts.sh", "bench/package.sh", "bench/look.sh"]


class Copy:
    """A repository of four crates, and the calls of the stand-in that were made in it."""

    def __init__(self, folder):
        self.folder, self.calls = folder / "copy", folder / "calls"
        for name, text in FILES.items():
            self.write(name, text)
        for name in SCRIPTS:
            (self.folder / name).parent.mkdir(exist_ok=True)
            shutil.copy(TOP / name, self.folder / name)
        (folder / "bin").mkdir()
        (folder / "bin" / "rt").write_text(STAND_IN)
        (folder / "bin" / "rt").chmod(0o755)
        self.path = f"{folder / 'bin'}:{os.environ['PATH']}"

    def write(self, name, text):
        (self.folder / name).parent.mkdir(parents=True, exist_ok=True)
        (self.folder / name).write_text(text)

    def run(self, words, path=None, **more):
        surroundings = {**os.environ, "PATH": path or self.path, "CALLS": str(self.calls), **more}
        return subprocess.run(words, cwd=self.folder, env=surroundings, capture_output=True, text=True, shell=True)

    def count(self):
        return len(self.calls.read_text().splitlines()) if self.calls.exists() else 0

    def uses(self, said, builds):
        """./tt runs a program of these sources, after so many builds, and leaves no copy."""
        before = self.count()
        done = self.run("./tt some words")
        assert (done.returncode, done.stdout) == (0, f"{said}: some words\n"), f"{done}"
        assert self.count() - before == builds, f"{self.count() - before} builds: {done.stderr}"
        assert not (self.folder / "out" / "program" / "crates").exists(), "the copy stays"


def is_built_once(copy):
    copy.uses("first", 1)
    copy.uses("first", 0)


def builds_only(copy):
    done = copy.run("./tt build")
    assert (done.returncode, done.stdout, copy.count()) == (0, "", 1) and " 3 crates " in done.stderr, f"{done}"
    done = copy.run("./tt build")
    assert (done.returncode, done.stdout, copy.count()) == (0, "", 1), f"{done}"
    assert copy.run("./tt build more").returncode == 2
    copy.uses("first", 0)


def is_copied(copy):
    copy.uses("first", 1)
    time.sleep(0.1)
    old, new = copy.folder, copy.folder.parent / "new"
    shutil.copytree(old, new, copy_function=shutil.copy)
    copy.folder = new
    copy.uses("first", 0)
    (new / "crates" / "tt" / "out" / "tt").chmod(0o644)
    copy.uses("first", 0)


def is_edited_and_edited_back(copy):
    copy.uses("first", 1)
    copy.write(SOURCE, "second\n")
    copy.write(SOURCE, "first\n")
    copy.uses("first", 0)
    copy.write(SOURCE, "second\n")
    copy.uses("second", 1)


def is_older_by_time(copy):
    """Sources that have other contents and old times."""
    copy.uses("first", 1)
    copy.write(SOURCE, "second\n")
    os.utime(copy.folder / SOURCE, (0, 0))
    copy.uses("second", 1)


def is_edited_during_the_build(copy):
    done = copy.run("./tt build", EDIT_ON_THE_WAY=str(copy.folder / SOURCE))
    assert done.returncode == 0, f"{done}"
    copy.uses("edited", 1)


def has_other_files(copy):
    """A file that is added, renamed or removed counts; tests, edits, documents and comments of crates.txt don't."""
    copy.uses("first", 1)
    copy.write("README.md", "none")
    copy.write("crates/tt_tests_commands/src/lib.rt", "none")
    copy.write("crates/tt_text/must-fail/none.edit", "none")
    copy.write("crates/tt_text/out/none", "none")
    copy.write("crates.txt", "# none\n" + (copy.folder / "crates.txt").read_text() + "tt_tests_none:\n")
    copy.uses("first", 0)
    copy.write("crates/tt_text/src/more.rt", "more")
    copy.uses("first", 1)
    (copy.folder / "crates/tt_text/src/more.rt").rename(copy.folder / "crates/tt_text/src/less.rt")
    copy.uses("first", 1)
    (copy.folder / "crates/tt_text/src/less.rt").unlink()
    copy.uses("first", 1)
    copy.write("crates.txt", (copy.folder / "crates.txt").read_text().replace("tt_bits:", "tt_bits: itoa"))
    copy.uses("first", 1)


def is_built_by_the_gate(copy):
    assert copy.run("./gate").returncode == 0
    copy.uses("first", 0)
    assert copy.run("./gate", STATUS="3").returncode == 3
    copy.uses("first", 0)
    copy.write(SOURCE, "second\n")
    copy.uses("second", 1)


def is_not_proved_with_wrong_documents(copy):
    assert (copy.run("./gate", WRONG="1").returncode, copy.count()) == (1, 0)
    assert (copy.run("./gate tt_text", WRONG="1").returncode, copy.count()) == (0, 1)


def is_edited_during_the_gate(copy):
    assert copy.run("./gate", EDIT_ON_THE_WAY=str(copy.folder / SOURCE)).returncode == 0
    copy.uses("edited", 1)


def is_replaced(copy):
    """The program is built by rt ci alone, of sources that then go away again."""
    copy.uses("first", 1)
    stamp = copy.folder / "crates" / "tt" / "out" / "tt.stamp"
    kept = stamp.read_text()
    copy.write(SOURCE, "second\n")
    copy.run("rt ci")
    copy.write(SOURCE, "first\n")
    copy.uses("first", 1)
    copy.write(SOURCE, "second\n")
    copy.run("rt ci")
    copy.write(SOURCE, "first\n")
    stamp.write_text(kept)
    copy.uses("first", 1)


def has_no_toolchain(copy):
    bare = copy.folder.parent / "bare"
    bare.mkdir()
    for folder in ("/usr/bin", "/bin"):
        for it in Path(folder).iterdir():
            if it.name != "rt" and not (bare / it.name).is_symlink():
                (bare / it.name).symlink_to(it)
    done = copy.run("./tt --help", str(bare))
    assert (done.returncode, done.stdout) == (2, "") and "rattle-kit-" in done.stderr, f"{done}"
    done = copy.run("./tt --look --help", str(bare))
    assert (done.returncode, done.stdout) == (2, "") and "rattle-kit-" in done.stderr, f"{done}"
    assert not (copy.folder / "out").exists(), "something was begun"
    copy.uses("first", 1)
    assert copy.run("./tt --help", str(bare)).stdout == "first: --help\n"


def is_not_built(copy):
    done = copy.run("./tt --help", STATUS="1")
    assert (done.returncode, done.stdout) == (2, ""), f"{done}"
    assert not (copy.folder / "crates/tt/out").exists() and (copy.folder / "out/program/log").read_text()
    copy.uses("first", 1)


def is_packed(copy):
    """Only a program of these sources is packed, and nothing is built for that."""
    for name in PACKED:
        copy.write(name, name)
    copy.write("examples/__pycache__/none", "none")
    done = copy.run("./tt package")
    assert (done.returncode, done.stdout, copy.count()) == (2, "", 0) and "./tt build" in done.stderr, f"{done}"
    copy.uses("first", 1)
    assert copy.run("./tt package more").returncode == 2
    done = copy.run("./tt package")
    name = "tt-1.0-x86_64-linux"
    assert done.returncode == 0 and done.stdout.endswith(f"\nout/{name}.tar.gz\n"), f"{done}"
    with tarfile.open(copy.folder / "out" / f"{name}.tar.gz") as archive:
        files = sorted(it.name for it in archive if it.isfile())
    assert files == sorted(f"{name}/{it}" for it in [*PACKED, "tt", "NEEDS"]), files
    assert [it.name for it in (copy.folder / "out").iterdir() if it.name != "program"] == [f"{name}.tar.gz"], "something is left over"
    copy.write(SOURCE, "second\n")
    assert copy.run("./tt package").returncode == 2


def is_looked_at(copy):
    """The program runs by rt try, with the caller's paths, input and status, and is built neither before nor after."""
    copy.write("in it/week.ctt", "week")
    here = copy.folder / "in it"

    def look(words, given="", **more):
        done = copy.run(f"cd 'in it' && printf '{given}' | ../tt --look {words}", **more)
        assert not (copy.folder / "crates/tt/out").exists() and not (copy.folder / "out").exists(), "something was built"
        return done

    def tried(words, wanted, given=""):
        done = look(words, given)
        assert (done.returncode, done.stdout) == (0, f"in tt: try --seconds 600 -- {wanted}\n{given}"), f"{done}"
        lines = done.stderr.splitlines()
        assert lines[-1] == "a line of the program" and "nothing is proved" in lines[0] and "./tt build" in lines[1] and len(lines) == 3, f"{done}"

    tried("validate week.ctt ../week.sol", f"validate {here}/week.ctt {here}/../week.sol")
    tried("check /week.ctt week.sol week.proof --quiet", f"check /week.ctt {here}/week.sol {here}/week.proof --quiet")
    tried("sum week.ctt --solution week.sol a b", f"sum {here}/week.ctt --solution {here}/week.sol {here}/a {here}/b")
    tried("sum week.ctt --solution=week.sol a", f"sum {here}/week.ctt --solution={here}/week.sol {here}/a")
    tried("report week.ctt week.sol --by room", f"report {here}/week.ctt {here}/week.sol --by room")
    tried("report --ics week.ctt --minutes 90 week.ctt week.sol", f"report --ics week.ctt --minutes 90 {here}/week.ctt {here}/week.sol")
    tried("inspect -- -week.ctt", f"inspect -- {here}/-week.ctt")
    tried("bound - week.proof", f"bound - {here}/week.proof", "given")
    tried("bound week.ctt week.proof", f"bound {here}/week.ctt {here}/week.proof")
    tried("--version", "--version")
    done = copy.run("head -c 67108865 /dev/zero | ./tt --look bound - week.proof")
    assert (done.returncode, done.stdout) == (2, "") and "67108864" in done.stderr, f"{done}"
    done = look("validate week.ctt week.sol", STATUS="1")
    assert done.returncode == 1 and "run=" not in done.stderr, f"{done}"
    done = look("validate week.ctt week.sol", STATUS="6", LAST="run=no-answer proved=no")
    assert done.returncode == 2 and "run=no-answer proved=no" in done.stderr and "no answer" in done.stderr.splitlines()[-1], f"{done}"


def is_not_looked_at(copy):
    """Commands that write files are refused at once, and so is what is no command."""
    for words in ("solve week.ctt a b", "improve week.ctt a b", "parts week.ctt a", "best week.ctt a", "page week.ctt a b", "upgrade week.ctt a b", "week", "build", ""):
        done = copy.run(f"./tt --look {words}")
        assert (done.returncode, done.stdout, copy.count()) == (2, "", 0), f"{done}"
        assert len(done.stderr.splitlines()) == 1, f"{done}"


def is_looked_at_when_it_is_built(copy):
    copy.uses("first", 1)
    done = copy.run("./tt --look validate a b")
    assert (done.returncode, done.stdout, copy.count()) == (0, "first: validate a b\n", 1) and "proved" in done.stderr, f"{done}"


ROWS = [
    is_built_once,
    builds_only,
    is_copied,
    is_edited_and_edited_back,
    is_older_by_time,
    is_edited_during_the_build,
    has_other_files,
    is_built_by_the_gate,
    is_not_proved_with_wrong_documents,
    is_edited_during_the_gate,
    is_replaced,
    has_no_toolchain,
    is_not_built,
    is_packed,
    is_looked_at,
    is_not_looked_at,
    is_looked_at_when_it_is_built,
]


def main():
    failed = 0
    for row in ROWS:
        name = row.__name__.replace("_", " ")
        with tempfile.TemporaryDirectory() as folder:
            try:
                row(Copy(Path(folder)))
                print(f"the program {name}: as wanted")
            except AssertionError as fault:
                failed += 1
                print(f"the program {name}: FAILED: {fault}")
    print(f"{len(ROWS) - failed} passed, {failed} failed")
    return 1 if failed else 0


if __name__ == "__main__":
    sys.exit(print(__doc__) if sys.argv[1:] == ["--help"] else main())
