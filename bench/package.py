#!/usr/bin/env python3
"""Unpacks the archive that `./tt package` makes into an empty folder, and looks whether it is whole and runs by itself.

    python3 bench/package.py [ARCHIVE]

Without ARCHIVE it makes the archive first, twice, which needs the built program. It compares each file with the repository's, and runs the
program on an example, with no variables set. As root it does so once more in a folder that is the root of all files for the program (chroot) and
has the package and what its file NEEDS names of the system, and nothing else; otherwise it says that this was left out. It takes a second;
the last line is `N passed, M failed`, and the status is 1 where something failed.
"""
import os
import re
import shutil
import subprocess
import sys
import tarfile
import tempfile
from pathlib import Path

TOP = Path(__file__).resolve().parent.parent
SAME = ["LICENSE-MIT", "LICENSE-APACHE", "README.md", "CHANGELOG.md", "docs/RULES.md", "docs/PROOF_FORMAT.md", "docs/GROUPS_FORMAT.md"]
MADE = {"tt", "NEEDS"}
NOT_PACKED = {"__pycache__", "out"}
VALIDATE = ["validate", "examples/mini.ctt", "examples/mini.sol"]
COUNTS = "hard 0\ncost 5\n"
LIBRARIES = ["/lib64", "/lib/x86_64-linux-gnu", "/usr/lib/x86_64-linux-gnu", "/usr/lib64", "/lib", "/usr/lib"]


class LeftOut(Exception):
    """A check that this machine can't make."""


def packed():
    """The files of the repository that a package has."""
    examples = [it for it in (TOP / "examples").rglob("*") if it.is_file() and not NOT_PACKED & set(it.parts)]
    return {*SAME, *(str(it.relative_to(TOP)) for it in examples)}


def made():
    """The archive of the built program; makes it twice, since the same contents have to give the same bytes."""
    archives = []
    for _ in range(2):
        done = subprocess.run([TOP / "tt", "package"], stdout=subprocess.PIPE, text=True, check=False)
        if done.returncode != 0:
            sys.exit("there is no package")
        print(done.stdout, end="")
        archives.append((TOP / done.stdout.splitlines()[-1]).read_bytes())
    assert archives[0] == archives[1], "two archives of the same contents differ"
    return TOP / done.stdout.splitlines()[-1]


class Package:
    """An archive and the folder into which it was unpacked."""

    def __init__(self, archive, folder):
        self.archive, self.folder = archive, folder
        self.name = archive.name.removesuffix(".tar.gz")
        self.at = folder / self.name
        with tarfile.open(archive) as file:
            self.members = file.getmembers()
        subprocess.run(["tar", "-xzf", archive, "-C", folder], check=True)

    def run(self, words, top=None, program="./tt"):
        """Runs the program of the package; with `top` that folder is the root of all files."""
        before = ["chroot", top] if top else []
        done = subprocess.run([*before, program, *words], cwd=None if top else self.at, env={"PATH": ""} if not top else {"PATH": os.environ["PATH"]}, capture_output=True, text=True, check=False)
        assert done.returncode == 0, f"status {done.returncode}: {done.stderr}"
        return done.stdout

    def needs(self):
        """What the package says it needs of the system: files, none for a program that is linked statically."""
        lines = (self.at / "NEEDS").read_text().splitlines()
        found = [it.removeprefix("needs ") for it in lines if it.startswith("needs ")]
        assert found, f"NEEDS names nothing, not even that nothing is needed: {lines}"
        return [] if found[0].startswith("nothing") else found


def has_plain_names(package):
    """One folder of the archive's name; files and folders alone, of root's, that all may read."""
    for it in package.members:
        parts = Path(it.name).parts
        assert parts[0] == package.name and ".." not in parts, it.name
        assert it.isfile() or it.isdir(), f"{it.name} is a link or a device"
        assert (it.uid, it.gid) == (0, 0) and it.mode & 0o022 == 0 and it.mode & 0o444 == 0o444, f"{it.name}: {oct(it.mode)}"


def has_the_repositorys_files(package):
    there = {str(it.relative_to(package.at)) for it in package.at.rglob("*") if it.is_file()}
    wanted = packed() | MADE
    assert there == wanted, f"missing {sorted(wanted - there)}, too many {sorted(there - wanted)}"
    differ = [it for it in sorted(wanted - MADE) if (package.at / it).read_bytes() != (TOP / it).read_bytes()]
    assert not differ, f"differ from the repository's: {differ}"


def has_its_version(package):
    line = package.run(["--version"])
    assert re.fullmatch(r"tt ([0-9.]+) .*\n", line) and package.name == f"tt-{line.split()[1]}-x86_64-linux", line
    assert (package.at / "NEEDS").read_text().startswith(line), "NEEDS begins with another version"


def runs_in_an_empty_folder(package):
    assert package.run(VALIDATE).endswith(COUNTS)


def file_of(name):
    """Where this machine has a library."""
    places = [Path(name)] if name.startswith("/") else [Path(it) / name for it in LIBRARIES]
    return next((it for it in places if it.exists()), None)


def runs_with_what_it_needs_alone(package):
    if os.geteuid() != 0 or not shutil.which("chroot"):
        raise LeftOut("it takes root and chroot")
    room = package.folder / "room"
    shutil.copytree(package.at, room)
    for name in package.needs():
        found = file_of(name)
        assert found, f"this machine has no {name}"
        to = room / str(found).lstrip("/")
        to.parent.mkdir(parents=True, exist_ok=True)
        shutil.copy(found, to)
    assert package.run(VALIDATE, room, "/tt").endswith(COUNTS)
    # Without one of them it doesn't start, so the list is no longer than it has to be.
    for name in package.needs():
        there = room / str(file_of(name)).lstrip("/")
        there.rename(there.with_suffix(".away"))
        try:
            package.run(VALIDATE, room, "/tt")
        except AssertionError:
            there.with_suffix(".away").rename(there)
            continue
        raise AssertionError(f"it runs without {name}, too")


ROWS = [has_plain_names, has_the_repositorys_files, has_its_version, runs_in_an_empty_folder, runs_with_what_it_needs_alone]


def main():
    if len(sys.argv) > 2:
        sys.exit(__doc__)
    archive = Path(sys.argv[1]).resolve() if len(sys.argv) == 2 else made()
    failed = left_out = 0
    with tempfile.TemporaryDirectory() as folder:
        package = Package(archive, Path(folder))
        for row in ROWS:
            name = row.__name__.replace("_", " ")
            try:
                row(package)
                print(f"the package {name}: as wanted")
            except LeftOut as why:
                left_out += 1
                print(f"the package {name}: left out, since {why}")
            except AssertionError as fault:
                failed += 1
                print(f"the package {name}: FAILED: {fault}")
    print(f"{len(ROWS) - failed - left_out} passed, {failed} failed" + (f", {left_out} left out" if left_out else ""))
    return 1 if failed else 0


if __name__ == "__main__":
    sys.exit(print(__doc__) if sys.argv[1:] == ["--help"] else main())
