"""Runs a program with growths or calls to the system refused."""

import mmap
import os
import struct
import subprocess
from dataclasses import dataclass, fields
from pathlib import Path

HERE = Path(__file__).resolve().parent
ROOT = HERE.parent

READ_ERROR = 5  # EIO
INTERRUPTED = 4  # EINTR
TAKES_NOTHING = 0
ENDS_THERE = -1
# What a process that was ended at a call says.
STOPPED = 86


@dataclass
class Refusal:
    """What is refused: the numbers of the page in refuse.c, in its order."""

    between_marks: int = 0
    growth: int = 0
    call: int = 0
    from_there: int = 0
    fault: int = READ_ERROR
    narrow: int = 0
    hurry: int = 0


@dataclass
class Counted:
    """What was counted: the numbers of the page in refuse.c, in its order."""

    growths: int
    calls: int
    refused: int
    marks: int
    unlinks: int
    tried: int
    stored: int
    unstored: int
    unstored_names: int
    file: str = ""


@dataclass
class Outcome:
    """What a run came to. A signal is a status below 0."""

    status: int
    out: bytes
    err: bytes
    counted: Counted

    def told(self):
        return self.status, self.out, self.err


NOTHING = Refusal()
GIVEN = struct.Struct(f"{len(fields(Refusal))}q")
NUMBERS = len(fields(Counted)) - 1
COUNTED = struct.Struct(f"{NUMBERS}q64s")


class Refuser:
    """Loads a small library before the C library, and tells it by a shared page what to refuse."""

    def __init__(self, folder):
        self.library = Path(folder) / "refuse.so"
        subprocess.run([toolchain() / "bin" / "clang", "-O1", "-shared", "-fPIC", "-nostdlib", "-o", self.library, HERE / "refuse.c"], check=True)
        self.file = os.memfd_create("refusals", 0)
        os.ftruncate(self.file, mmap.PAGESIZE)
        self.page = mmap.mmap(self.file, mmap.PAGESIZE)

    def run(self, words, refusal=NOTHING, folder=None, given=subprocess.DEVNULL, seconds=60):
        """Runs words with one refusal, in a folder."""
        given_numbers = [getattr(refusal, it.name) for it in fields(Refusal)]
        GIVEN.pack_into(self.page, 0, *given_numbers)
        COUNTED.pack_into(self.page, GIVEN.size, *[0] * NUMBERS, b"")
        surroundings = {"LD_PRELOAD": str(self.library), "REFUSE_PAGE": str(self.file)}
        done = subprocess.run(words, env=surroundings, pass_fds=(self.file,), cwd=folder, stdin=given, capture_output=True, timeout=seconds)
        *counts, file = COUNTED.unpack_from(self.page, GIVEN.size)
        return Outcome(done.returncode, done.stdout, done.stderr, Counted(*counts, file.split(b"\0")[0].decode()))


def toolchain():
    """The folder of the toolchain, beside the page that `rt doc` names."""
    page = subprocess.run(["rt", "doc"], capture_output=True, text=True, check=True).stdout.strip()
    return Path(page).parent / "toolchain"
