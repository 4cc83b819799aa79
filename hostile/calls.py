"""The public calls, each growth refused in turn: the tests of the modules `memory` in the crates of tests, each of which marks its
call by a line before it and a line behind it."""

import re
import subprocess
from collections import Counter

from refusing import ROOT, Refusal

# How a test fails whose call answered that memory ran out, and that by no part of another answer.
FAILED = 101
# Calls that make tables: most of their growths are needed, and some are only asked for in advance, so not each refusal is answered.
MAKES_TABLES = {"memory::the_call_trail_path_new"}
# Calls that have nothing to keep.
TAKE_NOTHING = {"memory::the_call_find_leaf_for_nothing", "memory::the_call_report"}
OUT_OF_MEMORY = re.compile(rb"(out of memory|error: (AllocError|OutOfMemory|SumStop { file: [0-9]+, stop: OutOfMemory }))\nthe test failed: its result gives status 1\n")


def programs():
    """The programs of tests, of each crate that has tests of memory."""
    for source in sorted(ROOT.glob("crates/*/src/memory.rt")):
        crate = source.parent.parent
        yield crate / "out" / f"{crate.name}_tests"


def tests(program):
    """The tests of memory of a program."""
    listed = subprocess.run([program, "--list"], capture_output=True, text=True, check=True).stdout
    found = [line.removesuffix(": test") for line in listed.splitlines() if line.startswith("memory::")]
    assert found, f"{program} has no tests of memory: build it by rt test"
    return found


def answer(done):
    if done.status == 0:
        return "as without a refusal"
    if done.status == FAILED and OUT_OF_MEMORY.fullmatch(done.err):
        return "out of memory"
    raise AssertionError(f"a third answer: {done.told()}")


def growths(refuser, program, name):
    """Refuses the first growth of the call, the second and so on, until none is met; answers how often which answer came."""
    answers = Counter()
    while True:
        growth = answers.total() + 1
        done = refuser.run([program, name], Refusal(between_marks=1, growth=growth))
        assert done.counted.marks >= 2, f"no marks: {done.told()}"
        told = answer(done)
        if not done.counted.refused:
            assert told == "as without a refusal", f"out of memory without a refusal: {done.told()}"
            assert answers or name in TAKE_NOTHING, "takes no memory"
            assert name not in MAKES_TABLES or answers["out of memory"], "no growth is needed"
            return answers
        answers[told] += 1
