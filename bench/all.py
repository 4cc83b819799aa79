#!/usr/bin/env python3
"""Compiles all code that no build compiles: the programs and scripts of bench/, hostile/ and examples/.

    python3 bench/all.py --quick    # only compiles, and asks each script for its help
    python3 bench/all.py            # then also runs the checks that need neither a proof nor the built program

Plain Rust is compiled by rustc, from the path or from ~/.cargo or ~/.rustup. Each Python script is compiled, and each one that can be run has to
print what it does by --help; each shell script is read by `bash -n`. The programs of bench/claims and bench/steps become crates of a temporary
repository with the crates below them, and `rt try` compiles them and runs them without arguments: it proves nothing. What the machine has no
compiler for is left out, and a line says so. It uses one processor. The last line is `N passed, M failed, K left out`, and the status is 1 after a
failure.
"""
import os
import shutil
import subprocess
import sys
import tempfile
import time
from pathlib import Path

from rattle import repository

TOP = Path(__file__).resolve().parent.parent
SHELL = ["tt", "gate", ".ci/run"]
# Without arguments these programs end with a line that says which they take.
PROGRAMS = {"claims": "usage: claims INSTANCE", "steps": "usage: steps INSTANCE SOLUTION"}
CHECKS = ["bench/docs.py", "bench/statement.py", "bench/launch.py", "hostile/edits.py --look"]


class LeftOut(Exception):
    """Something that this machine can't look at."""


def run(words, **more):
    """Runs words; a status other than 0 is a failure."""
    done = subprocess.run(words, stdin=subprocess.DEVNULL, capture_output=True, text=True, check=False, **more)
    assert done.returncode == 0, f"status {done.returncode}: {(done.stderr or done.stdout).strip()[-2000:]}"
    return done


def found(pattern):
    return sorted(it for it in TOP.glob(pattern) if "out" not in it.parts and "__pycache__" not in it.parts)


def rustc():
    """The compiler of plain Rust on this machine."""
    home = Path.home()
    places = [home / ".cargo" / "bin" / "rustc", *sorted(home.glob(".rustup/toolchains/*/bin/rustc"))]
    there = shutil.which("rustc") or next((str(it) for it in places if os.access(it, os.X_OK)), None)
    if not there:
        raise LeftOut("there is no rustc on the path, in ~/.cargo or in ~/.rustup")
    return there


def compiles_rust(path, folder):
    run([rustc(), "--deny", "warnings", "-o", folder / path.stem, path])


def compiles_python(path, _):
    try:
        compile(path.read_text(encoding="utf-8"), str(path), "exec")
    except SyntaxError as fault:
        raise AssertionError(fault) from fault


def prints_its_help(path, _):
    assert run([sys.executable, path, "--help"], timeout=60).stdout.strip(), "it prints nothing"


def is_shell(path, _):
    run(["bash", "-n", path])


def is_tried(name, wanted):
    """The check of a program in Rattle: `rt try` compiles it, and it says how it is called."""

    def check(_, folder):
        if not shutil.which("rt"):
            raise LeftOut("there is no rt on the path")
        # One processor, also for what rt try does next to the compiler.
        one = ["taskset", "-c", str(max(os.sched_getaffinity(0)))] if shutil.which("taskset") else []
        crate = repository(folder / "repository", name)
        done = subprocess.run([*one, "rt", "try"], cwd=crate, stdin=subprocess.DEVNULL, capture_output=True, text=True, check=False)
        last = done.stderr.splitlines()[-1:]
        assert last and last[0].startswith("run=ended status=1 ") and wanted in done.stderr, f"status {done.returncode}: {done.stderr[-2000:]}"

    return check


def has_no_fault(command):
    def check(*_):
        script, *words = command.split()
        run([sys.executable, TOP / script, *words])

    return check


def rows(quick):
    """What is looked at: a name, the file, and the check."""
    for path in found("bench/*.rs"):
        yield f"{path.relative_to(TOP)} compiles", path, compiles_rust
    scripts = [*found("bench/*.py"), *found("hostile/*.py"), *found("examples/**/*.py")]
    for path in scripts:
        yield f"{path.relative_to(TOP)} compiles", path, compiles_python
    for path in scripts:
        if '__name__ == "__main__"' in path.read_text(encoding="utf-8"):
            yield f"{path.relative_to(TOP)} prints its help", path, prints_its_help
    for path in [*(TOP / it for it in SHELL), *found("bench/*.sh"), *found("hostile/*.sh"), *found("examples/**/*.sh")]:
        yield f"{path.relative_to(TOP)} is read by bash", path, is_shell
    for name, usage in PROGRAMS.items():
        yield f"bench/{name}/*.rt.txt is compiled by rt try", None, is_tried(name, usage)
    if not quick:
        for command in CHECKS:
            yield f"{command} finds no fault", None, has_no_fault(command)


def main():
    if sys.argv[1:] not in ([], ["--quick"]):
        sys.exit(__doc__)
    passed = failed = left_out = 0
    for name, path, check in rows("--quick" in sys.argv):
        start = time.perf_counter()
        with tempfile.TemporaryDirectory() as folder:
            try:
                check(path, Path(folder))
                passed += 1
                said = "passed"
            except LeftOut as why:
                left_out += 1
                said = f"left out: {why}"
            except (AssertionError, subprocess.TimeoutExpired) as fault:
                failed += 1
                said = f"FAILED: {fault}"
        seconds = time.perf_counter() - start
        print(f"{name}: {said}" + (f" ({seconds:.0f} s)" if seconds >= 5 else ""), flush=True)
    print(f"{passed} passed, {failed} failed, {left_out} left out")
    return 1 if failed else 0


if __name__ == "__main__":
    sys.exit(print(__doc__) if sys.argv[1:] == ["--help"] else main())
