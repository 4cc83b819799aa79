#!/usr/bin/env python3
"""Runs the gate and prints where its minutes go: a line for each crate with the processor seconds of its proof, of its tests, of the check
of the unedited crate that its must-fail edits begin with, and of those edits, and with the minute at which it was proved; then the edits
that took longest.

    python3 bench/gate.py [LOG]

runs `./gate` at the top of the repository, so that nothing is taken from an earlier run (`--anew`, if the toolchain stores what was proved),
writes its output to LOG (gate.log by default), and prints the table at the end; until then LOG.table has the table so far, rewritten every
minute, so that a run that is cut off is not lost. The status is the gate's. The gate prints no times itself, so the prover's processes are
looked at twice a second: a process that lives shorter than that is left out.
"""
import glob
import os
import subprocess
import sys
import time
from collections import defaultdict

TICKS = os.sysconf("SC_CLK_TCK")
STEPS = ["proof", "tests", "unedited", "edits"]
DEAREST = 25


def words_of(process):
    try:
        with open(f"/proc/{process}/cmdline", "rb") as file:
            return file.read().decode(errors="replace").split("\0")
    except OSError:
        return []


def parent_and_seconds(process):
    """The process above, and the processor seconds that this one has used, with those of its ended children."""
    try:
        with open(f"/proc/{process}/stat") as file:
            fields = file.read().rsplit(")", 1)[1].split()
    except (OSError, IndexError):
        return 0, 0.0
    return int(fields[1]), sum(int(it) for it in fields[11:15]) / TICKS


def crate_and_step(words):
    """Which crate a prover's process works on, at which step of the gate, and on which of the crate's edits."""
    if not words or not words[0].endswith("/rattle") or "--crate-name" not in words:
        return None
    crate = words[words.index("--crate-name") + 1]
    if "--test" in words:
        return crate, "tests", None
    kept = words[words.index("--incremental") + 1] if "--incremental" in words else ""
    if "rt-edits-" in kept:
        base = os.path.basename(kept)
        return (crate, "edits", int(base)) if base.isdigit() else (crate, "unedited", None)
    if words[1] == "check" and "-o" not in words:
        return crate, "edits", None
    return crate, "proof", None


def descendants(top, parents):
    children = defaultdict(list)
    for process, parent in parents.items():
        children[parent].append(process)
    found, waiting = [], [top]
    while waiting:
        process = waiting.pop()
        found.append(process)
        waiting.extend(children[process])
    return set(found)


def proved_in(line):
    """The crate that a line of the gate says is proved, if it says so."""
    words = line.split()
    return words[1] if len(words) == 3 and words[0] == "rt:" and words[2] == "proved" else None


def watch(gate, used, proved, log):
    """Notes the seconds of each prover's process below the gate until it ends, and the minute at which each crate is proved; the table so
    far goes to a file every minute."""
    begun = told = time.time()
    lines = open(log)
    while gate.poll() is None:
        for said in lines:
            if crate := proved_in(said):
                proved[crate] = (time.time() - begun) / 60
        seen = {int(it): parent_and_seconds(it) for it in os.listdir("/proc") if it.isdigit()}
        below = descendants(gate.pid, {it: parent for it, (parent, _) in seen.items()})
        for process in below:
            key = crate_and_step(words_of(process))
            parent = seen.get(process, (0, 0.0))[0]
            # A prover's own copies count with the process that waits for them.
            if key and not crate_and_step(words_of(parent)):
                copies = sum(seen[it][1] for it in descendants(process, {k: v[0] for k, v in seen.items()}) if it in seen)
                used[process, key] = max(used[process, key], copies)
        if time.time() - told > 60:
            told = time.time()
            with open(log + ".table", "w") as out:
                table(used, proved, out)
        time.sleep(0.5)


def table(used, proved, out):
    sums, edits = defaultdict(lambda: dict.fromkeys(STEPS, 0.0)), defaultdict(float)
    for (_, (crate, step, number)), seconds in used.items():
        sums[crate][step] += seconds
        if number is not None:
            edits[crate, number] += seconds
    print("| Crate | Proof, s | Tests, s | Unedited, s | Edits, s | All, min | Proved after, min |", file=out)
    print("|---|---|---|---|---|---|---|", file=out)
    for crate in sorted(sums, key=lambda it: -sum(sums[it].values())):
        print(line(f"`{crate}`", sums[crate], proved.get(crate)), file=out)
    print(line("all", {step: sum(it[step] for it in sums.values()) for step in STEPS}, max(proved.values(), default=None)), file=out)
    print("\nThe edits that took longest, s:\n", file=out)
    for crate, number in sorted(edits, key=lambda it: -edits[it])[:DEAREST]:
        print(f"- {edits[crate, number]:.0f} {crate} {edit_name(crate, number)}", file=out)


def line(name, steps, minute):
    """A row of the table."""
    seconds = " | ".join(f"{steps[it]:.0f}" for it in STEPS)
    return f"| {name} | {seconds} | {sum(steps.values()) / 60:.1f} | {'' if minute is None else f'{minute:.1f}'} |"


def words_of_gate():
    """`./gate`, and `--anew` if the toolchain stores what was proved."""
    usage = subprocess.run(["rt", "help"], capture_output=True, text=True).stdout
    return ["./gate", "--anew"] if "--anew" in usage else ["./gate"]


def edit_name(crate, number):
    """The name of a crate's edit; the gate counts them in their order, from 0."""
    names = sorted(os.path.basename(it) for it in glob.glob(f"crates/{crate}/must-fail/*.edit"))
    return names[number].removesuffix(".edit") if number < len(names) else number


def main():
    log = sys.argv[1] if len(sys.argv) > 1 else "gate.log"
    used, proved, begun = defaultdict(float), {}, time.time()
    with open(log, "w") as out:
        gate = subprocess.Popen(words_of_gate(), stdout=out, stderr=subprocess.STDOUT)
        watch(gate, used, proved, log)
    table(used, proved, sys.stdout)
    cores = len(os.sched_getaffinity(0))
    print(f"{(time.time() - begun) / 60:.1f} minutes on {cores} cores, status {gate.returncode}")
    return gate.returncode


if __name__ == "__main__":
    sys.exit(print(__doc__) if sys.argv[1:] == ["--help"] else main())
