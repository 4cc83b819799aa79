#!/usr/bin/env python3
"""Runs each command of README, then of docs/GUIDE.md, as it is written, in one fresh folder, and compares what they say with bench/readme.out.

    python3 bench/readme.py            # compares; the last line says how many commands ran
    python3 bench/readme.py --write    # writes bench/readme.out anew
"""
import os
import re
import subprocess
import sys
import tempfile

HERE = os.path.dirname(os.path.abspath(__file__))
TOP = os.path.dirname(HERE)
COMMANDS = ("./tt ", "cp ", "sed ", "python3 examples/")


def commands_of(text):
    """The commands in the blocks of a text, line by line."""
    for block in re.findall(r"^```\n(.*?)^```", text, re.M | re.S):
        yield from (line for line in block.splitlines() if line.startswith(COMMANDS))


def said_by(command, folder):
    done = subprocess.run(["bash", "-c", command], cwd=folder, capture_output=True, text=True)
    status = f"[status {done.returncode}]\n" if done.returncode else ""
    return f"$ {command}\n{done.stdout}{done.stderr}{status}"


def main():
    with open(TOP + "/README.md", encoding="utf-8") as file:
        commands = list(commands_of(file.read() + open(TOP + "/docs/GUIDE.md", encoding="utf-8").read()))
    with tempfile.TemporaryDirectory() as folder:
        os.symlink(TOP + "/examples", folder + "/examples")
        with open(folder + "/tt", "w", encoding="utf-8") as file:
            file.write(f'#!/bin/sh\nexec "{TOP}/tt" "$@"\n')
        os.chmod(folder + "/tt", 0o755)
        said = "".join(said_by(command, folder) for command in commands)
    kept = HERE + "/readme.out"
    if "--write" in sys.argv:
        with open(kept, "w", encoding="utf-8") as file:
            file.write(said)
        print(f"wrote what {len(commands)} commands said")
        return 0
    with open(kept, encoding="utf-8") as file:
        wanted = file.read()
    for one, other in zip(said.splitlines(), wanted.splitlines()):
        if one != other:
            print(f"said {one!r}, wanted {other!r}")
    print(f"ran {len(commands)} commands, " + ("as wanted" if said == wanted else "not as wanted"))
    return 0 if said == wanted else 1


if __name__ == "__main__":
    sys.exit(print(__doc__) if sys.argv[1:] == ["--help"] else main())
