"""Makes a repository of a program in Rattle that stands in a folder of bench/: the program, the crates of this repository that it names, and
those below them. What has been proved of them is taken over."""

import re
import shutil
from pathlib import Path

HERE = Path(__file__).resolve().parent
PROJECT = HERE.parent


def crates_from(name, below):
    """A crate and those that it stands on, however far below: each once, after what it stands on itself."""
    lower = [crate for word in below[name] if word in below for crate in crates_from(word, below)]
    return list(dict.fromkeys([*lower, name]))


def repository(folder, name):
    """Makes the repository of the program in bench/NAME, and returns the folder of its crate."""
    lines = [line.partition("#")[0].split(":") for line in (PROJECT / "crates.txt").read_text().splitlines()]
    below = {words[0].strip(): words[1].split() for words in lines if len(words) == 2}
    program = folder / "crates" / f"tt_{name}" / "src"
    program.mkdir(parents=True)
    named = set()
    # Only a crate's own files may end in .rt, so these end in .rt.txt.
    for source in (HERE / name).glob("*.rt.txt"):
        named.update(re.findall(r"\btt_\w+", source.read_text()))
        shutil.copy(source, program / source.name.removesuffix(".txt"))
    crates = list(dict.fromkeys(crate for it in sorted(named & set(below)) for crate in crates_from(it, below)))
    for crate in crates:
        for part in ("src", "specs", "proofs", "out/rlib"):
            if (PROJECT / "crates" / crate / part).exists():
                shutil.copytree(PROJECT / "crates" / crate / part, folder / "crates" / crate / part)
    shutil.copy(PROJECT / "HANDLES", folder)
    listed = [f"{crate}: {' '.join(below[crate])}" for crate in crates] + [f"tt_{name}: {' '.join(crates)} anyhow"]
    (folder / "crates.txt").write_text("\n".join(listed) + "\n")
    return folder / "crates" / f"tt_{name}"
