#!/usr/bin/env python3
"""Looks for names in backquotes in README.md, CONTRIBUTING.md and docs/ that nothing in the repository defines.

    python3 bench/names.py

prints each with its file and line, and ends with status 1 if there is one. A name is a word, or words joined by `::`; `tt_rules Hard` is a file of
specs/, and the names that follow it after a colon have to be defined in that file. What has other characters, as a command or a pattern, is not
looked at, nor is a block of code, nor docs/STATEMENT.md, which is made from the sources. A word is defined if a source declares it (an item, a field, a variant, a clause's label, a file), if a text in a
source spells it, or if crates.txt has it. Then it compares the toolchain's line in README with that of `--version` and that of `rt version`.
"""
import os
import re
import shutil
import subprocess
import sys

ROOT = os.path.normpath(os.path.join(os.path.dirname(os.path.abspath(__file__)), ".."))
WORD = r"[A-Za-z_][A-Za-z0-9_']*(?:-[A-Za-z0-9_']+)*"
# Words of Rust, of Rattle and of its tools, which nothing here defines.
OUTSIDE = set("""
    AllocError Drop Display Err File Global None Ok Option Read Result Some Source Vec Write alloc auto bool char dyn false inline main never
    ok_or rt std fsync true u8 u16 u32 u64 i64 usize unreachable unsafe refl grind search requires ensures ghost impl pub prove Id
    git cp sed head tail python3 wc gcc cargo rustc callgrind perf valgrind clang LF
""".split())
DECLARED = [
    rf"\b(?:fn|struct|enum|trait|const|static|mod|type|macro_rules!|ghost) ({WORD})",
    rf"\b(?:requires|ensures)\*? ({WORD}) ",
    rf"^\s*(?:pub |pub\(crate\) |ghost )+({WORD})\s*[:(]",
    rf"^    ({WORD})(?:,|\(.*\),| \{{.*)$",
    rf"^    ({WORD}): [A-Za-z&<>\[\], ]+,$",
    rf"^\s*(?:abbrev |unfoldable |pub |record |data )*({WORD}) (?:\S+ )*?:",
    rf"(?:record|data) ({WORD})",
]
QUOTED = re.compile(r'"((?:[^"\\]|\\.)*)"')


def read(path):
    with open(path, encoding="utf-8") as file:
        return file.read()


def sources():
    """Each file of the sources with its text."""
    for top in ("crates", "bench", "hostile", "examples"):
        for at, folders, files in os.walk(os.path.join(ROOT, top)):
            folders[:] = [it for it in folders if it not in ("out", "__pycache__")]
            for file in files:
                if file.endswith((".rt", ".antt", ".py", ".rs", ".edit")):
                    yield os.path.join(at, file), read(os.path.join(at, file))


def defined():
    """Every word that the sources define or spell, and what each file of specs/ defines, by crate and module."""
    words, modules = set(OUTSIDE), {}
    for path, text in sources():
        parts = os.path.relpath(path, ROOT).split(os.sep)
        words.update(os.path.splitext(it)[0] for it in parts)
        words.update(parts)
        if path.endswith(".antt") and "specs" in parts:
            modules[parts[1], parts[-1][:-5]] = set(re.findall(rf"^\s*(?:(?:abbrev|unfoldable|pub|record|data) )+({WORD})", text, re.M))
        for pattern in DECLARED:
            words.update(re.findall(pattern, text, re.M))
        for quoted in QUOTED.findall(text):
            words.update(re.findall(rf"{WORD}:?", quoted))
    for line in read(os.path.join(ROOT, "crates.txt")).splitlines():
        words.update(line.partition("#")[0].replace(":", " ").split())
    return words, modules


def is_known(name, words, modules):
    """Whether a name is defined; `tt_x Module` is a file of the specs/ of that crate, and `tt check` a command."""
    pair = re.fullmatch(rf"(tt_[a-z_]+) ({WORD})", name)
    if pair:
        return (pair[1], pair[2]) in modules
    command = re.match(r"tt ([a-z]+)\b", name)
    if command:
        return command[1] in words
    if not re.fullmatch(rf"{WORD}(?:(?:::|\.){WORD})*", name):
        return True
    return name in words or all(it in words for it in re.split(r"::|\.", name))


def names_of(path):
    """The names in backquotes of a document, each with its line; blocks of code are left out."""
    inside = False
    for number, line in enumerate(read(path).splitlines(), 1):
        if line.startswith("```"):
            inside = not inside
        elif not inside:
            for name in re.findall(r"`([^`]+)`", line):
                yield number, name


def misplaced(line, modules):
    """The names that a line says a file of specs/ defines, and it doesn't: `tt_x Module`: `name`, `name`; `Module`: `name`."""
    crate = None
    for whole, of, module, names in re.findall(rf"(`(?:(tt_[a-z_]+) )?({WORD})`: )((?:`{WORD}`(?:, )?)+)", line):
        crate = of or crate
        for name in re.findall(rf"`({WORD})`", names):
            if (crate, module) in modules and name not in modules[crate, module]:
                yield f"{crate} {module}", name


def versions():
    """Where the toolchain's line stands: README, the text of `--version`, and the toolchain itself."""
    line = r"rattle-kit-\S+ logic [0-9a-f]+"
    found = {
        "README.md": re.search(line, read(os.path.join(ROOT, "README.md"))),
        "crates/tt_cli_arguments/src/arguments.rt": re.search(line, read(os.path.join(ROOT, "crates", "tt_cli_arguments", "src", "arguments.rt"))),
    }
    found = {place: match and match[0] for place, match in found.items()}
    if shutil.which("rt"):
        found["rt version"] = subprocess.run(["rt", "version"], capture_output=True, text=True, check=True).stdout.strip()
    return found


def main():
    words, modules = defined()
    docs = [os.path.join(ROOT, it) for it in ("README.md", "CONTRIBUTING.md")]
    docs += sorted(os.path.join(ROOT, "docs", it) for it in os.listdir(os.path.join(ROOT, "docs")) if it.endswith(".md") and it != "STATEMENT.md")
    missing = 0
    for path in docs:
        for number, name in names_of(path):
            if not is_known(name, words, modules):
                print(f"{os.path.relpath(path, ROOT)}:{number}: `{name}` is not defined")
                missing += 1
        for number, line in enumerate(read(path).splitlines(), 1):
            for module, name in misplaced(line, modules):
                print(f"{os.path.relpath(path, ROOT)}:{number}: `{name}` is not defined in `{module}`")
                missing += 1
    print(f"{missing} names are not defined")
    lines = versions()
    if len(set(lines.values())) > 1:
        print("the toolchain's line differs: " + ", ".join(f"{place}: {line}" for place, line in lines.items()))
        return 1
    print(f"the toolchain's line is one: {lines['README.md']}")
    return 1 if missing else 0


if __name__ == "__main__":
    sys.exit(print(__doc__) if sys.argv[1:] == ["--help"] else main())
