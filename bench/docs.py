#!/usr/bin/env python3
"""Checks the documents: README.md, CHANGELOG.md, CONTRIBUTING.md, docs/*.md and each README.md below examples/.

    python3 bench/docs.py               # links, contents lists, words, paragraphs, and names (bench/names.py)
    python3 bench/docs.py --commands    # and commands (bench/readme.py, bench/examples.py), which need the built program

A link has to lead to a file of the repository, and its anchor to a heading of that file, as a page of HTML names it; addresses of the web are not
looked up. A page of more than 1,500 words needs a contents list: links to its own headings, at least one for each heading of the second level.
docs/STATEMENT.md is made from the sources and needs none.

All pages of the repository (*.md, with bench/NOTES.md and without docs/STATEMENT.md) have at most 30,000 words together, and README.md at most 1,800,
counted as wc -w does. No paragraph of more than 15 words stands twice, in one page or in two; an item of a list and a row of a table are
paragraphs, and a block of code is none. Each fault is a line, and the status is 1 if there is one.
"""
import os
import re
import subprocess
import sys
from pathlib import Path

TOP = Path(__file__).resolve().parent.parent
MOST_WORDS = 1_500
MOST_WORDS_IN_ALL = 30_000
MOST_WORDS_OF_README = 1_800
LONGEST_REPEATED = 15
MADE = {"docs/STATEMENT.md"}
LINK = re.compile(r"!?\[(?:[^\[\]]|\[[^\]]*\])*\]\(([^()\s]+)\)")


def pages():
    yield from (TOP / name for name in ("README.md", "CHANGELOG.md", "CONTRIBUTING.md") if (TOP / name).exists())
    yield from sorted((TOP / "docs").glob("*.md"))
    yield from sorted((TOP / "examples").rglob("README.md"))


def lines_of(path):
    """The lines of a page with their numbers, without blocks of code."""
    inside = False
    for number, line in enumerate(path.read_text(encoding="utf-8").splitlines(), 1):
        if line.lstrip().startswith("```"):
            inside = not inside
        elif not inside:
            yield number, line


def headings_of(path):
    """The headings of a page: level and anchor."""
    seen = {}
    for _, line in lines_of(path):
        found = re.match(r"(#{1,6}) (.*)", line)
        if found:
            text = re.sub(r"\[([^\]]*)\]\([^)]*\)", r"\1", found[2]).strip().lower()
            anchor = re.sub(r"[^\w\- ]", "", text).replace(" ", "-")
            count = seen.get(anchor, 0)
            seen[anchor] = count + 1
            yield len(found[1]), anchor + (f"-{count}" if count else "")


def links_of(path):
    """The links of a page with their lines; what is in backquotes is no link."""
    for number, line in lines_of(path):
        for target in LINK.findall(re.sub(r"(?<!\[)`[^`]*`", "", line)):
            yield number, target


def faults_of_links(path):
    name = path.relative_to(TOP)
    for number, target in links_of(path):
        if re.match(r"[a-z]+:", target):
            continue
        file, _, anchor = target.partition("#")
        other = (path.parent / file).resolve() if file else path
        if not other.exists() or TOP not in [other, *other.parents]:
            yield f"{name}:{number}: there is no {file}"
        elif anchor and anchor not in [it for _, it in headings_of(other)]:
            yield f"{name}:{number}: {file or 'this page'} has no heading #{anchor}"


def faults_of_contents(path):
    name = path.relative_to(TOP)
    words = len(path.read_text(encoding="utf-8").split())
    if words <= MOST_WORDS or str(name) in MADE:
        return
    listed = {target[1:] for _, target in links_of(path) if target.startswith("#")}
    missing = [anchor for level, anchor in headings_of(path) if level == 2 and anchor not in listed]
    if missing:
        yield f"{name}: {words} words, and its contents list lacks {', '.join('#' + it for it in missing)}"


def counted_pages():
    """All pages of the repository that people wrote; folders that git or the prover makes are passed over."""
    for folder, inner, files in os.walk(TOP):
        inner[:] = sorted(it for it in inner if it != "out" and not it.startswith("."))
        yield from (Path(folder, it) for it in sorted(files) if it.endswith(".md") and str(Path(folder, it).relative_to(TOP)) not in MADE)


def faults_of_length():
    words = {path: len(path.read_text(encoding="utf-8").split()) for path in counted_pages()}
    total, readme = sum(words.values()), words.get(TOP / "README.md", 0)
    print(f"{total:,} words in {len(words)} pages, {readme:,} of them in README.md")
    if total > MOST_WORDS_IN_ALL:
        yield f"all pages have {total:,} words, and may have {MOST_WORDS_IN_ALL:,}"
    if readme > MOST_WORDS_OF_README:
        yield f"README.md has {readme:,} words, and may have {MOST_WORDS_OF_README:,}"


def paragraphs_of(path):
    """The paragraphs of a page, each with the number of its first line; an item of a list and a row of a table are paragraphs."""
    first, last, words = 0, 0, []
    for number, line in lines_of(path):
        if words and (number > last + 1 or not line.strip() or re.match(r"\s*(?:[-*|#>]|\d+\.)", line)):
            yield first, " ".join(words)
            words = []
        if not words:
            first = number
        words += line.split()
        last = number
    if words:
        yield first, " ".join(words)


def faults_of_repetition():
    seen = {}
    for path in counted_pages():
        for number, text in paragraphs_of(path):
            place = f"{path.relative_to(TOP)}:{number}"
            if len(text.split()) > LONGEST_REPEATED and seen.setdefault(text, place) != place:
                yield f"{place}: this paragraph stands at {seen[text]} too"


def run(script):
    """Runs a script of this folder; returns whether it found a fault."""
    return subprocess.run([sys.executable, os.path.join(os.path.dirname(os.path.abspath(__file__)), script)]).returncode != 0


def main():
    if sys.argv[1:] not in ([], ["--commands"]):
        sys.exit(__doc__)
    count = faults = 0
    for path in pages():
        count += 1
        for fault in [*faults_of_links(path), *faults_of_contents(path)]:
            print(fault)
            faults += 1
    print(f"{count} pages, {faults} faults of links and contents lists")
    for fault in [*faults_of_length(), *faults_of_repetition()]:
        print(fault)
        faults += 1
    sys.stdout.flush()
    failed = run("names.py")
    if "--commands" in sys.argv:
        failed = run("readme.py") or failed
        failed = run("examples.py") or failed
    return 1 if faults or failed else 0


if __name__ == "__main__":
    sys.exit(print(__doc__) if sys.argv[1:] == ["--help"] else main())
