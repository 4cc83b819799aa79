#!/usr/bin/env python3
"""Finds lemmas that are stated twice in proofs/ and specs/: statements that are equal but for their names and those of bound variables.

    python3 bench/lemmas.py [WORD ..]

Prints each group of equal statements, one lemma a line with its file and line, under the statement as the first of them has it; with words only
groups in whose files one of the words occurs. A lemma in a module with premises has those of them that its statement names; the others are
shown beside it, since its proof may need them. Names mean what the file imports or defines, so equal words for different things don't count;
those of the standard library are compared as words. What a `where` defines is left out, and so is what states nothing: a function from values
to values. The status is 0.
"""
import re
import sys
from collections import defaultdict
from dataclasses import dataclass
from pathlib import Path

CRATES = Path(__file__).resolve().parent.parent / "crates"
HEAD = re.compile(r"( *)(?:(?:abbrev|unfoldable|pub) )*([^\s(){}\[\],;:]+) : (.*)")
NO_LEMMA = {"use", "record", "data", "module", "mod", "where", "let", "in"}
TOKEN = re.compile(r"[(){}\[\],;]|[^\s(){}\[\],;]+")
CLOSES = {"(": ")", "{": "}", "[": "]"}
SAYS = {"≡", "<", "≤", "¬", "⊎", "≢", "↔"}
KIND = "Type"


@dataclass
class Lemma:
    """Where a lemma stands, its statement, and the premises of its module: all, and those that the statement doesn't name."""

    path: Path
    line: int
    name: str
    text: str
    premises: str
    others: str


def module_of(path):
    """The module's name, as `use` lines write it."""
    return ".".join(["Rattle", *path.relative_to(CRATES).with_suffix("").parts])


def imports_of(text, public=False):
    """What each imported word means."""
    found = {}
    for line in re.findall(r"^pub use (.+)$" if public else r"^(?:pub )?use (.+)$", text, re.M):
        listed = re.match(r"(\S+?)\.\{(.*)\}", line)
        renamed = re.match(r"(\S+) as (\S+)$", line)
        if listed:
            for word in listed[2].split(","):
                of, _, other = word.strip().partition(" as ")
                found[other or of] = f"{listed[1]}.{of}"
        elif renamed:
            found[renamed[2]] = renamed[1]
    return found


class File:
    """A file of definitions and lemmas."""

    def __init__(self, path):
        self.path, self.module, self.text = path, module_of(path), path.read_text(encoding="utf-8")
        self.imports = imports_of(self.text)
        self.given_on = imports_of(self.text, public=True)
        heads = re.findall(r"^ *(?:(?:abbrev|unfoldable|pub|record|data) )*([A-Za-z_][^\s(){}\[\],;:]*) (?::|\()", self.text, re.M)
        self.own = set(heads) - NO_LEMMA

    def meaning(self, word, files):
        """The full name of a word that isn't bound."""
        first, dot, rest = word.partition(".")
        whole = self.imports.get(first)
        if whole is None:
            return f"{self.module}.{word}" if first in self.own else word
        while True:
            module, _, name = whole.rpartition(".")
            if module.startswith("Rattle.std."):
                return name + dot + rest
            again = files[module].given_on.get(name) if module in files else None
            if again is None:
                return whole + dot + rest
            whole = again

    def statements(self):
        """The statements at the top and in modules: line, name, text and the premises of the modules around it."""
        lines, around, at = self.text.splitlines(), [], 0
        while at < len(lines):
            line = re.sub(r"(^|\s)--.*", "", lines[at])
            at += 1
            indent = len(line) - len(line.lstrip())
            if not line.strip():
                continue
            while around and around[-1][0] >= indent:
                around.pop()
            opened = re.match(r" *(?:pub )?module (\S+)(.*) where$", line)
            if opened:
                around.append((indent, opened[2]))
                continue
            head = HEAD.fullmatch(line)
            if indent != 2 * len(around) or not head or head[2] in NO_LEMMA or line.split()[0] in ("record", "data") or " record " in line[:20]:
                continue
            text, begun = [head[3]], at
            while at < len(lines) and len(lines[at]) - len(lines[at].lstrip()) > indent and lines[at].strip():
                text.append(re.sub(r"(^|\s)--.*", "", lines[at]))
                at += 1
            yield begun, head[2], " ".join(text).strip(), " ".join(premises for _, premises in around)


def binder_at(tokens, at):
    """Where the names of a group of bound variables end, if one begins here."""
    end = at + 1
    while end < len(tokens) and tokens[end] not in CLOSES and tokens[end] not in ")}],;:":
        end += 1
    return end if tokens[at] in "({" and end < len(tokens) and tokens[end] == ":" and end > at + 1 else None


def closing(tokens, at):
    depth = 0
    for place in range(at, len(tokens)):
        depth += (tokens[place] in CLOSES) - (tokens[place] in (")", "}", "]"))
        if depth == 0:
            return place
    return len(tokens) - 1


def plain(tokens, bound, meaning):
    """The tokens with numbers for bound variables, one variable a group, and without the arrows behind such groups."""
    out, bound, at = [], dict(bound), 0
    while at < len(tokens):
        token = tokens[at]
        names_end = binder_at(tokens, at) if token in CLOSES else None
        if names_end:
            end = closing(tokens, at)
            for name in tokens[at + 1 : names_end]:
                kind = plain(tokens[names_end + 1 : end], bound, meaning)
                bound[name] = len(bound)
                out += [token, f"#{bound[name]}", ":", *kind, CLOSES[token]]
            at = end + 1
            if at < len(tokens) and tokens[at] == "→":
                at += 1
        elif token in CLOSES:
            end = closing(tokens, at)
            out += [token, *plain(tokens[at + 1 : end], bound, meaning), CLOSES[token]]
            at = end + 1
        elif token == "λ":
            at += 1
            out.append(token)
            while at < len(tokens) and tokens[at] not in CLOSES:
                name = tokens[at].rstrip(".")
                if name:
                    bound[name] = len(bound)
                    out.append(f"#{bound[name]}")
                at += 1
                if tokens[at - 1].endswith("."):
                    break
            out.append(".")
        else:
            first, dot, rest = token.partition(".")
            out.append(f"#{bound[first]}{dot}{rest}" if first in bound else meaning(token))
            at += 1
    return out


def groups_in(tokens):
    """The groups of bound variables of a module's premises, each with its names and its words."""
    at = 0
    while at < len(tokens):
        end = closing(tokens, at)
        names_end = binder_at(tokens, at)
        for name in tokens[at + 1 : names_end] if names_end else []:
            yield name, [tokens[at], name, *tokens[names_end : end + 1]]
        at = end + 1


def words_in(tokens):
    return {it.partition(".")[0] for it in tokens} | {it.rstrip(".") for it in tokens}


def with_premises(tokens, premises):
    """The statement behind those of the module's premises that it names, and that they name; and the other premises."""
    needed, kept, others = words_in(tokens), [], []
    for name, group in reversed(list(groups_in(TOKEN.findall(premises)))):
        if name in needed:
            needed |= words_in(group)
            kept = group + kept
        else:
            others = group + others
    return kept + tokens, re.sub(r"([({]) | ([)}])", r"\1\2", " ".join(others))


def without_siblings(group):
    """Leaves out lemmas that differ from another one of their module in its own variables."""
    texts = {}
    return [it for it in group if texts.setdefault((it.path, it.premises), it.text) == it.text or not it.premises]


def states(tokens):
    """Whether a statement says something of values: its end has a relation, or names a bound value."""
    depth, last = 0, 0
    for at, token in enumerate(tokens):
        depth += (token in CLOSES) - (token in (")", "}", "]"))
        if token == "→" and depth == 0:
            last = at + 1
    kinds = {tokens[at - 2] for at in range(2, len(tokens)) if tokens[at] == KIND and tokens[at - 1] == ":"}
    end = tokens[last:]
    while end and end[0] in CLOSES and binder_at(end, 0):
        end = end[closing(end, 0) + 1 :]
    if KIND in end:
        return False
    return bool(SAYS & set(end)) or any(it.startswith("#") and it.partition(".")[0] not in kinds for it in end)


def main():
    files = {it.module: it for it in map(File, sorted(CRATES.glob("*/specs/**/*.antt")) + sorted(CRATES.glob("*/proofs/**/*.antt")))}
    found = defaultdict(list)
    count = 0
    for file in files.values():
        for line, name, text, premises in file.statements():
            whole, others = with_premises(TOKEN.findall(text), premises)
            tokens = plain(whole, {}, lambda word: file.meaning(word, files))
            if states(tokens):
                count += 1
                found[" ".join(tokens)].append(Lemma(file.path.relative_to(CRATES.parent), line, name, text, premises, others))
    several = [it for it in map(without_siblings, found.values()) if len(it) > 1]
    shown = [it for it in several if not sys.argv[1:] or any(word in str(lemma.path) for word in sys.argv[1:] for lemma in it)]
    for group in sorted(shown, key=lambda it: (-len(it), str(it[0].path))):
        print(group[0].text)
        for it in group:
            print(f"    {it.path}:{it.line}: {it.name}" + (f", in a module with {it.others[:90]}" if it.others else ""))
    print(f"{len(shown)} statements stand more than once, in {sum(map(len, shown))} lemmas of {count}")


if __name__ == "__main__":
    sys.exit(print(__doc__) if sys.argv[1:] == ["--help"] else main())
