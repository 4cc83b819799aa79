#!/usr/bin/env python3
"""Prints the definitions on which a contract rests: how many lines each file of specs/ gives to it, and in all.

    python3 bench/statement.py [CRATE FUNCTION [CLAUSE ..]]
    python3 bench/statement.py --write

follows names through the `use` lines, from the clauses of a public function (all of them, or those that are named; without arguments the headline:
clauses exactly and bounds of tt_proof_check's certify). Definitions are counted with their comments; structs and enums of src/ count with
theirs and with the value that contracts see in their place, if they have one, and the types of their fields are followed. Of the headline the
types of certify's result and the words of the trait Source are followed too. Names of the standard library end the search. A name that isn't
there ends it with an error. Without arguments it also says whether docs/STATEMENT.md is current (status 1 if it isn't); with --write it
writes that file, which has three parts, each without the definitions of those before it: the headline, what a sum rests on, and what the refusals
of sums rest on.
"""
import difflib
import os
import re
import sys

ROOT = os.path.join(os.path.dirname(os.path.abspath(__file__)), "..", "crates")
NAME = re.compile(r"[^\s(){}\[\],;.:λ→×⊎¬≡≤<≢∷∙+*=|&-][^\s(){}\[\],;.:]*")
HEADLINE = ["tt_proof_check", "certify", "exactly", "bounds"]
SUMS = [
    (
        "What a sum rests on",
        "`tt_proof_sum::sum_proofs` adds up trees, files of groups, and files of groups with prices. By these clauses each file is right, no two claim one target, and the sum bounds every feasible timetable; and files that have a sum are answered with it, unless the check of a group is given up. The clause `holds` needs no definition beyond those above.",
        ["tt_proof_sum", "sum_proofs", "found", "only", "holds"],
    ),
    (
        "What the refusals of sums rest on",
        "A fault is that of the first file that can't be added, and a failed read is never taken for the end of a file. The files after that one are as they were.",
        ["tt_proof_sum", "sum_proofs", "fault", "later", "failed", "lower", "up_to_failed_read"],
    ),
]
STATEMENT = os.path.join(ROOT, "..", "docs", "STATEMENT.md")
SOURCE = os.path.join(ROOT, "tt_text", "src", "source.rt")
HEAD = """# The statement

What the headline rests on, whole: two clauses of `tt_proof_check::certify` below its head, the trait by which they speak of the proof's bytes, and every definition and type that they name, each file after those that it uses. [Two](#what-a-sum-rests-on) [more parts](#what-the-refusals-of-sums-rest-on) have what sums of proofs rest on besides. `python3 bench/statement.py --write` makes this document from the sources, and without `--write` that script says whether it is current. [HEADLINE.md](HEADLINE.md) says what it means and why it holds.

A definition under `src/` is a type, a limit or a weight of the code, in Rust's syntax; the others are in the language of specifications, where `abbrev pub f : A → B` gives a function's type and the lines below it its values, a `record` is a conjunction of its fields, and `(x : A) × B` says that there is an x. Numbers have no upper limit, and a `-` that would fall below 0 is 0. Contracts see a struct with a `ghost view` as the `ghost Value` below it: a list of courses, for example, as a list of numbers.

`⊤` always holds and `⊥` never; `A → B` says that B holds if A does, `A × B` both, `A ⊎ B` one of them, `¬ A` that A doesn't hold, and `A ↔ B` that each follows from the other. `a ≡ b` says that both are equal, `a ≢ b` that they aren't. `[]` is the empty list, `x ∷ xs` is x before xs, `xs ++ ys` is both in turn. `&&` and `||` are "and" and "or", `a == b` whether two numbers are equal, and `λ x. e` is the function that gives e for x.
"""
# What the standard library's words say that the headline's definitions are written in.
WORDS = {
    "All": "`All P xs`: P holds of each element",
    "AllPairs": "`AllPairs R xs`: R holds of each element and each later one",
    "AllZip": "`AllZip R xs ys`: the lists are as long as each other, and R holds of the elements at each place",
    "Consumes": "`Consumes before after bs`: if the bytes before are known, so are those after, and bs was taken from their front",
    "Contains": "`Contains xs x`: x is an element",
    "IfErr": "`IfErr r P`: P holds of the fault, if there is one",
    "IfOk": "`IfOk r P`: P holds of the answer, if there is one",
    "IfSome": "`IfSome o P`: P holds of the value, if there is one",
    "IsSomeAnd": "`IsSomeAnd o P`: there is a value, and P holds of it",
    "MatchOption": "`MatchOption o P N`: P holds of the value, or N if there is none",
    "MatchResult": "`MatchResult r P Q`: P holds of the answer, or Q of the fault",
    "ReadConsumes": "`ReadConsumes before after r buffer`: if the bytes before are known, so are those after; if r is n, the first n bytes of the buffer were taken from their front, and n is 0 only at their end or for an empty buffer; if r is a fault, they stay as they were",
    "all_ascii_digits": "`all_ascii_digits bs`: each byte is one of 48 to 57",
    "codes": "`codes \"text\"`: the bytes of the text",
    "count_by": "`count_by p xs`: how many elements pass the test",
    "drop": "`drop n xs`: all but the first n elements",
    "filter": "`filter p xs`: those that pass, in order",
    "flat_map": "`flat_map f xs`: the lists of all elements, joined in order",
    "fold": "`fold f a xs`: f taken from the left, from a on",
    "is_ok": "`is_ok r`: whether there is an answer",
    "length": "`length xs`",
    "list_all": "`list_all p xs`: whether each element passes the test",
    "list_any": "`list_any p xs`: whether some element does",
    "map": "`map f xs`",
    "max": "`max m n`",
    "min": "`min m n`",
    "nat_eq": "`nat_eq m n`: whether they are equal, also written `m == n`",
    "nat_le": "`nat_le m n`: whether m is at most n",
    "nat_lt": "`nat_lt m n`: whether m is below n",
    "not": "`not b`",
    "pointwise": "`pointwise t xs ys`: whether the lists are as long as each other, and the test passes at each place",
    "pos": "`pos n`: n as an integer",
    "prefix_len": "`prefix_len p xs`: how many elements at the front pass the test",
    "push": "`push xs x`: x after the others",
    "range_with_len": "`range_with_len a n`: n numbers, from a on",
    "replicate": "`replicate n x`: n times x",
    "slice_get": "`slice_get xs i`: the element at i, if there is one",
    "slice_index": "`slice_index xs i`: the element at i",
    "slice_index_or": "`slice_index_or xs i d`: the element at i, or d past the end",
    "suc": "`suc n`: n + 1",
    "sum_by": "`sum_by f xs`: the sum of f over the elements",
    "take": "`take n xs`: the first n elements",
    "take_while": "`take_while p xs`: the elements at the front that pass the test",
    "unwrap_or": "`unwrap_or o d`: the value, or d if there is none",
    "zero": "`zero`: 0",
}


def read(path):
    with open(path, encoding="utf-8") as file:
        return file.read()


def uses_of(text, ghost=False):
    """Which module each name comes from, by the `use` lines of a file."""
    found = {}
    lines = re.findall(r"^\s*ghost use (.+?);" if ghost else r"^(?:pub )?use (.+?)$", text, re.M)
    for line in lines:
        renamed = re.match(r"(\S+) as (\S+)$", line)
        listed = re.match(r"(\S+?)\.\{(.*)\}$", line)
        if renamed:
            found[renamed[2]] = (renamed[1], None)
        elif listed:
            for name in listed[2].split(","):
                of, _, alias = name.strip().partition(" as ")
                found[alias or of] = (listed[1], of)
    return found


def blocks_of(text):
    """The definitions of a file: each with the comment above it, by its name."""
    found = {}
    for block in re.split(r"\n\s*\n", text):
        head = re.search(r"^(?:abbrev |unfoldable )?pub (?:abbrev |unfoldable )?(?:record |data )?(\S+)", block, re.M)
        if head and not re.match(r"pub mod|use ", block):
            found[head[1]] = block.strip("\n")
    return found


def owner_of(name, blocks):
    """Which of the definitions of a file has this case or field."""
    return next((owner for owner, block in blocks.items() if re.search(r"^\s+(?:pub )?" + re.escape(name) + r" :", block, re.M)), None)


def file_of(module):
    """The file of a module of some crate's specs, and whether it is a type of src/."""
    parts = module.split(".")
    if len(parts) < 4 or parts[0] != "Rattle" or not parts[1].startswith("tt_"):
        return None, False
    if parts[3] == "declared":
        return os.path.join(ROOT, parts[1], "src", *parts[4:-1]) + ".rt", True
    return os.path.join(ROOT, parts[1], "specs", *parts[3:]) + ".antt", False


def type_of(path, name):
    """A struct or an enum of src/, with its comment."""
    text = read(path)
    head = re.search(r"((?:^\s*///.*\n|^\s*#\[.*\n)*)^\s*pub(?:\(crate\))? (?:struct|enum) " + re.escape(name) + r"\b", text, re.M)
    if not head:
        return None
    end = text.find("\n}", head.start())
    one = text.find(";", head.end())
    stop = one + 1 if 0 <= one < text.find("{", head.end()) else end + 2
    return text[head.start():stop].strip("\n")


def view_of(path, name):
    """The value that contracts see in place of a struct of src/, as its impl of Model has it, and the `ghost use` lines of that impl."""
    text = read(path)
    head = re.search(r"^impl(?:<.*?>)? Model for " + re.escape(name) + r"\b.*\{$", text, re.M)
    if not head:
        return None, {}
    impl = text[head.start():text.find("\n}", head.start())]
    lines = [head[0], *re.findall(r"^    ghost (?:Value|view) = .*;$", impl, re.M), "}"]
    return "\n".join(lines), uses_of(impl, ghost=True)


def rust_uses_of(text, crate):
    """Which crate each type of a file of src/ comes from, by its `use` lines."""
    found = {}
    for root, path in re.findall(r"^use (crate|tt_\w+)::([^;]+);", text, re.M):
        for name in re.findall(r"\b[A-Z]\w*", path):
            found[name] = crate if root == "crate" else root
    return found


def home_of(crate, name):
    """The file of src/ that declares a struct or an enum."""
    for at, _, files in sorted(os.walk(os.path.join(ROOT, crate, "src"))):
        for file in sorted(files):
            path = os.path.join(at, file)
            if re.search(r"^\s*pub(?:\(crate\))? (?:struct|enum) " + re.escape(name) + r"\b", read(path), re.M):
                return path
    return None


def names_in(text):
    code = re.sub(r"--.*", "", text)
    return set(re.findall(r"[A-Za-z_][A-Za-z_0-9]*(?:-[A-Za-z_0-9]+)*(?:\.[A-Za-z_][A-Za-z_0-9]*)?", code))


def trait_of(path, name):
    """A trait of src/, with its comment."""
    text = read(path)
    head = re.search(r"((?:^///.*\n)*)^pub trait " + re.escape(name) + r"\b", text, re.M)
    return text[head.start():text.find("\n}", head.start()) + 2] if head else None


class Closure:
    def __init__(self):
        self.found = {}
        # What contracts see in place of a struct.
        self.views = {}
        # Which files name something of which others, and which words are the standard library's.
        self.files = {}
        self.library = {}

    def follow(self, module, name, asker=None):
        if ".specs.Inner." in module:
            sys.exit(f"{asker} names {name} of {module}, which is no part of the statement")
        path, is_type = file_of(module)
        if not path:
            if name and module.startswith("Rattle."):
                self.library.setdefault(module.removeprefix("Rattle."), set()).add(name)
            return
        self.files.setdefault(asker, set()).add(path)
        if is_type:
            parts = module.split(".")
            if parts[-1] == "TheConstants":
                path = os.path.join(ROOT, parts[1], "src", *parts[4:-1]) + ".rt"
                self.files.setdefault(asker, set()).add(path)
                self.constant(path, name, asker)
                return
            of = parts[-2] if parts[-1] == "TheVariants" else parts[-1]
            path = os.path.join(ROOT, parts[1], "src", *[it for it in parts[4:] if it not in (of, "TheVariants")]) + ".rt"
            self.files.setdefault(asker, set()).add(path)
            self.declared(path, of, asker)
            return
        if (path, name) in self.found:
            return
        if not os.path.isfile(path):
            sys.exit(f"{asker} names {name} of {module}, whose file isn't there")
        text = read(path)
        block = blocks_of(text).get(name)
        if block is None:
            again = uses_of(text).get(name)
            if again and again[1]:
                self.follow(*again, asker)
            elif name:
                owner = owner_of(name, blocks_of(text))
                if not owner:
                    sys.exit(f"{asker} names {name} of {module}, which isn't there")
                self.follow(module, owner, asker)
            return
        self.found[path, name] = block
        self.names(names_in(block), uses_of(text), module, blocks_of(text), path)

    def declared(self, path, name, asker):
        """A struct or an enum of src/, and the types of its fields."""
        if (path, name) in self.found:
            return
        block = type_of(path, name) if os.path.isfile(path) else None
        if block is None:
            sys.exit(f"{asker} names {name} of {path}, which isn't there")
        self.found[path, name] = block
        self.types(path, re.sub(r"//.*|ghost .*", "", block), {name})
        view, uses = view_of(path, name)
        if view:
            self.views[block] = view
            self.names(names_in(view), uses, "", {}, path)

    def types(self, path, code, known):
        """The types of src/ that code of a file names, without those that are known."""
        uses = rust_uses_of(read(path), os.path.relpath(path, ROOT).split(os.sep)[0])
        for name in sorted(set(re.findall(r"\b[A-Z]\w*", code)) - known):
            home = home_of(uses[name], name) if name in uses else path if type_of(path, name) else None
            if home:
                self.files.setdefault(path, set()).add(home)
                self.declared(home, name, path)

    def constant(self, path, name, asker):
        if name:
            block = re.search(r"((?:^///.*\n)*)^pub const " + re.escape(name) + r"\b.*$", read(path), re.M) if os.path.isfile(path) else None
            if block is None:
                sys.exit(f"{asker} names {name} of {path}, which isn't there")
            self.found.setdefault((path, name), block[0])

    def names(self, names, uses, module, here, asker):
        for whole in sorted(names):
            first, _, rest = whole.partition(".")
            if first in here:
                self.follow(module, first, asker)
            elif first in uses:
                of, known = uses[first]
                self.follow(of, known or rest, asker)

    def in_order(self):
        """The files that were found, each after those that it names; of several the first by crates.txt and name."""
        crates = [line.partition(":")[0] for line in read(os.path.join(ROOT, "..", "crates.txt")).splitlines()]
        known = {path for path, _ in self.found}
        order = []

        def rank(path):
            parts = os.path.relpath(path, ROOT).split(os.sep)
            return crates.index(parts[0]), parts[1] != "src", parts[2:]

        def visit(path):
            if path in order or path not in known:
                return
            for other in sorted(self.files.get(path, ()), key=rank):
                if other != path:
                    visit(other)
            order.append(path)

        for path in sorted(known, key=rank):
            visit(path)
        return order

    def blocks(self, path):
        """The definitions of a file that were found, in its order."""
        text = read(path)
        return sorted((block for (at, _), block in self.found.items() if at == path), key=text.index)

    def shown(self, block):
        """A definition, and below a struct what contracts see in its place."""
        return f"{block}\n\n{self.views[block]}" if block in self.views else block


def function_of(crate, function):
    """The file of a public function, and its text before its body."""
    for at, _, files in os.walk(os.path.join(ROOT, crate, "src")):
        for file in files:
            text = read(os.path.join(at, file))
            head = re.search(r"^\s*pub fn " + re.escape(function) + r"\b", text, re.M)
            if head:
                return os.path.join(at, file), text[head.start():text.find("\n{", head.start())].strip("\n")
    sys.exit(f"there is no public function {function} in {crate}")


def head_of(crate, function):
    """The file of a public function, and its head: its text before its first clause."""
    path, text = function_of(crate, function)
    return path, re.split(r"\n\s*(?://|requires|ensures)", text)[0]


def clauses_of(crate, function, wanted):
    """The text of a public function's clauses, and the `ghost use` lines of its file."""
    path, text = function_of(crate, function)
    clauses = re.split(r"\n\s*(?:requires|ensures) ", text)[1:]
    kept = [it for it in clauses if not wanted or it.split(" ", 1)[0] in wanted]
    missing = [it for it in wanted if it not in {clause.split(" ", 1)[0] for clause in clauses}]
    if missing:
        sys.exit(f"{function} in {crate} has no clause {missing[0]}")
    return "\n".join(kept), uses_of(read(path), ghost=True)


def clause_texts(crate, function, wanted):
    """The clauses as they stand in the source, without their comments."""
    text, _ = clauses_of(crate, function, wanted)
    lines = [line for line in text.splitlines() if not line.strip().startswith("//")]
    return "\n".join("ensures " + line if re.match(r"\w+ \{", line) else line for line in lines)


def closure_of(crate, function, wanted):
    """What the clauses of a function rest on."""
    text, uses = clauses_of(crate, function, wanted)
    closure = Closure()
    closure.names(names_in(text), uses, "", {}, None)
    return closure


def headline():
    """What the headline rests on: its clauses, the types of certify's result, and the words of the trait Source."""
    closure = closure_of(HEADLINE[0], HEADLINE[1], HEADLINE[2:])
    path, head = head_of(HEADLINE[0], HEADLINE[1])
    closure.types(path, head.partition("->")[2], set())
    trait = trait_of(SOURCE, "Source")
    closure.names(names_in(trait), uses_of(read(SOURCE), ghost=True), "", {}, SOURCE)
    closure.types(SOURCE, trait, set())
    return closure


def homes_of(closures):
    """The files of each name that is defined in several of the files that were found."""
    homes = {}
    for path, name in (it for closure in closures for it in closure.found):
        homes.setdefault(name, set()).add(path)
    return {name: paths for name, paths in homes.items() if len(paths) > 1}


def title_of(path):
    crate, kind, *rest = os.path.relpath(path, ROOT).split(os.sep)
    name = "/".join(rest)
    return f"{crate} {name.removesuffix('.antt')}" if kind == "specs" else f"{crate}, src/{name}"


def meant(texts, uses, here, homes):
    """Which file is meant by each name that these texts use, several files define, and their own file doesn't."""
    used = {whole.partition(".")[0] for text in texts for whole in names_in(text)}
    known = {name: file_of(uses[name][0])[0] for name in sorted(used & set(homes) & set(uses) - set(here))}
    found = {}
    for name, path in known.items():
        if path in homes[name]:
            found.setdefault(title_of(path), []).append(f"`{name}`")
    parts = [f"{', '.join(names)} {'is that' if len(names) == 1 else 'are those'} of {title}" for title, names in found.items()]
    return ["; ".join(parts) + ".\n"] if parts else []


def listed(closure, level, known, homes):
    """The definitions of each file that aren't known, with headings of this level; homes are the files of names that several define."""
    for path in closure.in_order():
        blocks = [block for block in closure.blocks(path) if block not in known.get(path, ())]
        known.setdefault(path, set()).update(blocks)
        if blocks:
            yield f"{level} {title_of(path)}\n"
            if path.endswith(".antt"):
                yield from meant(blocks, uses_of(read(path)), blocks_of(read(path)), homes)
            yield ("```rust" if path.endswith(".rt") else "```") + "\n" + "\n\n".join(map(closure.shown, blocks)) + "\n```\n"


def words_of(closure, known):
    """The words of the standard library that aren't known."""
    names = sorted(set().union(*closure.library.values()) - known)
    known.update(names)
    plain = ", ".join(f"`{name}`" for name in names if name not in WORDS)
    rest = [f"- {WORDS[name]}" for name in names if name in WORDS]
    if plain:
        yield f"Types and values, as in Rust: {plain}." + (" The rest:\n" if rest else "\n")
    if rest:
        yield "\n".join(rest) + "\n"


def statement(closure):
    """The text of docs/STATEMENT.md."""
    more = [(part, closure_of(part[2][0], part[2][1], part[2][2:])) for part in SUMS]
    homes = homes_of([closure, *(of for _, of in more)])
    failed = type_of(SOURCE, "ReadFailed")
    known, words = {SOURCE: {failed}}, set()
    head = head_of(HEADLINE[0], HEADLINE[1])[1]
    clauses = re.sub(r"^ensures ", "    ensures ", clause_texts(HEADLINE[0], HEADLINE[1], HEADLINE[2:]), flags=re.M)
    parts = [HEAD, "## The clauses\n", f"```rust\n{head}\n{clauses}\n```\n"]
    parts.append("R is the type of the proof's source. `.old` and `.new` are its values before and after the call.\n")
    parts += ["## tt_text, src/source.rt\n", f"```rust\n{failed}\n\n" + trait_of(SOURCE, "Source") + "\n```\n"]
    parts += listed(closure, "##", known, homes)
    parts += ["## Words of the standard library\n", *words_of(closure, words)]
    for (heading, meaning, (crate, function, *wanted)), of in more:
        parts += [f"## {heading}\n", meaning + "\n", "```\n" + clause_texts(crate, function, wanted) + "\n```\n"]
        text, uses = clauses_of(crate, function, wanted)
        parts += meant([text], uses, (), homes)
        parts += [*listed(of, "###", known, homes), f"### Further words: {heading.lower()}\n", *words_of(of, words)]
    return "\n".join(parts)


def main():
    write = sys.argv[1:] == ["--write"]
    crate, function, *wanted = HEADLINE if write else sys.argv[1:] or HEADLINE
    closure = headline() if [crate, function, *wanted] == HEADLINE else closure_of(crate, function, wanted)
    files = {}
    for (path, name), block in closure.found.items():
        files.setdefault(os.path.relpath(path, ROOT), []).append((name, closure.shown(block).count("\n") + 1))
    for path in sorted(files):
        listed = ", ".join(name for name, _ in sorted(files[path]))
        print(f"{sum(lines for _, lines in files[path]):5}  {path}: {listed}")
    whole = sum(lines for rows in files.values() for _, lines in rows)
    print(f"{whole:5}  lines, {len(closure.found)} definitions in {len(files)} files, of {crate}::{function} {' '.join(wanted)}".rstrip())
    if write:
        with open(STATEMENT, "w", encoding="utf-8") as file:
            file.write(statement(closure))
    if write or not sys.argv[1:]:
        kept = read(STATEMENT) if os.path.isfile(STATEMENT) else ""
        current = kept == statement(closure)
        print("docs/STATEMENT.md is current" if current else "docs/STATEMENT.md is not current: run this script with --write")
        for line in list(difflib.unified_diff(kept.splitlines(), statement(closure).splitlines(), "docs/STATEMENT.md", "the sources", "", "", 0, ""))[:20]:
            print(line)
        return 0 if current else 1
    return 0


if __name__ == "__main__":
    sys.exit(print(__doc__) if sys.argv[1:] == ["--help"] else main())
