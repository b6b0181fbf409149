#!/usr/bin/env python3
"""Compares the crates' promises with docs/STATEMENTS.txt, which has a line for each promise.

    python3 tools/statements.py [--write]

A line consists of a checksum and a name. The checksum covers the words of the promise, and all
definitions in `specs/` and constants of the code on which the promise depends, in any crate. A
weakened clause therefore changes its own line, and a weakened definition the lines of the promises
that depend on it. The file has a line for

- each clause, `requires` and `ensures`, of a public function, of a trait and of an impl of a trait;
- each ghost item, and each fact that a struct keeps about its fields;
- each public function: its signature with its bounds, and whether its body is empty, as that of a
  law is. Functions in RUNS count with their bodies, since their clauses describe the run in those
  bodies;
- each public type, with its derives, texts of errors, variants and public fields; each impl of a
  trait; each public constant;
- each crate: the names that it exports, and its line in crates.txt; and HANDLES.

A signature, and the exports of a crate, count with the meaning of their imported names. The script
refuses everything that no line would show: a macro among items, an import of all names, a file that
no `mod` names, and an attribute that may hide an item, such as a condition other than `cfg(test)`.

A comment, the layout, the order of imports, a proof, a different body, or the file of an item
changes no line. Renaming a bound variable or a definition does change lines, since the script
compares words. No line shows the toolchain's own definitions, which its logic identifies. Private
parts of a type have no line, nor have the crates of tests and examples, which promise nothing.

--write writes the file again. Without --write the script prints the names whose lines differ, and
the status is 1 if any differs.
"""

from __future__ import annotations

import argparse
import collections
import dataclasses
import pathlib
import re
import sys
from collections.abc import Iterable, Iterator

import definitions
from definitions import Definitions, Names, Place, Text
from items import FOR_TESTS, File, Item, all_items
from tree import CRATES, TOP, is_test_or_example, listed, source

STATEMENTS = TOP / "docs/STATEMENTS.txt"
HEAD = """\
# A sum over each promise of the crates and all that it rests on. tools/statements.py says which,
# and writes this file. A second person reads what changed behind each line (CONTRIBUTING.md).
"""
# The functions, and the crates of functions, whose bodies are the runs that their clauses describe.
RUNS = {"crash_laws", "cred_file::crash_and_open", "cred_file::reopen"}
RUNS |= {"credbook::main", "credkeep::main"}
# The items that have their own line, beside those of their clauses.
TOLD = {"fn", "struct", "enum", "trait", "const", "static", "type"}
WRITE = "python3 tools/statements.py --write"


def joined(words: Iterable[str]) -> str:
    """Returns some words of Rattle as a name: `<FileBook<S> as Keeper>`."""
    text = re.sub(r" ?(::|[<(\[]) ?", r"\1", " ".join(words))
    return re.sub(r"(&) | ([,>)\]])", r"\1\2", text)


def without_generics(words: list[str]) -> list[str]:
    """Returns some words, without the `<..>` at their beginning."""
    depth = 0
    for at, word in enumerate(words):
        depth += {"<": 1, ">": -1}.get(word, 0)
        if depth == 0:
            return words[at + 1 :] if word == ">" else words[at:]
    return []


def header_of(impl: Item) -> list[str]:
    """Returns the type of an impl, without its parameters and their bounds."""
    words = without_generics(impl.head[impl.head.index("impl") + 1 :])
    return words[: words.index("where")] if "where" in words else words


def is_of_trait(item: Item) -> bool:
    """Whether an item is a trait, or an impl of one."""
    return item.kind == "trait" or item.kind == "impl" and "for" in header_of(item)


def name_of(item: Item) -> str:
    """Returns an item's name; that of an impl is `FileBook`, or `<FileBook<S> as Keeper>`."""
    if item.kind in ("ghost", "field", "mod"):
        return ""
    if item.kind != "impl":
        return item.name
    words = header_of(item)
    if "for" not in words:
        return joined(words).partition("<")[0]
    at = words.index("for")
    return f"<{joined(words[at + 1 :])} as {joined(words[:at])}>"


@dataclasses.dataclass
class Source:
    """A file of a crate's code, with the constants and all names that its clauses may use."""

    crate: str
    modules: Place
    items: list[Item]
    constants: Names = dataclasses.field(default_factory=dict)
    names: Names = dataclasses.field(default_factory=dict)
    # The names that its code has from other crates, or under another name than at their origin.
    others: Names = dataclasses.field(default_factory=dict)


def is_for_tests(item: Item) -> bool:
    return FOR_TESTS in item.attributes


def sources_of(crate: str, crates: pathlib.Path) -> Iterator[Source]:
    """Yields the files of a crate's code, except those that only its tests use."""
    top = crates / crate / "src"
    found = {}
    for file in sorted(top.glob("**/*.rt")):
        path = file.relative_to(top).with_suffix("").parts
        found[() if path in (("lib",), ("main",)) else path] = File(source(file)).items()
    places = [((*at, item.name), item) for at, items in found.items() for item in items]
    named = {place for place, item in places if item.kind == "mod"}
    if lost := {*found} - named - {()}:
        raise ValueError(f"{crate}: a file that no `mod` names: {'/'.join(min(lost))}.rt")
    tests = {place for place, item in places if is_for_tests(item)}
    for modules, items in found.items():
        if not any(modules[: len(place)] == place for place in tests):
            yield Source(crate, modules, [item for item in items if not is_for_tests(item)])


def imports_of(item: Item) -> list[tuple[str, Place]]:
    """Returns the imports in a `use` of Rattle code: each local name, with its path."""
    path = item.head[item.head.index("use") + 1 :]
    if "*" in path:
        raise ValueError(f"an import of unknown names: {''.join(path)}")
    words = ["." if word == "::" else word for word in path]
    return [*definitions.imported(words)]


def stated(item: Item, owner: Item | None, is_run: bool) -> list[str]:
    """Returns the text for the checksum of an item's line: everything that others see of the item
    except its clauses."""
    words = [*item.attributes, *item.head]
    if item.kind == "fn" and owner is not None and owner.kind == "impl":
        words = [*owner.head, *words]
    if item.kind == "enum" or is_run:
        words += item.body or []
    elif item.kind == "fn" and item.body == []:
        words.append("{}")
    for field in item.inner:
        if item.kind == "struct" and field.is_public and not field.clauses:
            words += [*field.attributes, *field.head, ","]
    return words


class Statements:
    """A line for each promise of some crates: its name, and its checksum."""

    def __init__(self, names: list[str], crates: pathlib.Path = CRATES) -> None:
        self.found = Definitions(crates)
        self.lines: list[tuple[str, str]] = []
        self.constants: dict[tuple[str, str], list[Place]] = collections.defaultdict(list)
        sources = [it for name in names for it in sources_of(name, crates)]
        for file in sources:
            self.add_constants(file)
        self.modules: dict[tuple[str, str], set[Place]] = collections.defaultdict(set)
        for file in sources:
            for item in file.items:
                if item.kind in TOLD | {"mod"}:
                    self.modules[file.crate, item.name].add(file.modules)
        for file in sources:
            self.add_names(file)
            self.add_others(file)
        for file in sources:
            for item in file.items:
                self.read(file, item)
        for name in names:
            self.say(f"{name} pub use", self.exported([it for it in sources if it.crate == name]))

    def add_constants(self, file: Source) -> None:
        """Adds a file's constants to the definitions."""
        for item in file.items:
            if item.kind in ("const", "static"):
                text = Text(item.head[item.head.index(item.kind) :], file.constants)
                path = self.found.add_constant(file.crate, file.modules, item.name, text)
                self.constants[file.crate, item.name].append(path)
                file.constants[item.name] = {path}

    def add_names(self, file: Source) -> None:
        """Adds the names that a file imports, in code for constants and for ghost text."""
        for item in all_items(file.items):
            if item.kind == "use":
                for local, path in imports_of(item):
                    crate = path[0] if path[0] in self.found.crates else file.crate
                    for constant in self.constants[crate, path[-1]]:
                        file.constants.setdefault(local, set()).add(constant)
        file.names = {name: {*paths} for name, paths in file.constants.items()}
        for item in all_items(file.items):
            if item.kind == "ghost use":
                definitions.add_names(file.names, definitions.words(item.clauses[0].text))

    def add_others(self, file: Source) -> None:
        """Adds the meaning of a name in the code: an import from another crate or under another
        name, or the other name of a type. The file of a crate itself may have any name."""
        for item in all_items(file.items):
            if item.kind == "use":
                for local, path in imports_of(item):
                    file.others.setdefault(local, set()).add(self.whence(file, path))
            elif item.kind == "type" and not item.is_public:
                file.others.setdefault(item.name, set()).add(("type", *item.head))

    def whence(self, file: Source, path: Place) -> Place:
        """Returns the origin of an import: its crate and its name there, and also its module if
        several modules of the crate have that name. A library of the toolchain counts as a
        whole."""
        is_own = path[0] in ("crate", "self", "super") or (file.crate, path[0]) in self.modules
        crate = file.crate if is_own else path[0]
        if crate not in self.found.crates:
            return path
        several = len(self.modules.get((crate, path[-1]), ())) > 1
        return (crate, *(path[1:-1] if several else ()), path[-1])

    def exported(self, sources: list[Source]) -> list[str]:
        """Returns the names that a crate exports with their origins, and its public modules."""
        names = set()
        for file in sources:
            for item in all_items(file.items):
                if not item.is_public:
                    continue
                if item.kind == "mod":
                    names.add(f"mod {item.name}")
                elif item.kind == "use":
                    for local, path in imports_of(item):
                        names.add(f"{'.'.join(self.whence(file, path))} as {local}")
        return sorted(names)

    def say(self, name: str, words: list[str], names: Names | None = None) -> None:
        """Adds the line of a promise."""
        self.lines.append((name, self.found.sum_of(Text(words, names or {}))))

    def read(self, file: Source, item: Item, owner: Item | None = None) -> None:
        """Adds the lines of an item, whose owner is the impl, trait or struct around it."""
        if item.kind in ("use", "ghost use") or is_for_tests(item):
            return
        names = (file.crate, name_of(owner) if owner else "", name_of(item))
        name = "::".join(it for it in names if it)
        is_run = item.kind == "fn" and (file.crate in RUNS or name in RUNS)
        of_trait = owner is not None and is_of_trait(owner)
        is_method = owner is not None and owner.kind == "impl" and item.kind == "fn"
        is_public = item.is_public or is_run or of_trait and not is_method
        if is_public and item.kind in TOLD or is_of_trait(item):
            names_of_code = {**file.others, **file.constants}
            self.say(f"{name} {item.kind}", stated(item, owner, is_run), names_of_code)
        if is_public or of_trait or item.kind != "fn":
            for clause in item.clauses:
                words = definitions.words(clause.text)
                self.say(f"{name} {clause.kind} {clause.name}".rstrip(), words, file.names)
        for inner in item.inner:
            self.read(file, inner, None if item.kind == "mod" else item)


def promises() -> list[tuple[str, str]]:
    """Returns the name and the checksum of each promise in the tree, by name."""
    names = [it for it in listed() if not is_test_or_example(it)]
    found = Statements(names)
    for name in names:
        words, below = listed()[name]
        found.say(f"crates.txt {name}", [*words.split(), *sorted(below)])
    found.say("HANDLES", source(TOP / "HANDLES").split())
    return sorted(found.lines)


def differences(text: str, lines: list[tuple[str, str]]) -> list[str]:
    """Returns the change of each promise whose line is missing from a text."""
    was, now = collections.defaultdict(list), collections.defaultdict(list)
    for line in text.splitlines():
        if not line.startswith("#"):
            was[line.partition(" ")[2]].append(line.partition(" ")[0])
    for name, found in lines:
        now[name].append(found)
    changes = []
    for name in sorted({*was, *now}):
        if not was[name]:
            changes.append(f"new: {name}")
        elif not now[name]:
            changes.append(f"gone: {name}")
        elif sorted(was[name]) != sorted(now[name]):
            changes.append(f"changed: {name}")
    return changes


def check() -> list[str | None]:
    """Returns the faults of docs/STATEMENTS.txt."""
    try:
        found = differences(source(STATEMENTS), promises())
    except (LookupError, ValueError) as wrong:
        return [f"docs/STATEMENTS.txt: {wrong}"]
    if not found:
        return [None]
    count = "1 promise differs" if len(found) == 1 else f"{len(found)} promises differ"
    told = f"{count} from docs/STATEMENTS.txt: if you mean that, run `{WRITE}`"
    return ["\n".join([*found, told])]


def main() -> int:
    reader = argparse.ArgumentParser(usage="python3 tools/statements.py [--write]")
    reader.add_argument("--write", action="store_true", help="write docs/STATEMENTS.txt anew")
    if reader.parse_args().write:
        STATEMENTS.write_text(HEAD + "".join(f"{found} {name}\n" for name, found in promises()))
        return 0
    [wrong] = check()
    print(wrong or "docs/STATEMENTS.txt has the line of each promise")
    return 1 if wrong else 0


if __name__ == "__main__":
    sys.exit(main())
