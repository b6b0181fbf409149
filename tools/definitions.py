"""The definitions in the crates' `specs/`, and those on which a text of antt depends.

A definition's identity is its place, ("cred_many", "Served", "HasCause"): its crate, its module,
its name. The checksum covers the words of the text, and the sources of those names that we don't
define. A comment, the layout, the order of imports, and the file of a definition therefore change
no checksum.
"""

from __future__ import annotations

import dataclasses
import hashlib
import pathlib
import re
from collections.abc import Iterator

from tree import CRATES, source

Place = tuple[str, ...]
# Each local name of a file, with all paths from which the file imports it.
Names = dict[str, set[Place]]

NAME = r"[^\s(){}.;,@\"«»]+"
# A name with the fields or modules after its dots, a text, or a mark.
WORD = re.compile(rf'"(?:\\.|[^"\\])*"|(?:«{NAME}»|{NAME})(?:\.{NAME})*|[(){{}}.;,@]')
COMMENT = re.compile(r"(^|(?<=\s))--.*", re.M)
MARKS = {"pattern", "unfoldable", "abbrev", "pub", "axiom"}
DECLARED = {"record", "data", "ruleset"}
# The modules of a crate that the toolchain derives from its code.
MADE = {"declared", "contracts"}


def words(text: str) -> list[str]:
    """Returns the words of antt, without a comma or semicolon before a bracket, which is only
    layout."""
    found = WORD.findall(COMMENT.sub("", text))
    behind = [*found[1:], ""]
    pairs = zip(found, behind)
    return [it for it, after in pairs if it not in (",", ";") or after not in (")", "}")]


def closing(found: list[str], start: int) -> int:
    """Returns the place of the brace that closes the one at a word."""
    depth = 0
    for at in range(start, len(found)):
        depth += (found[at] == "{") - (found[at] == "}")
        if depth == 0:
            return at
    raise ValueError(f"an unclosed brace: {' '.join(found[start : start + 9])}")


def entries(found: list[str]) -> Iterator[list[str]]:
    """Yields the parts between the commas outside braces."""
    entry: list[str] = []
    at = 0
    while at < len(found):
        end = closing(found, at) + 1 if found[at] == "{" else at + 1
        if found[at] == ",":
            yield entry
            entry = []
        else:
            entry += found[at:end]
        at = end
    yield entry


def imported(path: list[str], front: Place = ()) -> Iterator[tuple[str, Place]]:
    """Yields the imports of `A.B.{c, d as e}`: each local name, with the path of its origin."""
    words = [part for word in path for part in word.split(".")]
    for entry in entries([word for word in words if word]):
        if "{" in entry:
            opens = entry.index("{")
            yield from imported(entry[opens + 1 : -1], (*front, *entry[:opens]))
        elif "as" in entry:
            yield entry[-1], (*front, *entry[:-2])
        elif entry:
            yield entry[-1], (*front, *entry)


def parts(name: str) -> list[str]:
    """Returns a name, or, for an operator such as `◌+◌`, the sign between its arguments."""
    return [name, *(it for it in name.split("◌") if it and it != name)]


def add_names(names: Names, path: list[str]) -> None:
    """Adds the names that a path imports."""
    for local, place in imported(path):
        for name in parts(local):
            names.setdefault(name, set()).add(place)


def pieces(text: str) -> list[str]:
    """Returns the parts of a file that begin in its first column, except closing brackets."""
    found = re.split(r"^(?=[^\s)}\]])", COMMENT.sub("", text), flags=re.M)
    return [it for it in found if it.strip()]


def name_declared(piece: list[str]) -> str | None:
    """Returns the name that a piece declares, or none for a case of the definition before it."""
    rest = piece[next(at for at, it in enumerate(piece) if it not in MARKS) :]
    if rest[0] in DECLARED:
        return rest[1]
    if rest[0].startswith("infix"):
        return rest[-1]
    behind = closing(rest, 1) + 1 if rest[1:2] == ["{"] else 1
    return rest[0] if rest[behind : behind + 1] == [":"] else None


def constructors(piece: str) -> list[str]:
    """Returns the constructors that a piece declares, if it declares a data type."""
    return re.findall(rf"^\s+({NAME}) :", piece, re.M) if "data" in words(piece)[:2] else []


@dataclasses.dataclass
class Text:
    """Some words of antt or of Rattle, and the names of their file."""

    words: list[str]
    names: Names


@dataclasses.dataclass
class Meaning:
    """The words of a text, and the definitions that it names."""

    said: str
    below: set[Place]


class Definitions:
    """All definitions of a tree, and those on which a text depends."""

    def __init__(self, crates: pathlib.Path = CRATES) -> None:
        self.crates = {it.name for it in crates.iterdir()}
        self.found: dict[Place, Text] = {}
        # The type of a constructor, and the origin of a name that a module re-exports.
        self.types: dict[Place, Place] = {}
        self.handed_on: dict[Place, Place] = {}
        self.meanings: dict[Place, Meaning] = {}
        for file in sorted(crates.glob("*/specs/**/*.antt")):
            crate, _, *modules = file.relative_to(crates).with_suffix("").parts
            self.read(crate, (*modules,), source(file))

    def read(self, crate: str, modules: Place, text: str) -> None:
        """Reads the file of a module."""
        names: Names = {}
        current: list[str] = []
        for piece in pieces(text):
            found = words(piece)
            if "use" in found[:2]:
                path = found[found.index("use") + 1 :]
                add_names(names, path)
                if found[0] == "pub":
                    self.handed_on |= {(crate, *modules, it): at for it, at in imported(path)}
            elif "mod" not in found[:2]:
                if name := name_declared(found):
                    place = (crate, *modules, name)
                    inner = constructors(piece)
                    self.types |= {(crate, *modules, it): place for it in inner}
                    for local in (name, *inner):
                        add_names(names, ["Rattle", crate, "specs", *modules, local])
                    current = self.found.setdefault(place, Text([], names)).words
                current += found

    def add_constant(self, crate: str, modules: Place, name: str, text: Text) -> Place:
        """Adds a constant of the code, and returns the path by which definitions name it."""
        place = ("declared", *modules, "TheConstants", name)
        self.found[(crate, *place)] = text
        return ("Rattle", crate, "specs", *place)

    def origin(self, path: Place) -> Place:
        """Returns the path of a definition, from the module that defines it: other modules may
        re-export it."""
        rest = path[3:]
        for end in range(len(rest), 0, -1):
            if further := self.handed_on.get((path[1], *rest[:end])):
                return self.origin((*further, *rest[end:]))
        return path

    def at(self, path: Place) -> Place | None:
        """Returns the definition to which a path leads; fields may follow its name."""
        rest = path[3:]
        for end in range(len(rest), 0, -1):
            place = (path[1], *rest[:end])
            place = self.types.get(place, place)
            if place in self.found:
                return place
        return None

    def is_ours(self, path: Place) -> bool:
        """Whether a path leads into a crate of the tree."""
        return path[0] == "Rattle" and path[1] in self.crates

    def named(self, path: Place) -> str:
        """Returns the form of a name that we don't define: the toolchain's, by its whole path."""
        if not self.is_ours(path):
            return ".".join(path)
        if path[2] == "specs" and path[3] not in MADE:
            raise LookupError(f"{'.'.join(path)} is named, but doesn't exist")
        return ".".join([path[1], *(it for it in path[3:] if not it[0].islower())])

    def meaning(self, text: Text) -> Meaning:
        """Returns the meaning of a text by itself: its words, and the definition of each name. An
        import may rename a definition, so one of ours counts by its own name and words, and any
        other by its path."""
        below, others = set(), set()
        for word in text.words:
            first, *fields = word.split(".")
            for imported_path in text.names.get(first, ()):
                path = self.origin((*imported_path, *fields))
                place = self.at(path) if self.is_ours(path) else None
                if place:
                    below.add(place)
                    others.add(f"{word} = {path[-1]} of {' '.join(self.found[place].words)}")
                else:
                    others.add(f"{first} = {self.named(path)}")
        return Meaning(" ".join([*text.words, *sorted(others)]), below)

    def meaning_at(self, place: Place) -> Meaning:
        if place not in self.meanings:
            self.meanings[place] = self.meaning(self.found[place])
        return self.meanings[place]

    def below(self, text: Text) -> set[Place]:
        """Returns all definitions on which a text depends."""
        found: set[Place] = set()
        left = self.meaning(text).below
        while left:
            found |= left
            left = {low for it in left for low in self.meaning_at(it).below} - found
        return found

    def sum_of(self, text: Text) -> str:
        """Computes a checksum over a text, and over everything on which it depends."""
        said = sorted(self.meaning_at(it).said for it in self.below(text))
        whole = "\n".join([self.meaning(text).said, *said])
        return hashlib.sha256(whole.encode()).hexdigest()[:16]
