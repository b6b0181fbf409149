#!/usr/bin/env python3
"""Prints definitions from crates/*/specs/ into docs/DEFINITIONS.md.

    python3 tools/definitions_page.py [--write]

A line of the page requests the block of text after it:

    <!-- definitions of CRATE.MODULE.NAME, .. up to CRATE.MODULE.NAME, .. -->

A block contains the definitions that the line names first, and all of our definitions on which they
depend. Each has the comment above it, and their order is that of their first mention. The
definitions after `up to` are its chapters: they come last, without those on which they depend. A
block doesn't repeat the definitions of earlier blocks. A block ends with the names of code and of
the toolchain's libraries that it uses, except those of Rattle.std.specs.Prelude.

--write prints the blocks again. Without --write the tool lists the blocks that differ from the
tree, and the status is 1 if any differs.
"""

from __future__ import annotations

import argparse
import re
import sys
import textwrap
from collections.abc import Iterable, Iterator

from definitions import MADE, Definitions, Place, name_declared, words
from tree import CRATES, TOP, source

PAGE = TOP / "docs/DEFINITIONS.md"
BLOCK = re.compile(r"^<!-- definitions of ([^<>]+) -->\n```text\n(.*?)^```$", re.M | re.S)
WRITE = "python3 tools/definitions_page.py --write"
# The module that a reader of any text of antt knows.
KNOWN = ("Rattle", "std", "specs", "Prelude")


def texts_in(file: str) -> dict[str, str]:
    """Returns the text of each definition of a file, with the comment right above it."""
    found: dict[str, str] = {}
    name = comment = ""
    for piece in re.split(r"^(?=[^\s)}\]])", file, flags=re.M):
        said = words(piece)
        if piece.startswith("--"):
            comment = "" if piece.endswith("\n\n") else comment + piece
            continue
        if said and not {"use", "mod"} & {*said[:2]}:
            name = name_declared(said) or name
            found[name] = found.get(name, "") + comment + piece
        comment = ""
    return {name: text.rstrip() for name, text in found.items()}


def texts() -> Iterator[tuple[Place, str]]:
    """Yields the text of each definition in the tree."""
    for file in sorted(CRATES.glob("*/specs/**/*.antt")):
        crate, _, *module = file.relative_to(CRATES).with_suffix("").parts
        for name, text in texts_in(source(file)).items():
            yield (crate, *module, name), text


def item_of(path: Place) -> str:
    """Returns the type or constant in the code that a path names: `cred_cli::Event` for
    `Rattle.cred_cli.specs.declared.event.Event.TheVariants.Begin`."""
    names = [it for it in path[3:] if it[0].isupper() and it != "TheConstants"]
    return "::".join([path[1], *names[:1]])


def listed_as(head: str, names: Iterable[str]) -> list[str]:
    """Returns a comment that lists some names, if it has any to list."""
    said = f"{head}: {', '.join(sorted(names))}"
    lines = textwrap.wrap(said, 96, break_long_words=False, break_on_hyphens=False)
    return ["\n".join(f"-- {it}" for it in lines)] if names else []


class Printer:
    """Prints the blocks of a page, from its top to its end."""

    def __init__(self) -> None:
        self.found = Definitions()
        self.texts = dict(texts())
        self.printed: set[Place] = set()

    def place(self, name: str) -> Place:
        place = (*name.strip().split("."),)
        if place not in self.texts:
            raise LookupError(f"no file of specs/ has the definition {name.strip()}")
        return place

    def places(self, names: str) -> list[Place]:
        return [self.place(name) for name in names.split(",") if name.strip()]

    def named_in(self, place: Place) -> Iterator[Place]:
        """Yields the paths that a definition names, in its order."""
        text = self.found.found[place]
        for word in text.words:
            first, *fields = word.split(".")
            for path in sorted(text.names.get(first, ())):
                yield self.found.origin((*path, *fields))

    def below(self, roots: list[Place], chapters: list[Place]) -> list[Place]:
        """Returns some definitions and all on which they depend, except for chapters, in the order
        of their first mention."""
        found: dict[Place, None] = {}
        left = [*reversed(roots)]
        while left:
            place = left.pop()
            if place not in found and place not in chapters:
                found[place] = None
                paths = [path for path in self.named_in(place) if self.found.is_ours(path)]
                lower = [self.found.at(path) for path in reversed(paths)]
                left += [each for each in lower if each]
        return [*found]

    def others(self, places: list[Place]) -> list[str]:
        """Lists the names in some definitions that `specs/` doesn't define."""
        named = {path for place in places for path in self.named_in(place)}
        paths = {path for path in named if path[:4] != KNOWN}
        ours = {path for path in paths if self.found.is_ours(path)}
        items = {item_of(path) for path in ours if path[3] in MADE}
        of_library = [path for path in paths - ours if path[0] == "Rattle"]
        library = {".".join((path[1], *path[3:])) for path in of_library}
        return [*listed_as("of the code", items), *listed_as("of the toolchain", library)]

    def block(self, said: str) -> str:
        """Returns the text that a line of the page requests."""
        names_of_roots, _, names_of_chapters = said.partition(" up to ")
        roots = self.places(names_of_roots)
        chapters = self.places(names_of_chapters)
        places = [*self.below(roots, chapters), *chapters]
        new = [it for it in places if it not in self.printed]
        self.printed |= {*new}
        parts: list[str] = []
        module: Place = ()
        for place in new:
            if place[:-1] != module:
                module = place[:-1]
                parts.append(f"-- ---- crates/{module[0]}/specs/{'/'.join(module[1:])}.antt")
            parts.append(self.texts[place])
        return "\n\n".join([*parts, *self.others(new)]) + "\n"


def printed(page: str) -> str:
    """Returns the page, with the text of each block printed again from the files of specs/."""
    printer = Printer()

    def block(found: re.Match[str]) -> str:
        return f"<!-- definitions of {found[1]} -->\n```text\n{printer.block(found[1])}```"

    return BLOCK.sub(block, page)


def check() -> Iterator[str | None]:
    """Yields the fault of each block of the page."""
    page = source(PAGE)
    try:
        wanted = printed(page)
    except (LookupError, ValueError) as wrong:
        yield f"docs/DEFINITIONS.md: {wrong}"
        return
    blocks = [it[0] for it in BLOCK.finditer(wanted)]
    yield None if blocks else "docs/DEFINITIONS.md has no block of definitions"
    for found, block in zip(BLOCK.finditer(page), blocks):
        said = found[1].partition(" up to ")[0]
        wrong_block = f"docs/DEFINITIONS.md: {said} differs from specs/: `{WRITE}` corrects it"
        yield None if found[0] == block else wrong_block


def main() -> int:
    reader = argparse.ArgumentParser(usage="python3 tools/definitions_page.py [--write]")
    reader.add_argument("--write", action="store_true", help="print the blocks anew")
    if reader.parse_args().write:
        PAGE.write_text(printed(source(PAGE)))
        return 0
    wrong = [it for it in check() if it]
    print("\n".join(wrong) or "docs/DEFINITIONS.md has the definitions of specs/")
    return 1 if wrong else 0


if __name__ == "__main__":
    sys.exit(main())
