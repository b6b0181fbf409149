"""Edits of texts: wrong bodies, and the mistakes that tools/mutate.py plants.

A file of edits has a block for each, and comments behind `#`. The first line of a block is
`NAME: OF`: its name, and what refuses it. Texts behind `-`, each with its replacement behind `+`,
follow. An old text occurs once in one file, or in the file that a line `in FILE` before it names.
"""

from __future__ import annotations

import itertools
import pathlib
import re
from typing import NamedTuple

from tree import source

BLOCK = re.compile(r"[\w-]+: \S+\n((in \S+\n)?(-( .*)?\n)+(\+( .*)?\n)+)+")
# The name of each file, with its text.
Texts = dict[str, str]


class Change(NamedTuple):
    """A text, the file that has it once, and its replacement. An empty file name means the only
    file with the text."""

    file: str
    old: str
    new: str

    def place(self, texts: Texts) -> str:
        """Returns the name of the file, or nothing if several files or none have the text."""
        if self.file:
            return self.file
        files = [name for name, text in texts.items() if self.old in text]
        return files[0] if len(files) == 1 else ""


class Edit:
    """An edit, as its block describes it."""

    def __init__(self, block: str) -> None:
        head, *self.lines = block.splitlines()
        self.name, _, self.of = head.partition(": ")
        self.changes: list[Change] = []
        file = old = ""
        for mark, group in itertools.groupby(self.lines, lambda line: line[:1]):
            text = "\n".join(line[2:] for line in group)
            if mark == "-":
                old = text
            elif mark == "+":
                self.changes.append(Change(file, old, text))
            else:
                file = text.strip()

    def planted(self, texts: Texts) -> Texts | None:
        """Returns the texts of the files with this edit applied, or None if it doesn't apply."""
        found = dict(texts)
        for change in self.changes:
            file = change.place(found)
            if found.get(file, "").count(change.old) != 1:
                return None
            found[file] = found[file].replace(change.old, change.new)
        return found if found != texts else None


def blocks_in(file: pathlib.Path) -> list[str]:
    """Returns the blocks of a file of edits."""
    text = re.sub(r"^#.*\n", "", source(file), flags=re.M)
    blocks = [f"{it}\n" for it in re.split(r"\n\s*\n", text.strip()) if it]
    if wrong := next((it for it in blocks if not BLOCK.fullmatch(it)), ""):
        raise SystemExit(f"{file}: no edit has this form:\n{wrong}")
    names = [it.partition(":")[0] for it in blocks]
    if twice := {it for it in names if names.count(it) > 1}:
        raise SystemExit(f"{file}: several edits are named {min(twice)}")
    return blocks
