"""The doors to a book: the commands of credkeep, and the lines of a service.

Each door converts an operation, a line of tests/operations.py, to its own form.
"""

import base64
import itertools
import unittest
from collections.abc import Iterable
from typing import NamedTuple

from tests.credkeep.books import CHEAP, Book, says

# The number of an operation's passwords, and whether the last of them gets a record.
PASSWORDS = dict.fromkeys(("verify", "login", "enrol", "upgrade", "remove", "reset"), 1)
PASSWORDS["change"] = 2
MAKING = {"enrol", "change", "upgrade", "reset"}

# An operation, and the answer to it.
Row = tuple[str, str]


def in_base64(password: str) -> str:
    """A password as a line has it."""
    return base64.b64encode(password.encode()).decode().rstrip("=") or "-"


class Operation(NamedTuple):
    verb: str
    name: str
    passwords: list[str]
    rest: list[str]

    @classmethod
    def of(cls, text: str) -> "Operation":
        verb, name, *words = text.split()
        count = PASSWORDS.get(verb, 0)
        return cls(verb, name, [it.strip("-") for it in words[:count]], words[count:])

    def line(self) -> str:
        """The line of a service of tagged lines, without its tag."""
        return " ".join([self.verb, self.name, *map(in_base64, self.passwords), *self.rest])


class Commands:
    """A run of the program for each operation, which reads its passwords as lines."""

    words = {"verify": "check", "enrol": "add"}
    verbs = {*PASSWORDS, "disable", "delete", "rename"} - {"login"}

    def perform(self, test: unittest.TestCase, book: Book, rows: list[Row]) -> None:
        for text, answer in rows:
            verb, name, passwords, rest = Operation.of(text)
            words = [self.words.get(verb, verb), name, *rest]
            if verb in MAKING:
                words = [*words[:2], "--setting", *(rest or [CHEAP])]
            if verb in MAKING - {"upgrade"} and not passwords[-1]:
                words.append("--empty-password")
            with test.subTest(text=text):
                done = book(*words, given="".join(f"{it}\n" for it in passwords))
                test.assertEqual(done, says(answer))


class Tagged:
    """A service, each line of which waits for the answer to the one before."""

    verbs = {*PASSWORDS, "account", "load", "show", "disable", "delete", "rename", "list"}

    def __init__(self, *words: str) -> None:
        self.words = words

    def perform(self, test: unittest.TestCase, book: Book, rows: list[Row]) -> None:
        found = book.answers(*(f"t1 {Operation.of(it).line()}" for it, _ in rows), words=self.words)
        test.assertEqual([*zip(rows, found)], [(row, f"t1 {row[1]}") for row in rows])


Door = Commands | Tagged
DOORS: dict[str, Door] = {
    "commands": Commands(),
    "serve --tagged": Tagged(),
}


def perform(test: unittest.TestCase, book: Book, door: Door, rows: Iterable[Row]) -> None:
    """Performs each operation at a door, or at the service if the door lacks it."""

    def is_there(row: Row) -> bool:
        return row[0].split()[0] in door.verbs

    for has_them, group in itertools.groupby(rows, is_there):
        chosen = door if has_them else DOORS["serve --tagged"]
        chosen.perform(test, book, [*group])
