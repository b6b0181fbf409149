"""The commands of an administrator for a running server."""

from __future__ import annotations

import base64
import os
import re
import subprocess
import sys
import tempfile
from typing import BinaryIO, cast

from ..protocol import ANSWERS, IMPORT_OPTIONS, LONGEST_TEXT, OPERATIONS, Command

from .file import PROGRAM
from .server import Server
from .terminal import end, end_in_order, read_passwords, write_answer

LONGEST_PASSWORD = 256  # bytes
LONGEST_NAME = 254  # bytes: a name may be an address
# The commands, by their words: those of operations, and two that run more than one operation.
COMMANDS = {
    "add": Command("NAME", "add an account, or its first record; asks for the password twice"),
    "check": Command("NAME", "ask for the password, and say whether it is right"),
}
COMMANDS |= {
    word.decode(): operation.command
    for word, operation in OPERATIONS.items()
    if operation.command is not None
}
OPTIONS = {"show": ("--record",), "import": IMPORT_OPTIONS}
# The marks of an account in an answer, and the words for them.
MARKS = {"~": "expired", "!": "locked"}
# Answers to `check` that let nobody in; from other commands the same words mean success.
NO_LOGIN = ("expired", "locked")
LISTS = ("list", "marks", "stats", "waits")  # commands whose answers are names, and no refusals


class Commands:
    """The commands for a server, one method for each, which prints the answer and returns the
    status."""

    def __init__(self, server: Server) -> None:
        self.server = server

    def do(self, command: str, words: list[str], options: list[str]) -> int:
        if command == "import":
            return self.import_text(options)
        if command == "export":
            return self.server.run("export", sys.stdout.buffer)
        if command == "backup":
            return self.backup(words[0])
        said = self.answer(command, words, "--record" in options)
        write_answer(said)
        if command in LISTS:
            return 4 if said == "noaccount" and command == "marks" else 0
        if command == "check" and said in NO_LOGIN:
            return 4
        return ANSWERS[said].ask if said in ANSWERS else 0

    def answer(self, command: str, names: list[str], is_whole: bool) -> str:
        """Returns the output of a command."""
        if command == "add":
            return self.add(names[0])
        if command in ("check", "reset"):
            return self.with_password(command, names[0])
        if command == "marks":
            return self.marks(names)
        if command in ("stats", "waits"):
            return self.items(command)
        if command == "show":
            return self.show(names[0], is_whole)
        if command == "list":
            return "\n".join(self.server.pages("list"))
        if command == "load":
            return self.load(names[0])
        return self.server.ask(command, *names)

    def add(self, name: str) -> str:
        """Adds an account with a record, or the first record of an account."""
        known = self.server.ask("known", name)
        if known in ("yes", "expired"):
            return "exists"
        field = field_of(read_passwords("add")[0])
        if known == "noaccount" and (said := self.server.ask("account", name)) != "ok":
            return said
        try:
            return self.server.ask("enrol", name, field)
        except SystemExit:  # after a refused password, no account remains
            if known == "noaccount":
                self.server.send("delete", name)
            raise

    def with_password(self, command: str, name: str) -> str:
        """Checks or resets the password of an existing account."""
        known = self.server.ask("known", name)
        if known == "absent" and command == "check":
            return "locked" if self.is_locked(name) else known
        if known == "noaccount":
            return known
        field = field_of(read_passwords(command)[0])
        return self.server.ask("verify" if command == "check" else command, name, field)

    def is_locked(self, name: str) -> bool:
        """Whether an account is locked, as far as the socket shows it."""
        return "!" in marks_of(self.server.send("show", name))

    def items(self, command: str) -> str:
        """Returns a line for each item of an answer, and prints the number of omitted items on
        standard error."""
        items = self.server.ask(command).split()[1:]
        if items and items[-1].startswith("more="):
            more = items.pop().removeprefix("more=")
            print(f"credkeep-ask: {more} more aren't shown", file=sys.stderr)
        return "\n".join(items)

    def marks(self, names: list[str]) -> str:
        """Returns the marks of all names, or the marks and the wait of one name, each on its own
        line."""
        if not names:
            found = self.server.pages("marks")
            return "\n".join(line for name in found for line in lines_of(name, found[name]))
        said, waits = self.server.ask("show", names[0]), self.server.send("waits", names[0])
        lines = lines_of(names[0], marks_of(said))
        if wait := re.fullmatch(r"waits \S+:(\d+)", waits):
            lines.append(f"{names[0]}:later:{wait[1]}")
        return said if said == "noaccount" and not lines else "\n".join(lines)

    def show(self, name: str, is_whole: bool) -> str:
        """Returns the marks, followed by the costs of a record or by the whole record."""
        said = self.server.ask("show", name)
        marks = marks_of(said)
        if said in ("none", marks):
            return "absent"
        is_record = said[len(marks) :].startswith("$")
        if is_whole or not is_record:
            return said
        costs = said.split("$")[:-2]  # without the salt and the tag
        return "$".join(costs)

    def load(self, name: str) -> str:
        """Loads a record, or a line NAME:RECORD, from standard input."""
        line = sys.stdin.buffer.readline().strip()
        record = line.decode("ascii", "replace").removeprefix(f"{name}:")
        if not re.fullmatch(r"\$[!-~]{1,600}", record):
            end(6, "standard input has no record")
        return self.server.ask("load", name, record)

    # ---- the whole book

    def import_text(self, options: list[str]) -> int:
        """Adds the accounts in the lines of standard input."""
        text = sys.stdin.buffer.read(LONGEST_TEXT + 1)
        if len(text) > LONGEST_TEXT:
            end(6, f"standard input has over {LONGEST_TEXT >> 20} MiB: import it in parts")
        return self.server.run_with(text, "import", str(len(text)), *options)

    def backup(self, file: str) -> int:
        """Writes the server's copy beside the destination; credkeep then writes the backup from
        it."""
        end_in_order()
        folder = os.path.dirname(os.path.abspath(file))
        try:
            copy = tempfile.NamedTemporaryFile(prefix=".credkeep-ask-", dir=folder)
        except OSError as fault:
            end(5, f"{folder}: {fault.strerror}")
        with copy:
            if status := self.server.run("backup", cast(BinaryIO, copy)):
                return status
            try:
                return subprocess.run([PROGRAM, copy.name, "backup", file]).returncode
            except OSError as fault:
                end(1, f"{PROGRAM}: {fault.strerror}")


def lines_of(name: str, marks: str) -> list[str]:
    """Returns a line for each mark of a name."""
    return [f"{name}:{word}" for mark, word in MARKS.items() if mark in marks]


def marks_of(said: str) -> str:
    """Returns the marks before a record, in the answer to `show`."""
    return said[: len(said) - len(said.lstrip("!~"))]


def is_name(word: str) -> bool:
    """Whether a name is a single field of a line, and no longer than an address."""
    try:
        size = len(word.encode())
    except UnicodeEncodeError:  # a byte of the command line that isn't UTF-8
        return False
    return 0 < size <= LONGEST_NAME and not re.search(r"[\0-\x20\x7f]", word)


def field_of(password: bytes) -> str:
    """Returns a password as a field of a line."""
    if not password:
        end(6, "the password is empty")
    if len(password) > LONGEST_PASSWORD:
        end(6, f"the password has over {LONGEST_PASSWORD} bytes")
    return base64.b64encode(password).decode().rstrip("=")
