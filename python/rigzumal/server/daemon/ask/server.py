"""Sends lines to the server at an administrator's socket, and reads the answers."""

from __future__ import annotations

import socket
import sys
from contextlib import suppress
from typing import BinaryIO

from ..protocol import ANSWERS

from .terminal import end, end_unwritten

SECONDS = 60.0  # seconds to wait for the answer to a line
AT_ONCE = 1000  # names of a page
PIECE = 65536  # bytes of a book to write at a time
TAG = "1"
# Refusals for which an administrator's command prints only the word.
PLAIN = ("bad 1 exists", "bad 5 noaccount")


class Server:
    """A connection to the server. Each of its methods ends the program if it can't continue."""

    def __init__(self, path: str) -> None:
        self.path = path
        self.socket = socket.socket(socket.AF_UNIX)
        self.socket.settimeout(SECONDS)
        try:
            self.socket.connect(path)
        except OSError as fault:
            is_away = isinstance(fault, (FileNotFoundError, ConnectionRefusedError))
            said = "; no server runs there: credkeep-server(8)" if is_away else ""
            end(5, f"{path}: {fault.strerror or fault}{said}")
        self.answers = self.socket.makefile("rb")

    def send(self, *words: str) -> str:
        """Sends a line, and returns the answer, even if the answer is a refusal."""
        with suppress(OSError):  # a server that has ended answers nothing
            self.socket.sendall(f"{TAG} {' '.join(words)}\n".encode())
        return self.answer()

    def answer(self) -> str:
        """Returns the next answer."""
        line = b""
        with suppress(OSError):
            line = self.answers.readline()
        tag, _, said = line.decode("ascii", "replace").rstrip("\n").partition(" ")
        if tag != TAG or not line.endswith(b"\n") or said == "unavailable":
            text = "no answer; the change may or may not be stored: check with `show`"
            end(5, f"{self.path}: {text}")
        return said

    def ask(self, *words: str) -> str:
        """Sends a line, and returns the answer; a refusal ends the program."""
        said = self.send(*words)
        if said in PLAIN:
            return said.split(" ")[2]
        if said == "denied":
            end(1, f"{self.path} doesn't allow {words[0]}")
        if said.startswith("bad "):
            status = ANSWERS[said].ask if said in ANSWERS else 1
            _, number, word = said.split(" ", 2)
            end(status, f"the server refused {words[0]}: {word} ({number}; see docs/ERRORS.md)")
        if said in ANSWERS and ANSWERS[said].text:
            end(ANSWERS[said].ask, as_said_here(ANSWERS[said].text))
        return said

    def pages(self, operation: str) -> dict[str, str]:
        """Returns all names of a list, with their marks: each page begins with the last name of the
        previous one."""
        found, first = dict[str, str](), "-"
        while True:
            page = self.ask(operation, first, str(AT_ONCE)).split()[1:]
            for item in page:
                first, _, marks = item.partition(":")
                found[first] = marks
            if len(page) < AT_ONCE:
                return found

    # ---- whole books, which credkeep reads and writes beside the server

    def run(self, operation: str, output: BinaryIO) -> int:
        """Requests an operation of credkeep, copies its output to standard output, and returns its
        status."""
        self.socket.settimeout(None)  # a large book takes long
        return self.copy_result(self.ask(operation), output)

    def run_with(self, text: bytes, *words: str) -> int:
        """Requests an operation of credkeep that reads a text, and copies the answer to standard
        output."""
        self.socket.settimeout(None)
        said = self.ask(*words)
        if said != f"send {len(text)}":
            end(5, f"{self.path}: not an answer of a server: {said:.40}")
        with suppress(OSError):  # a server that has ended answers nothing
            self.socket.sendall(text)
        return self.copy_result(self.answer(), sys.stdout.buffer)

    def copy_result(self, said: str, output: BinaryIO) -> int:
        """Copies both output streams of credkeep, and returns its status."""
        word, *numbers = said.split(" ")
        if word != "ended" or len(numbers) != 3 or not all(map(str.isdecimal, numbers)):
            end(5, f"{self.path}: not an answer of a server: {said:.40}")
        status, size, size_of_faults = map(int, numbers)
        self.copy(size, output)
        self.copy(size_of_faults, sys.stderr.buffer)
        return status

    def copy(self, size: int, output: BinaryIO) -> None:
        """Copies this many bytes from the server."""
        try:
            while size:
                piece = self.piece(min(size, PIECE))
                size -= len(piece)
                output.write(piece)
            output.flush()
        except OSError:
            end_unwritten()

    def piece(self, most: int) -> bytes:
        """Returns some bytes from the server."""
        piece = b""
        with suppress(OSError):
            piece = self.answers.read(most)
        if not piece:
            end(5, f"{self.path}: the server has ended, and the output is incomplete")
        return piece


def as_said_here(text: str) -> str:
    """Returns a sentence, preceded by the program's name."""
    return text[0].lower() + text[1:].rstrip(".")
