"""Prints texts at the terminal, and reads passwords without echo."""

from __future__ import annotations

import os
import signal
import sys
import termios
from collections.abc import Iterator
from contextlib import contextmanager
from typing import NoReturn

# Commands that read the present password, and those that read a new one.
PRESENT = frozenset({"check", "upgrade", "remove", "change"})
NEW = frozenset({"add", "reset", "change"})
SIGNALS = (signal.SIGHUP, signal.SIGINT, signal.SIGQUIT, signal.SIGTERM)


def end(status: int, text: str = "") -> NoReturn:
    """Ends the program with a status, and a text on standard error."""
    if text:
        print(f"credkeep-ask: {text}", file=sys.stderr)
    sys.exit(status)


def end_by(number: int, _: object) -> NoReturn:
    """Ends the program at the first signal, and ignores later ones, so that the program restores
    the echo."""
    for signal_number in SIGNALS:
        signal.signal(signal_number, signal.SIG_IGN)
    sys.exit(128 + number)


def end_in_order() -> None:
    """Makes each later signal run the program's last steps before the end."""
    for number in SIGNALS:
        signal.signal(number, end_by)


@contextmanager
def unseen() -> Iterator[int]:
    """Opens the terminal without echo, and restores the echo however the block ends."""
    end_in_order()
    try:
        terminal = os.open("/dev/tty", os.O_RDWR | os.O_NOCTTY)
        saved = termios.tcgetattr(terminal)
    except (OSError, termios.error):
        end(2, "no terminal is available for the passwords")
    mute = [*saved]
    mute[3] &= ~termios.ECHO
    try:
        termios.tcsetattr(terminal, termios.TCSADRAIN, mute)
        yield terminal
    finally:
        termios.tcsetattr(terminal, termios.TCSADRAIN, saved)
        os.close(terminal)


def read_line(terminal: int, prompt: str) -> bytes:
    """Reads the line that the user types, without its newline."""
    os.write(terminal, prompt.encode())
    line = b""
    while not line.endswith(b"\n"):
        more = os.read(terminal, 4096)
        if not more:
            os.write(terminal, b"\n")
            end(6, "no password")
        line += more
    os.write(terminal, b"\n")
    return line[:-1]


def read_passwords(command: str) -> list[bytes]:
    """Reads the passwords for a command, the present one first."""
    passwords = list[bytes]()
    with unseen() as terminal:
        if command in PRESENT:
            passwords.append(read_line(terminal, "Password: "))
        if command in NEW:
            passwords.append(read_line(terminal, "New password: "))
            if read_line(terminal, "The same again: ") != passwords[-1]:
                end(6, "the two new passwords differ")
    return passwords


def write_answer(said: str) -> None:
    """Prints an answer, which may be empty."""
    if not said:
        return
    try:
        print(said, flush=True)
    except OSError:  # a pipe's reader has gone, or a disk is full: the operation stays done
        end_unwritten()


def end_unwritten() -> NoReturn:
    """Ends the program after it failed to write its answer, and keeps Python from flushing the
    rest."""
    os.dup2(os.open(os.devnull, os.O_WRONLY), sys.stdout.fileno())
    end(2, "the answer arrived, but writing the output failed")
