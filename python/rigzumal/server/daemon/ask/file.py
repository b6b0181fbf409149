"""Runs credkeep for a book's file, with the same arguments, and passes the passwords through a
pipe."""

from __future__ import annotations

import os
import subprocess
import sys
from dataclasses import dataclass
from typing import NoReturn, Optional

from .terminal import NEW, PRESENT, end, read_passwords

PROGRAM = os.environ.get("CREDKEEP", "credkeep")
VALUED = ("--wait", "--setting")  # options that a value follows


@dataclass(frozen=True)
class Words:
    """The part of credkeep's command line that matters here."""

    file: str = ""
    command: str = ""
    account: str = ""
    wait: str = "0"

    def has_passwords(self) -> bool:
        return self.command in PRESENT | NEW and bool(self.account)


def meaning_of(words: list[str]) -> Words:
    plain, wait, rest = list[str](), "0", iter(words)
    for word in rest:
        name, equals, value = word.partition("=")
        if name in VALUED:
            if not equals:
                value = next(rest, "")
            if name == "--wait":
                wait = value
        elif not word.startswith("-"):
            plain.append(word)
    plain += ["", "", ""]  # in place of missing words
    file, command, account = plain[:3]
    return Words(file, command, account, wait)


def become_credkeep(words: list[str]) -> NoReturn:
    """Runs credkeep instead of this program."""
    try:
        os.execvp(PROGRAM, [PROGRAM, *words])
    except OSError as fault:
        end(1, f"{PROGRAM}: {fault.strerror}")


def tell_left_out(file: str) -> None:
    """Reports that a backup omits the locks that an earlier server kept beside the book."""
    if os.path.exists(f"{file}-locks"):
        text = f"the copy lacks the locks that an earlier credkeep-server kept in {file}-locks"
        print(f"credkeep-ask: {text}: start credkeep-server, and copy again", file=sys.stderr)


def ask_credkeep(words: list[str]) -> int:
    """Runs credkeep with these arguments, and returns its status.

    The call looks for the account before it asks for passwords. If no password would help, the call
    prints credkeep's answer at once.
    """
    meant = meaning_of(words)
    if meant.command == "backup":
        tell_left_out(meant.file)
    if not meant.has_passwords() or {"-h", "--help"}.intersection(words):
        become_credkeep(words)
    if (status := status_without_asking(meant)) is not None:
        return status
    given = b"".join(password + b"\n" for password in read_passwords(meant.command))
    status = subprocess.run([PROGRAM, *words], input=given).returncode
    return status if status >= 0 else 128 - status


def status_without_asking(meant: Words) -> Optional[int]:
    """Prints credkeep's answer and returns its status if no password would help. Otherwise returns
    None."""
    show = [PROGRAM, "--wait", meant.wait, meant.file, "show", meant.account]
    try:
        shown = subprocess.run(show, stdin=subprocess.DEVNULL, stdout=subprocess.PIPE)
    except OSError as fault:
        end(1, f"{PROGRAM}: {fault.strerror}")
    status, said = shown.returncode, shown.stdout.strip()
    if status == 0 and meant.command == "add":
        print("exists")
        return 4
    if status == 0:
        return None
    if status != 4:
        return status
    makes_first_record = meant.command == "add"
    if makes_first_record or (meant.command == "reset" and said == b"absent"):
        return None
    print(said.decode())
    return status
