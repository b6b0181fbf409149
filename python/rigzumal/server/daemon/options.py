"""The command line."""

import argparse
import os
import pathlib
import re
from collections import Counter
from collections.abc import Sequence
from dataclasses import dataclass, field, fields
from typing import Any, NoReturn

from .costs import TIMES, USUAL, costs_of, size_of
from .doors import Door
from .journal import Problem
from .protocol import OPERATIONS

VERSION = "0.2.0"
BOOKS, SOCKETS = pathlib.Path("/var/lib/rigzumal"), pathlib.Path("/run/rigzumal")
MOST_AT_ONCE = 254  # lines of a user: credkeep accepts 255
MOST_TRIES = 86  # of credkeep


def number(word: str, most: int) -> int:
    if not re.fullmatch("[0-9]{1,9}", word) or int(word) > most:
        raise argparse.ArgumentTypeError(f"{word!r} is not a number from 0 to {most}")
    return int(word)


def option(text: str, metavar: str = "", default: object = "", most: int = 10**9 - 1) -> Any:
    """Builds a field of Options that the command line sets; an option without a value is a flag."""
    if not metavar:
        return field(default=False, metadata={"help": text, "action": "store_true"})
    text += f" ({default})" if default != "" else ""
    kind = str if isinstance(default, str) else lambda word: number(word, most)
    return field(default=default, metadata={"help": text, "metavar": metavar, "type": kind})


LINE = f"of a line's record; by default {TIMES} times that of --setting"


@dataclass
class Options:
    """The values from the command line, with these defaults."""

    file: str = ""
    doors: list[Door] = field(default_factory=list)
    socket: list[list[str]] = field(default_factory=list)
    http: str = option("answer HTTP at one more socket", "SOCKET")
    tries: int = option("failed tries before a name must wait; 0: no limit", "N", 10, MOST_TRIES)
    idle: int = option("seconds before the server closes an idle connection", "SECONDS", 600)
    longest_import: int = option(
        "seconds before the server kills an import; 0: no limit", "SECONDS", 600
    )
    audit: str = option("append a JSON line to this file for each change", "LOG")
    audit_tries: bool = option("log failed tries too")
    metrics: str = option("print the counts of an admin socket's server", "SOCKET")
    foreign: str = option("an htpasswd file whose users move into the book", "HTPASSWD")
    upgrade: str = option("costs of new records; a right login upgrades others", "COSTS")
    least_length: int = option("the least length of a new password", "N", 0)
    setting: str = option("for credkeep: the costs of new records", "TEXT")
    at_once: int = option(
        "the most lines of a user to hash at once; 0: one per processor", "N", 0, MOST_AT_ONCE
    )
    memory: str = option("for credkeep: the most memory of all hashes, such as 512M", "SIZE")
    most_memory: str = option(f"the most memory {LINE}", "SIZE")
    most_work: str = option(f"the most work {LINE}", "SIZE")
    wait: int = option("for credkeep: the most seconds to wait for FILE", "SECONDS", 30, 3600)
    credkeep: str = option("the program to run instead of credkeep", "PROGRAM", "credkeep")
    mail_names: bool = option("accept e-mail addresses as names")
    fold_local_part: bool = option("change the part before the @ to lower case too")

    def bound(self) -> None:
        """Sets a bound on the costs in a line if no option does, since a costly record would delay
        everybody."""
        costs = costs_of(self.setting or USUAL)
        if costs:  # credkeep refuses a text that isn't a setting
            self.most_memory = self.most_memory or size_of(TIMES * costs.memory)
            self.most_work = self.most_work or size_of(TIMES * costs.work)

    def import_seconds(self) -> float:
        """Returns the seconds that an import may take."""
        return self.longest_import or float("inf")

    def workers(self) -> int:
        """Returns the number of lines that the book hashes at the same time: those of one user, and
        one more for another user."""
        return 1 + min(self.at_once or len(os.sched_getaffinity(0)), MOST_AT_ONCE)

    def book_words(self) -> list[str]:
        words = [self.credkeep, "--wait", self.wait, self.file, "serve", "--tagged"]
        words += ["--at-once", self.workers()]
        for name in ("tries", "memory", "most_memory", "most_work", "setting"):
            if value := getattr(self, name):
                words += ["--" + name.replace("_", "-"), value]
        return [str(word) for word in words]


class Parser(argparse.ArgumentParser):
    def error(self, message: str) -> NoReturn:
        raise Problem(f"{message}; --help shows all options")


def folder_of(file: str) -> pathlib.Path:
    path = pathlib.Path(os.path.abspath(file)).with_suffix("")
    return SOCKETS / (path.name if path.parent == BOOKS else "-".join(path.parts[1:]))


def door(name: str, path: str, mode: str, group: str, operations: str) -> Door:
    if not re.fullmatch("0?[0-7]{3}", mode):
        raise Problem(f"the mode of the socket {name} is octal, such as 0660, not {mode!r}")
    if len(os.fsencode(path)) > 107:  # unix(7)
        raise Problem(f"{path}: a socket's path has up to 107 bytes")
    allowed = frozenset(OPERATIONS if operations == "all" else os.fsencode(operations).split(b","))
    if unknown := allowed - OPERATIONS.keys():
        word, known = os.fsdecode(min(unknown)), ", ".join(map(os.fsdecode, OPERATIONS))
        raise Problem(
            f"the socket {name}: {word!r} isn't an operation; write all, or some of {known}"
        )
    return Door(name, os.path.abspath(path), int(mode, 8), group, allowed)


def web_door(path: str, mode: str, group: str) -> Door:
    from .web import WebClient  # which needs h11

    if "/" not in path:
        raise Problem(f"--http needs the path of a Unix socket, not a port: {path!r}")
    made = door("http", path, mode, group, "verify")
    made.client = WebClient
    return made


def parser() -> Parser:
    text = "Lets many clients query the book FILE. See credkeep-server(8)."
    made = Parser(usage="credkeep-server [OPTION].. FILE", description=text)
    text = "the book, which `credkeep FILE init` creates"
    made.add_argument("file", metavar="FILE", nargs="?", default="", help=text)
    made.add_argument("--version", action="version", version=f"credkeep-server {VERSION}")
    words = ("NAME", "PATH", "MODE", "GROUP", "OPERATIONS")
    text = "a socket instead of the login and the admin socket; repeat the option for more"
    made.add_argument("--socket", nargs=5, action="append", metavar=words, help=text)
    for attribute in fields(Options):
        if attribute.metadata:
            made.add_argument("--" + attribute.name.replace("_", "-"), **attribute.metadata)
    return made


def parse(words: Sequence[str]) -> Options:
    """Reads the options on a command line, and raises Problem for impossible ones."""
    options = parser().parse_args(words, Options())
    if options.metrics:
        return options
    if not options.file:
        raise Problem("FILE is missing; --help shows all options")
    if options.upgrade and "=" not in options.upgrade.rpartition("$")[2]:
        raise Problem("--upgrade needs costs without a salt: $argon2id$v=19$m=65536,t=3,p=4")
    options.setting = options.upgrade or options.setting
    options.bound()
    folder = folder_of(options.file)
    given = options.socket or [
        ["login", f"{folder}/login.sock", "0660", "rigzumal", "verify,change,known"],
        ["admin", f"{folder}/admin.sock", "0600", "-", "all"],
    ]
    options.doors = [door(*values) for values in given]
    if options.http:
        _, _, mode, group, _ = given[0]
        options.doors.append(web_door(options.http, mode, group))
    counts = Counter[str]()
    for socket in options.doors:
        counts.update((socket.name, socket.path))
    for name, count in counts.items():
        if count > 1:
            raise Problem(f"two sockets have the name {name}")
    return options
