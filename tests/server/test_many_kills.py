"""Kills of the server, of its book and of its imports, between changes of each kind: no answered
change is lost, and none is half done. KILLS in the environment is the number of kills (by default
300), and KILLS_SEED is their seed."""

import concurrent.futures
import os
import pathlib
import random
import signal
import time
from contextlib import suppress
from dataclasses import dataclass, field
from typing import Optional

from served import CHEAP, FAST_BOOK, SECRET, Case, Client, Given, Service, chosen_book, need
from served import real_book

KILLS = int(os.environ.get("KILLS", "300"))
SEED = int(os.environ.get("KILLS_SEED", "1"))
OWNERS = 8  # clients, each of which has an account of its own
LINES = 12  # of an import
# What a client asks for next, by what its account is: None, "", or its marks with "$" if it has a
# record. The row that each leaves is by `row_after`.
CHOICES = {
    "account": lambda row: row is None,
    "delete": lambda row: row is not None,
    "enrol": lambda row: row == "",
    "reset": lambda row: row is not None,
    "disable": lambda row: row is not None and "$" in row,
    "lock": lambda row: row is not None,
    "unlock": lambda row: row is not None and "!" in row,
    "expire": lambda row: row is not None and "$" in row,
    "rename": lambda row: row is not None,
}
DONE = {
    "account": ("ok",),
    "delete": ("deleted",),
    "enrol": ("enrolled",),
    "reset": ("replaced", "enrolled"),
    "disable": ("disabled",),
    "lock": ("locked",),
    "unlock": ("unlocked",),
    "expire": ("expired",),
    "rename": ("renamed",),
}


def row_after(word: str, row: Optional[str]) -> Optional[str]:
    """The row that an operation leaves."""
    marks = (row or "").rstrip("$")
    lock = "!" if "!" in marks else ""
    if word == "delete":
        return None
    if word == "account":
        return ""
    if word in ("enrol", "reset"):
        return f"{lock}$"
    if word == "disable":
        return lock
    if word == "lock":
        return "!" + (row or "").lstrip("!")
    if word == "unlock":
        return (row or "").lstrip("!")
    if word == "expire":
        return f"{lock}~$"
    return row


@dataclass
class Owner:
    """A client with its account: the names and rows that it may have now."""

    number: int
    folder: pathlib.Path
    chance: random.Random
    name: str = ""
    row: Optional[str] = None
    turn: int = 0
    may_be: list[tuple[str, Optional[str]]] = field(default_factory=list)
    answered: int = 0

    def go(self) -> None:
        """Asks for one change after another, until no answer comes."""
        self.name = self.name or f"owner{self.number}"
        self.may_be = [(self.name, self.row)]
        with suppress(OSError, AssertionError), Client(self.folder / "admin.sock") as client:
            while True:
                self.change(client)

    def change(self, client: Client) -> None:
        word = self.chance.choice([it for it, may in CHOICES.items() if may(self.row)])
        name, line = self.name, f"{word} {self.name}"
        if word in ("enrol", "reset"):
            line += f" {SECRET}"
        if word == "rename":
            self.turn += 1
            name = f"owner{self.number}.{self.turn}"
            line += f" {name}"
        after = row_after(word, self.row)
        self.may_be = [(self.name, self.row), (name, after)]
        said = client.ask(line)
        if said == "unavailable":
            raise OSError
        if said not in DONE[word]:
            raise ValueError(f"{line}: {said} over {self.row}")
        self.name, self.row = name, after
        self.may_be = [(name, after)]
        self.answered += 1

    def looks(self, admin: Client) -> None:
        """Fails unless the account has a possible state, at one name alone."""
        names = {name for name, _ in self.may_be}
        found = [(name, row_of(admin.ask(f"show {name}"))) for name in sorted(names)]
        there = [it for it in found if it[1] is not None]
        ought = [it for it in self.may_be if it[1] is not None]
        is_gone = any(row is None for _, row in self.may_be)
        assert len(there) <= 1, f"{there}, though it may be {self.may_be}"
        assert there[0] in ought if there else is_gone, f"{found} and not {self.may_be}"
        if there:
            self.name, self.row = there[0]
        else:
            self.name, self.row = f"owner{self.number}.{self.turn}", None


def row_of(said: str) -> Optional[str]:
    """A row as `row_after` has it, of the answer to `show`."""
    if said == "bad 5 noaccount":
        return None
    if said == "none":
        return ""
    marks, record, _ = said.partition("$")
    return marks + record


@dataclass
class Importer:
    """A client that imports a batch of accounts after another."""

    folder: pathlib.Path
    record: str = ""
    batch: int = 0
    answered: list[int] = field(default_factory=list)

    def lines(self, batch: int) -> str:
        return "".join(f"batch{batch}.{it}:{self.record}\n" for it in range(LINES))

    def go(self) -> None:
        with suppress(OSError, AssertionError), Client(self.folder / "admin.sock") as client:
            while True:
                self.batch += 1
                text = self.lines(self.batch)
                if not client.ask(f"import {len(text)}").startswith("send "):
                    time.sleep(0.01)
                    continue
                client.send(text)
                if not client.line().startswith(f"t{client.asked} ended 0 ".encode()):
                    return  # it was killed, or its server was
                self.answered.append(self.batch)
                client.line()
                time.sleep(0.02)

    def looks(self, admin: Client) -> None:
        """Fails unless the book has each answered batch, and the last one whole or not at all."""
        for batch in {*self.answered, self.batch} - {0}:
            names = f"list batch{batch}.0 {LINES}"
            found = [it for it in admin.ask(names).split() if it.startswith(f"batch{batch}.")]
            counts = (LINES,) if batch in self.answered else (0, LINES)
            assert len(found) in counts, f"{len(found)} of batch {batch}"
        for batch in {*self.answered, self.batch} - {0}:
            for number in range(LINES):
                admin.ask(f"delete batch{batch}.{number}")
        self.answered.clear()


def kill(service: Service, kind: str) -> None:
    """Kills the server, its child processes, or both, until the server has ended."""
    children = pathlib.Path(f"/proc/{service.process.pid}/task/{service.process.pid}/children")
    started = children.read_text().split()
    if kind in ("server", "both"):
        service.process.kill()
    for pid in started if kind in ("children", "both") else ():
        with suppress(ProcessLookupError):
            os.kill(int(pid), signal.SIGKILL)
    if kind == "children":  # an import that was killed ends no service
        service.process.terminate()
    service.process.wait(120)


class ManyKills(Case):
    seconds = 20 * max(KILLS, 30)

    def test_nothing_is_lost(self) -> None:
        """An answered change is kept after each kill, and another is kept whole or not at all."""
        program, folder = chosen_book(), self.room()
        costs = () if program == FAST_BOOK else ("--setting", CHEAP)
        given = Given(folder, ("--tries", "0", *costs), program=program)
        chance = random.Random(SEED)
        owners = [Owner(it, folder, random.Random(chance.random())) for it in range(OWNERS)]
        importer, answered = Importer(folder), 0
        service = given.begun().wait_until_started().enrol(model="secret")
        with Client(service.path("admin")) as admin:
            importer.record = admin.ask("show model")
        self.addCleanup(lambda: service.end())
        for number in range(KILLS):
            with concurrent.futures.ThreadPoolExecutor(OWNERS + 1) as pool:
                asking = [pool.submit(it.go) for it in (*owners, importer)]
                time.sleep(0.05 + 0.3 * chance.random())
                kill(service, ("server", "children", "both")[number % 3])
                for task in asking:
                    task.result()
            service = given.begun().wait_until_started()
            answered += len(importer.answered)
            with Client(service.path("admin")) as admin:
                for owner in owners:
                    owner.looks(admin)
                importer.looks(admin)
        answered += sum(owner.answered for owner in owners)
        print(f"{KILLS} kills, {answered} answered changes, 0 lost")
        self.assertGreater(answered, KILLS)


# A wrapper that has credkeep killed at its sync of a number.
KILLED_AT = """#!/bin/sh
exec strace -f -q -o /dev/null -e trace=fsync,fdatasync \\
    -e inject=fsync,fdatasync:signal=SIGKILL:when={number} {program} "$@"
"""
# Lines, one after another, and the answers to `show` and `list` after each.
CHANGES = (
    ("lock ada", "ada:!$ bob:$"),
    ("rename ada eve", "bob:$ eve:!$"),
    ("unlock eve", "bob:$ eve:$"),
    ("expire eve", "bob:$ eve:~$"),
    ("delete bob", "eve:~$"),
    ("account cid", "cid: eve:~$"),
    ("lock cid", "cid:! eve:~$"),
)
STATES = ("ada:$ bob:$", *(state for _, state in CHANGES))
IMPORTED = "dan:$ fay:$"  # behind the last state, if an import is done


def state_of(admin: Client) -> str:
    """The names with their rows."""
    names = admin.ask("list - 100").split()[1:]
    return " ".join(f"{name}:{row_of(admin.ask(f'show {name}'))}" for name in names)


class EachSync(Case):
    seconds = 1200

    def test_kills(self) -> None:
        """credkeep is killed at each of its syncs, amid locks, renames, deletions and an import:
        the book has all answered changes, and at most the running one besides."""
        need("strace")
        program, folder = real_book(), self.room()
        model = Given(folder, ("--setting", CHEAP), program=program).begun().wait_until_started()
        model.enrol(ada="secret", bob="secret")
        with Client(model.path("admin")) as admin:
            record = admin.ask("show ada")
        model.stop()
        beginning = (folder / "users.db").read_bytes()
        number, answered = 1, -1
        while answered < len(CHANGES) + 1:
            (folder / "users.db").write_bytes(beginning)
            (folder / "users.db-wal").unlink(missing_ok=True)
            answered = self.kill_at(number, program, folder, record)
            with self.subTest(number=number, answered=answered):
                self.check(Given(folder, ("--setting", CHEAP), program=program), answered)
            number += 1
        print(f"{number - 2} syncs at which it was killed")

    def kill_at(self, number: int, program: pathlib.Path, folder: pathlib.Path, record: str) -> int:
        """The number of answered lines before a kill there, and of the import after them."""
        wrapper = folder / "killed"
        wrapper.write_text(KILLED_AT.format(number=number, program=program))
        wrapper.chmod(0o755)
        service = Given(folder, ("--setting", CHEAP), program=wrapper).begun()
        answered = 0
        try:
            with suppress(OSError, AssertionError):
                service.wait_until_started()
                with Client(service.path("admin")) as admin:
                    for line, _ in CHANGES:
                        if admin.ask(line) == "unavailable":
                            return answered
                        answered += 1
                    text = f"dan:{record}\nfay:{record}\n"
                    admin.ask(f"import {len(text)}")
                    admin.send(text)
                    answered += admin.line().startswith(f"t{admin.asked} ended 0 ".encode())
        finally:
            service.end()
        return answered

    def check(self, given: Given, answered: int) -> None:
        service = given.begun().wait_until_started()
        self.addCleanup(service.end)
        with Client(service.path("admin")) as admin:
            state = state_of(admin)
        service.stop()
        if answered < len(CHANGES):
            self.assertIn(state, STATES[answered : answered + 2])
        else:
            with_import = " ".join(sorted(f"{STATES[-1]} {IMPORTED}".split()))
            states = (with_import, STATES[-1])
            self.assertIn(state, states if answered == len(CHANGES) else states[:1])
