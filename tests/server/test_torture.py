"""64 clients on 8 accounts through the server's sockets, while the server and the book are killed.

Each new password is different, so an answer that accepts a password names the record of that
moment. python/tests/accounts/torture judges these answers; an operation without an answer happened
once or never. The test judges refusals separately: no refusal may fall into the time in which that
password was certainly right. After a kill the book must have each change that was answered before.
TORTURE_SECONDS in the environment is the length of the test (by default 60, with a kill every three
seconds), and TORTURE_SEED is its seed.
"""

import concurrent.futures
import itertools
import math
import os
import pathlib
import random
import signal
import sys
import time
from typing import Optional

from served import CHEAP, FAST_BOOK, TOP, Case, Client, Given, Service, chosen_book, field_of
from tests.needs import need_file

sys.path = [str(TOP / "python"), str(TOP / "python/tests/accounts"), *sys.path]
need_file(os.environ["RIGZUMAL_LIBRARY"])
from torture.history import Account, Attempt, Illegal, Operation, check  # noqa: E402

SECONDS = int(os.environ.get("TORTURE_SECONDS", "60"))
SEED = int(os.environ.get("TORTURE_SEED", "1"))
NAMES = [f"user{number}" for number in range(8)]
MIX = {"verify": 8, "login": 3, "change": 4, "enrol": 3, "remove": 1, "upgrade": 2}
LOGIN = frozenset(("verify", "change"))


class Log:
    """The questions and the answers of each account."""

    def __init__(self) -> None:
        self.operations: dict[str, list[Operation]] = {name: [] for name in NAMES}
        self.passwords = {name: ["never"] for name in NAMES}
        self.denials: dict[str, list[Operation]] = {name: [] for name in NAMES}

    def note(self, name: str, operation: Operation, said: Optional[str]) -> None:
        """Files an operation by its answer, or by none."""
        kind, fresh = operation.kind, operation.password_after
        old, new = record_of(operation.password), record_of(fresh)
        is_lost = said is None or said == "unavailable"
        if fresh and kind in ("enrol", "change") and (is_lost or said in ("enrolled", "replaced")):
            # It may be right from now on.
            self.passwords[name].insert(-1 if is_lost else len(self.passwords[name]), fresh)
        if is_lost:
            way = {"enrol": (None, new), "change": (old, new), "remove": (old, None)}.get(kind)
            if way:
                reply = {"enrol": "enrolled", "change": "replaced", "remove": "removed"}[kind]
                operation.attempts = [Attempt(*way, reply)]
                self.operations[name].append(operation)
            return
        operation.answered, operation.reply = time.monotonic(), said
        if said in ("no", "wrong"):
            self.denials[name].append(operation)
        elif said in ("yes", "absent", "enrolled", "replaced", "removed", "kept"):
            operation.before = None if said in ("absent", "enrolled") else old
            after = {"enrolled": new, "replaced": new, "removed": None}
            operation.after = after.get(said, operation.before)
            self.operations[name].append(operation)
        elif said not in ("exists", "bad 14 busy", "later"):
            raise Illegal(f"{operation.id} ({kind}) was answered {said}", [operation])


def record_of(password: Optional[str]) -> Optional[str]:
    """A name for the record that this password's only setting made."""
    return f"record of {password}" if password else None


class Asking:
    """A client: an operation after another, each on the connection that there is."""

    def __init__(self, folder: pathlib.Path, log: Log, chance: random.Random, number: int) -> None:
        self.folder, self.log, self.chance, self.number = folder, log, chance, number
        self.clients = dict[str, Client]()

    def go(self, end: float) -> None:
        for turn in itertools.count():
            if time.monotonic() > end:
                break
            self.one(f"c{self.number}.{turn}")
        for client in self.clients.values():
            client.close()

    def one(self, made: str) -> None:
        name = self.chance.choice(NAMES)
        kind = self.chance.choices(list(MIX), list(MIX.values()))[0]
        known = self.log.passwords[name]
        password = made if kind == "enrol" else self.chance.choice([*known[-4:], *known[-1:] * 6])
        new = f"{made}n" if kind == "change" else None
        fields = [field_of(word.encode()) for word in (password, new) if word]
        judged = {"login": "verify"}.get(kind, kind)
        operation = Operation(made, judged, password, time.monotonic(), new_password=new)
        said = self.answer("login" if kind in LOGIN else "admin", " ".join([kind, name, *fields]))
        self.log.note(name, operation, said)

    def answer(self, door: str, line: str) -> Optional[str]:
        """The answer, or None if the connection ends first."""
        while door not in self.clients:
            try:
                self.clients[door] = Client(self.folder / f"{door}.sock")
            except OSError:
                time.sleep(0.02)
        try:
            return self.clients[door].ask(line)
        except (OSError, AssertionError):  # it ended, or amid an answer
            self.clients.pop(door).close()
            return None


def kill(service: Service, kind: str) -> None:
    """Kills the book, the server or both, until the server has ended."""
    if kind in ("book", "both"):
        os.kill(service.book_pid(), signal.SIGKILL)
    if kind in ("front", "both"):
        service.process.kill()
    service.process.wait(60)


def stands(service: Service, log: Log, name: str) -> Optional[str]:
    """The last record, or None."""
    with Client(service.path("admin")) as admin:
        if admin.ask(f"known {name}") == "absent":
            return None
        for password in reversed(log.passwords[name]):
            if admin.ask(f"verify {name} {field_of(password.encode())}") == "yes":
                return record_of(password)
    raise Illegal(f"{name}: no password that was ever set is right", [])


def surely_stood(operations: list[Operation]) -> dict[Optional[str], tuple[float, float]]:
    """The time in which a password's record surely stood, in any history of these operations, whose
    outcomes are all known."""
    changes = [it for it in operations if it.after != it.before]
    ends = {it.before: it.called for it in changes}
    return {it.after: (it.answered, ends.get(it.after, math.inf)) for it in changes if it.after}


def judged(service: Service, log: Log) -> int:
    """The number of operations of a legal history; Illegal if they have none."""
    for name in NAMES:
        last, operations = stands(service, log, name), log.operations[name]
        end = Operation.end(last, time.monotonic())
        check(Account(Operation.seed(None, None), end, operations))
        spans = surely_stood(operations)
        for denial in log.denials[name]:
            first, last_moment = spans.get(record_of(denial.password), (math.inf, 0.0))
            if first < denial.called and denial.answered < last_moment:
                stood = f"its password stood from {first:.3f} to {last_moment:.3f}"
                raise Illegal(f"{denial.id} was answered {denial.reply}, and {stood}", [denial])
    return sum(map(len, (*log.operations.values(), *log.denials.values())))


def tortured(given: Given, seconds: float, kills: int) -> int:
    """The number of operations of a legal history, with so many kills."""
    chance, log, service = random.Random(SEED), Log(), given.begun().wait_until_started()
    try:
        service.talk("".join(f"admin account {name} -> ok\n" for name in NAMES))
        chances = [random.Random(chance.random()) for _ in range(64)]
        end = time.monotonic() + seconds
        clients = [Asking(given.folder, log, own, number) for number, own in enumerate(chances)]
        with concurrent.futures.ThreadPoolExecutor(64) as pool:
            asking = [pool.submit(it.go, end) for it in clients]
            for number in range(kills):
                time.sleep(seconds / kills * (0.5 + chance.random() / 2))
                kill(service, ("book", "front", "both")[number % 3])
                service = given.begun().wait_until_started()
            for task in asking:
                task.result()
        return judged(service, log)
    finally:
        service.end()


class Torture(Case):
    seconds = 30 * SECONDS

    def test_killed(self) -> None:
        """The answers have one legal history, whatever is killed."""
        program, kills = chosen_book(), SECONDS // 3
        costs = () if program == FAST_BOOK else ("--setting", CHEAP)
        options = ("--tries", "0", "--at-once", "8", *costs)
        given = Given(self.room(), options, "late", program)
        self.assertGreater(tortured(given, SECONDS, kills), 10 * SECONDS)

    def test_books_that_lie(self) -> None:
        """A book that loses changes, or lets everybody in, is found out."""
        for faults in ("loses=5", "answers=yes"):
            given = Given(self.room(), ("--tries", "0", "--at-once", "8"), faults)
            with self.assertRaises(Illegal, msg=faults):
                tortured(given, 5, 2)
