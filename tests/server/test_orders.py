"""Two lines about a user of an htpasswd file that are open together, in every order in which the
book and the disks may answer them, and with a kill at every moment.

In every order the answers and the final state are those of one line after the other. After a kill
they are those of the answered lines, with or without one of the others.
"""

import asyncio
import itertools
from collections.abc import Iterator
from dataclasses import dataclass, field
from types import SimpleNamespace
from typing import Any, Optional
from unittest import mock

from fast_book import Accounts, tag_of
from foreign_case import MAKERS, ForeignCase, made_by
from served import SECRET, field_of

from daemon.appending import GrowingFile
from daemon.options import Options
from daemon.service import Request, Service

PASSWORDS = ("secret", "fresh", "zoe")
FRESH, ZOE = field_of(b"fresh"), field_of(b"zoe")
LINES = (
    "account ada",
    "rename zoe ada",
    "lock ada",
    "unlock ada",
    "expire ada",
    "disable ada",
    "delete ada",
    "rename ada eve",
    "known ada",
    f"verify ada {SECRET}",
    f"change ada {SECRET} {FRESH}",
    f"change ada {SECRET} {SECRET}",
    f"reset ada {FRESH}",
)
# Lines of which two at once are killed at each moment.
KILLED = ("lock ada", "rename ada eve", f"verify ada {SECRET}", f"change ada {SECRET} {SECRET}")
# Probes of the final state: the passwords that let a user in.
PROBES = list[str]()
for name in ("ada", "eve", "zoe"):
    PROBES.append(f"known {name}")
    PROBES += [f"verify {name} {typed}" for typed in (SECRET, FRESH, ZOE)]
# After a kill amid these lines no password may be right any more, or the password must be changed
# once more.
STRICTER = ("disable", "delete", "rename", "change", "reset")
PASSES = 5  # of the event loop, in which a task goes as far as it can
RANKS = {b"yes": 2, b"expired": 1}
PLAIN, DUE = "", ":0:0:99999:7:::"  # behind a record in the file; the second must be changed


@dataclass(frozen=True)
class Beginning:
    """The file's text behind ada's record, the book's row of ada, and the lines of
    HTPASSWD.moved."""

    fields: str = PLAIN
    row: Optional[str] = None  # with `RECORD` for that of ada's password
    is_noted: bool = False

    def left(self) -> "Left":
        accounts = Accounts("$fast$c=1")
        accounts.rows["zoe"] = accounts.made(b"zoe", "")
        if self.row is not None:
            made = accounts.made(b"secret", "")
            accounts.rows["ada"] = self.row.replace("RECORD", made)
        return Left(accounts, {(b"ada", b"expire")} if self.is_noted else set())


BEGINNINGS = (
    Beginning(),
    Beginning(DUE),
    Beginning(is_noted=True),
    Beginning(row=""),
    Beginning(row="!"),
    Beginning(DUE, "!"),
    Beginning(row="RECORD"),  # of a move that was cut, or of the book's own
    Beginning(DUE, "RECORD", is_noted=True),
    Beginning(DUE, "~RECORD", is_noted=True),
    Beginning(row="!RECORD"),
)


State = tuple[frozenset[tuple[str, str]], frozenset[tuple[bytes, bytes]]]


def stated(row: str) -> str:
    """A row's marks, and the password of its record."""
    marks, dollar, rest = row.partition("$")
    salt, _, tag = rest.rpartition("$")
    salt = salt.rpartition("$")[2]
    return marks + next((it for it in PASSWORDS if dollar and tag == tag_of(it.encode(), salt)), "")


@dataclass
class Left:
    """The contents of the disks: the book, and the marks in HTPASSWD.moved."""

    accounts: Accounts
    moved: set[tuple[bytes, bytes]]

    def copy(self) -> "Left":
        accounts = Accounts(self.accounts.costs)
        accounts.rows = {**self.accounts.rows}
        return Left(accounts, {*self.moved})

    def state(self) -> State:
        """The state, with a password in the place of its record."""
        rows = {name: stated(row) for name, row in self.accounts.rows.items()}
        return frozenset(rows.items()), frozenset(self.moved)

    def write(self, line: bytes) -> bool:
        name, *mark, _time = line.split(b" ")
        self.moved.add((name, b" ".join(mark)))
        return True


@dataclass
class Steps:
    """The open requests to the book and the disk; a choice selects the next."""

    waiting: list[tuple[Any, asyncio.Future[Any]]] = field(default_factory=list)

    def later(self, act: Any) -> asyncio.Future[Any]:
        """A future with what an act returns, once it is chosen."""
        done = asyncio.get_running_loop().create_future()
        self.waiting.append((act, done))
        return done

    async def finish(self, choices: list[int], most: float = float("inf")) -> list[int]:
        """Runs the first waiting request, or the one that the choices select, until a kill after
        this many; returns the numbers of waiting ones."""
        counts = list[int]()
        while len(counts) < most and await self.settled():
            choice = choices[len(counts)] if len(counts) < len(choices) else 0
            counts.append(len(self.waiting))
            act, done = self.waiting.pop(choice)
            done.set_result(act())
        return counts

    async def settled(self) -> bool:
        """Whether a request waits, once every task has run as far as it can."""
        for _ in range(PASSES):
            await asyncio.sleep(0)
        return bool(self.waiting)


class NoSteps(Steps):
    """Steps without a wait: each request runs at once."""

    def later(self, act: Any) -> asyncio.Future[Any]:
        done = asyncio.get_running_loop().create_future()
        done.set_result(act())
        return done


class Server:
    """A server over the state on the disks, which run its steps."""

    def __init__(self, path: str, left: Left, steps: Steps) -> None:
        self.steps = steps
        later = self.steps.later
        self.service = Service(Options(file="/nonexistent/users.db", foreign=path))
        assert self.service.foreign
        moved: Any = self.service.foreign.file.moved
        moved.pairs = {*left.moved}
        moved.add = lambda line: later(lambda: left.write(line))
        book: Any = self.service.book

        def asked(*words: bytes) -> Any:
            texts = [it.decode() for it in words]
            return later(lambda: left.accounts.answer(texts).encode())

        book.ask = asked

    def begin(self, line: str) -> "asyncio.Task[bytes]":
        """Begins the answer to a line once it has arrived, which is a step too."""
        client: Any = SimpleNamespace()
        places: Any = SimpleNamespace()
        request = Request(client, b"a", line.encode().split(b" "), places)
        has_come = self.steps.later(lambda: None)

        async def answered() -> bytes:
            await has_come
            return await self.service.answer(request)

        return asyncio.ensure_future(answered())

    async def ask(self, line: str) -> bytes:
        """The answer to a single line."""
        return await asyncio.wait_for(self.begin(line), 10)


@dataclass(frozen=True)
class Outcome:
    """The answers to lines, or nothing; and the answers to the probes behind them."""

    answers: tuple[tuple[str, Optional[bytes]], ...]
    probes: tuple[bytes, ...]

    def has_answers_of(self, cut: "Outcome") -> bool:
        """Whether each answer before a kill is one of these."""
        return all(it in self.answers for it in cut.answers if it[1] is not None)

    def is_stricter(self, legal: "Outcome") -> bool:
        """Whether this outcome lets nobody in whom the legal one keeps out."""
        pairs = zip(self.probes, legal.probes)
        return all(RANKS.get(is_, 0) <= RANKS.get(ought, 0) for is_, ought in pairs)


ENDS_LOCK = {"unlock", "delete", "rename"}
ENDS_DUE = {"change", "reset", "disable", "delete", "rename"}


def broken_law(beginning: Beginning, lines: tuple[str, ...], outcome: Outcome) -> str:
    """The facts that hold in each order of the lines: no login succeeds for a locked user, or with
    a password that must be changed, except after a line that ends that."""
    others = [line for line in lines if not line.endswith(f"{SECRET} {SECRET}")]
    operations = {line.split(" ")[0] for line in others}
    known, right = outcome.probes[:2]
    has_lock = (beginning.row or "").startswith("!")
    is_locked = has_lock or ("lock ada", b"locked") in outcome.answers
    if is_locked and not operations & ENDS_LOCK and {known, right} & {*RANKS}:
        return "a lock"
    was_due = beginning.is_noted or beginning.fields == DUE
    is_due = was_due or ("expire ada", b"expired") in outcome.answers
    if is_due and not operations & ENDS_DUE:
        return "a password that must be changed" if b"yes" in (known, right) else ""
    return ""


@dataclass
class Play:
    """Lines about ada, from a beginning."""

    path: str
    beginning: Beginning
    known: dict[State, tuple[bytes, ...]] = field(default_factory=dict)

    async def probes(self, left: Left) -> tuple[bytes, ...]:
        """The answers to the probes, which use up `left`."""
        state = left.state()
        if state not in self.known:
            server = Server(self.path, left, NoSteps())
            self.known[state] = tuple([await server.ask(line) for line in PROBES])
        return self.known[state]

    async def in_turn(self, lines: tuple[str, ...]) -> Outcome:
        """The results of lines one after the other."""
        left = self.beginning.left()
        server = Server(self.path, left, NoSteps())
        answers = tuple([(it, await server.ask(it)) for it in lines])
        return Outcome(tuple(sorted(answers)), await self.probes(left))

    async def at_once(
        self, lines: tuple[str, ...], choices: list[int], most: float
    ) -> tuple[Outcome, list[int]]:
        """The results of lines that are open together, with a kill after this many steps."""
        left = self.beginning.left()
        server = Server(self.path, left, Steps())
        tasks = [server.begin(it) for it in lines]
        counts = await server.steps.finish(choices, most)
        await server.steps.settled()
        answers = zip(lines, [task.result() if task.done() else None for task in tasks])
        kept = left.copy()
        for task in tasks:
            task.cancel()
        return Outcome(tuple(sorted(answers)), await self.probes(kept)), counts

    def orders(self, lines: tuple[str, ...], most: float = float("inf")) -> Iterator[Outcome]:
        """The outcomes of all orders in which the book and the disk may run their requests."""
        choices = list[int]()
        while True:
            outcome, counts = asyncio.run(self.at_once(lines, choices, most))
            yield outcome
            choices = choices[: len(counts)] + [0] * (len(counts) - len(choices))
            while choices and choices[-1] + 1 == counts[len(choices) - 1]:
                choices.pop()
            if not choices:
                return
            choices[-1] += 1

    def legal(self, lines: tuple[str, ...]) -> list[Outcome]:
        """The outcomes of the lines in each order."""
        return [asyncio.run(self.in_turn(it)) for it in itertools.permutations(lines)]


class Orders(ForeignCase):
    def setUp(self) -> None:
        super().setUp()
        self.enterContext(mock.patch("daemon.old_file.time.sleep"))
        self.enterContext(mock.patch("daemon.old_file.version_of", lambda path: ()))
        self.enterContext(mock.patch.object(GrowingFile, "append"))
        self.enterContext(mock.patch("daemon.foreign.asyncio.to_thread", done))
        self.record = made_by(MAKERS["sha1"], "secret")

        self.known = {
            PLAIN: dict[State, tuple[bytes, ...]](),
            DUE: dict[State, tuple[bytes, ...]](),
        }

    def play(self, beginning: Beginning) -> Play:
        path = self.folder / f"old{len(beginning.fields)}"
        path.write_text(f"ada:{self.record}{beginning.fields}\n")
        return Play(str(path), beginning, self.known[beginning.fields])

    def test_two_lines(self) -> None:
        """Whatever the order of steps, two lines end as one after the other does."""
        tried = 0
        pairs = itertools.combinations_with_replacement(LINES, 2)
        for beginning, lines in itertools.product(BEGINNINGS, pairs):
            play = self.play(beginning)
            legal = play.legal(lines)
            with self.subTest(lines, beginning=beginning):
                for outcome in play.orders(lines):
                    tried += 1
                    self.assertEqual(broken_law(beginning, lines, outcome), "", outcome)
                    self.assertIn(outcome, legal)
        self.assertGreater(tried, 5000)

    def check_kills(self, beginning: Beginning, lines: tuple[str, ...]) -> int:
        """After a kill at each step of each order the state is that of the answered lines and some
        of the others. Returns the number of kills."""
        play, tried = self.play(beginning), 0
        subsets = [it for n in range(len(lines) + 1) for it in itertools.combinations(lines, n)]
        legal = [outcome for it in subsets for outcome in play.legal(it)]
        may_be_stricter = any(it.split(" ")[0] in STRICTER for it in lines)
        for most in itertools.count():
            outcomes = list(play.orders(lines, most))
            for outcome in outcomes:
                tried += 1
                self.assertEqual(broken_law(beginning, lines, outcome), "", outcome)
                possible = [it for it in legal if it.has_answers_of(outcome)]
                is_legal = any(it.probes == outcome.probes for it in possible)
                is_stricter = may_be_stricter and any(map(outcome.is_stricter, possible))
                self.assertTrue(is_legal or is_stricter, f"behind {most} steps: {outcome}")
            if all(None not in dict(it.answers).values() for it in outcomes):
                return tried

    def test_kills(self) -> None:
        """A kill loses no lock, no mark of a password that must be changed, and no user."""
        pairs = [*((it,) for it in LINES), *itertools.combinations(KILLED, 2)]
        tried = 0
        for beginning, lines in itertools.product(BEGINNINGS, pairs):
            with self.subTest(lines, beginning=beginning):
                tried += self.check_kills(beginning, lines)
        self.assertGreater(tried, 4000)


async def done(act: Any, *fields: Any) -> Any:
    """Runs at once, in place of a thread that hashes."""
    return act(*fields)
