"""The load on a database: the processes, and the operations that each of them runs on accounts and
logs."""

import asyncio
import dataclasses
import functools
import inspect
import multiprocessing
import os
import pathlib
import random
import sys
import tempfile
import time
from collections.abc import Callable, Mapping
from contextlib import contextmanager
from typing import Any, Optional

from rigzumal import PasswordHasher
from rigzumal.accounts import Accounts, AccountsError, AsyncAccounts, OutcomeUnknown, PerThread
from rigzumal.accounts import Reply, StoreFault, Unavailable
from rigzumal.accounts._connections import LOGGER
from rigzumal.accounts._operations import Operations
from rigzumal.accounts._session import Session, run
from rigzumal.accounts.database import Database
from rigzumal.accounts.dialects._dialect import Verdict, is_of_driver
from rigzumal.accounts.pools import PerUse
from rigzumal.accounts.types import Answer, Kind, Request
from torture import logs

LOW, HIGH = 64, 72  # KiB of the two costs between which upgrades go
PASSWORDS = ("one", "two")
PATIENT, HASTY = 60.0, 0.02  # seconds after which a task of asyncio is cancelled
MIX = dict(enrol=2, verify=6, login=4, change=4, upgrade=2, remove=1, reset=1)
WAYS = ("whole", "also", "parts", "within")
RISK = 0.01


def hasher(memory):
    """An almost free hasher; memory is in KiB."""
    return PasswordHasher(time_cost=1, memory_cost=memory, parallelism=1)


@dataclasses.dataclass
class Torture:
    """The load on a database, as the command specifies it, or as tests modify it."""

    url: str
    table: str = "rigzumal_torture"  # created, and dropped again if the history is legal
    processes: int = 8  # with a connection each
    seconds: float = 60.0
    accounts: int = 4  # rows
    # By SIGKILL now and then, and between an UPDATE and its COMMIT or a COMMIT and its
    # answer; others are started. One at least is killed if any tries a change.
    kill: bool = False
    folder: Optional[pathlib.Path] = None  # of the logs; without it a new one is created
    replica: Optional[str] = None  # another database for the copies, which may lag
    end_url: Optional[str] = None  # the database in which the last records are read
    mix: Mapping[str, int] = dataclasses.field(default_factory=lambda: dict(MIX))
    ways: tuple[str, ...] = WAYS  # of doing an operation; a login has its own
    tasks: int = 4  # in the processes of asyncio; some are cancelled
    every: int = 4  # of so many processes one is of asyncio, on PostgreSQL
    patience: float = 30.0
    confirm: bool = False
    alter: Optional[Callable[[Any], None]] = None  # a test may break the class that is used here
    settings: tuple[str, ...] = ()  # SQL for each blocking connection to begin with
    killed: int = 0  # how many processes were killed
    started: int = 0  # how many processes were started
    # Of what is done and asked; the system decides what comes first.
    seed: int = dataclasses.field(default_factory=lambda: random.SystemRandom().getrandbits(32))

    def run(self):
        """Runs the torture, and returns its logs.

        Raises:
            StoreFault: the table exists already, or a process ended by an exception.
        """
        self.folder = self.folder or pathlib.Path(tempfile.mkdtemp(prefix="torture-"))
        self.folder.mkdir(exist_ok=True)
        random.seed(self.seed)
        names = [f"user{number}" for number in range(self.accounts)]
        top = logs.Log(self.folder / "log-top")
        self._fill(names, top)
        faults = self._load(names)
        self._read_ends(names, top)
        if faults:
            raise StoreFault(f"{faults} processes ended by an exception")
        return logs.read(map(str, self.folder.glob("log-*")))

    def drop(self):
        conn = Database(self.end_url or self.url).connect()
        conn.cursor().execute(f"DROP TABLE {self.dialect().table}")
        conn.close()

    def dialect(self):
        """A dialect for the table, of the database's engine."""
        return self._kind(self.table, "name", "record", str)

    @functools.cached_property
    def _kind(self):
        return Database(self.url).dialect_kind()

    def made(self, kind, pool, memory, replica=None):
        """Accounts of a process or of a task."""
        given = {"patience": self.patience, "confirm": self.confirm, "tries": 50}
        return kind(pool, self.dialect(), hasher(memory), replica=replica, **given)

    def is_awaited(self, number):
        """Whether a process is one of asyncio."""
        is_last = number % self.every == self.every - 1
        return self.url.startswith("postgres") and self.tasks > 0 and is_last

    def risk_of(self, number):
        """The risk that a process is killed at a change: the first process surely is."""
        if not self.kill:
            return 0.0
        return 1.0 if number == 0 else RISK

    def _fill(self, names, top):
        conn = Database(self.url).connect()
        if self.url.startswith("sqlite"):
            conn.execute("PRAGMA journal_mode = WAL")
        dialect, cursor = self.dialect(), conn.cursor()
        cursor.execute(dialect.create())
        for number, name in enumerate(names):
            cursor.execute(dialect.insert, (name,))
            record = hasher(LOW).hash("one") if number % 2 else None
            cursor.execute(dialect.update, (record, name, None))
            top.write("seed", key=name, record=record, password="one", costs=LOW)
        conn.close()

    def _read_ends(self, names, top):
        pool = PerThread(Database(self.end_url or self.url).connect)
        accounts = self.made(Accounts, pool, LOW)
        for name in names:
            record = accounts.begin(Request(Kind.VERIFY, name)).copy
            top.write("end", key=name, time=time.monotonic_ns(), record=record)

    def _load(self, names):
        """Runs the processes; returns the number of those that ended by an exception.

        If processes are to be killed, the first one is killed at its first change.
        """
        end, faults, running = time.monotonic() + self.seconds, 0, {}
        for number in range(self.processes):
            running[number] = self._start(number, names, end, self.risk_of(number))
        while running:
            time.sleep(0.02)
            if self.kill and random.random() < 0.05:
                random.choice([*running.values()]).kill()
            for number, process in list(running.items()):
                status = process.exitcode
                if status is None:
                    continue
                del running[number]
                if self.kill and status < 0:
                    self.killed += 1
                    if time.monotonic() < end:
                        running[number] = self._start(number, names, end, RISK)
                elif status:
                    print(f"process {number} ended with {status}", file=sys.stderr)
                    faults += 1
        return faults

    def _start(self, number, names, end, risk):
        """Starts a process by fork, so that it begins at once; no connection is open here."""

        self.started += 1

        def work():
            random.seed(f"{self.seed} {self.started}")
            asyncio.run(Worker(self, number, risk).work(names, end))

        process = multiprocessing.get_context("fork").Process(target=work)
        process.start()
        return process


async def done(said):
    """The answer, awaited if necessary."""
    return await said if inspect.isawaitable(said) else said


class Logged(Operations):
    """Operations that write to `log`, with `memory` as their costs; `last` is the answer."""

    _name = ""

    def _before_commit(self, worked):
        self.log.tried(self._name, worked)

    @contextmanager
    def call(self, request):
        """Logs a call and its answer, which the block puts into the list."""
        said = []
        name = self._name = self.log.begin(request, self.memory)
        try:
            yield said
        except AccountsError as fault:
            is_unknown = isinstance(fault, OutcomeUnknown)
            self.log.end(name, "unknown" if is_unknown else "failed")
            raise
        self.log.answered(name, said[0])

    async def _perform(self, request, also=None, patience=None):
        with self.call(request) as said:
            said.append(await super()._perform(request, also, patience))
        self.last = said[0]
        return said[0]


class LoggedAccounts(Logged, Accounts):
    """Logged operations over a blocking driver."""


class LoggedAsyncAccounts(Logged, AsyncAccounts):
    """Logged operations for asyncio."""


def _looks(conn, reply):
    """A caller's own statement, which is awaited over asyncio."""
    cursor = conn.cursor()
    said = cursor.execute("SELECT 1")
    return said if inspect.isawaitable(said) else cursor.fetchall()


class Worker:
    """One process of the torture."""

    def __init__(self, torture, number, risk):
        LOGGER.disabled = True  # a torture causes its warnings on purpose
        self.torture, name = torture, f"{number}-{os.getpid()}"
        self.log = logs.Log(torture.folder / f"log-{name}", name, risk)
        self.database = Database(torture.url, number)
        self.is_awaited = torture.is_awaited(number)
        self.replica = None
        if torture.replica and not self.is_awaited:
            self.replica = PerThread(Database(torture.replica, number).connect)

    async def work(self, names, end):
        count = self.torture.tasks if self.is_awaited else 1
        await asyncio.gather(*(self._task(names, end) for _ in range(count)))

    async def _task(self, names, end):
        rng = random.Random(random.getrandbits(64))
        accounts = {memory: self._accounts(memory) for memory in (LOW, HIGH)}
        kinds, weights = zip(*self.torture.mix.items())
        while time.monotonic() < end:
            kind, key = rng.choices(kinds, weights)[0], rng.choice(names)
            costs = (LOW, HIGH) if kind in ("upgrade", "login") else (LOW,)
            asked = accounts[rng.choice(costs)]
            # A cancelled task is one more whose answer never comes.
            seconds = HASTY if self.is_awaited and rng.random() < 0.1 else PATIENT
            one, two = rng.choice(PASSWORDS), rng.choice(PASSWORDS)
            way = "login" if kind == "login" else rng.choice(self.torture.ways)
            of_kind = Kind.VERIFY if way == "login" else Kind(kind)
            doing = getattr(self, f"_{way}")(asked, Request(of_kind, key, one, two))
            try:
                await asyncio.wait_for(doing, seconds)
            except AccountsError as fault:
                print(f"{type(fault).__name__}: {fault}", file=sys.stderr, flush=True)
            except asyncio.TimeoutError:
                pass

    # ---- the ways of doing an operation

    async def _login(self, accounts, request):
        """A login, logged as the parts of an upgrade, and as its caller sees it: as a verify of the
        record that it leaves."""
        with accounts.call(request) as said:
            reply = await done(accounts.login(request.key, request.password))
            stands = accounts.last.after
            said.append(Answer(reply, stands, stands))

    async def _whole(self, accounts, request, also=None):
        await done(accounts.perform(request, also=also))

    # With a statement of its own in the transaction.
    _also = functools.partialmethod(_whole, also=_looks)

    async def _parts(self, accounts, request):
        with accounts.call(request) as said:
            worked = await self._worked(accounts, request)
            said.append(await done(accounts.commit(worked)))

    async def _within(self, accounts, request):
        """An operation in the caller's transaction."""
        dialect, name = accounts._dialect, accounts._table.name

        async def job(session):
            await dialect.start(session)
            answer = await done(accounts.commit_in(session.conn, worked))
            if answer.reply is Reply.CHANGED:
                await dialect.undo(session)
                return answer
            if worked.reply.makes_change:
                accounts._before_commit(worked)
            try:
                await dialect.commit(session)
            except Exception as error:
                raise OutcomeUnknown(name(error)) from error
            return answer

        with accounts.call(request) as said:
            worked = await self._worked(accounts, request)
            try:
                pool = accounts._connections.primary
                said.append(await accounts._runtime.use(pool, job))
            except Exception as error:
                # An operation that fails before COMMIT was sent is surely undone.
                if not is_of_driver(error) or dialect.verdict(error) is Verdict.REFUSED:
                    raise
                raise Unavailable(name(error)) from error

    async def _worked(self, accounts, request):
        ticket = await done(accounts.begin(request))
        return await done(accounts.work(ticket))

    # ---- what it asks

    def _accounts(self, memory):
        if self.is_awaited:
            kind, pool = LoggedAsyncAccounts, PerUse(self._connect_awaited)
        else:
            kind, pool = LoggedAccounts, PerThread(self._connect)
        made = self.torture.made(kind, pool, memory, self.replica)
        made.log, made.memory = self.log, memory
        if self.torture.alter is not None:
            self.torture.alter(made)
        return made

    def _connect(self):
        conn = self.database.connect()
        for sql in self.torture.settings:
            run(Session(conn).execute(sql))
        return conn

    async def _connect_awaited(self):
        from psycopg import AsyncConnection

        return await AsyncConnection.connect(self.torture.url, autocommit=True)
