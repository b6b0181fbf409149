"""Pools, and their handling of returned connections."""

import asyncio
import itertools
import sqlite3
from unittest import mock

import engines
import of_engines
from support import LOW, Awaiting, Base, each
from rigzumal.accounts import AsyncAccounts, Reply, StoreFault
from rigzumal.accounts.pools import PerUse

BUSY = sqlite3.OperationalError("database is locked")


class Alarm(BaseException):
    """A BaseException, such as a timeout of gevent or an interrupt."""


class Pool:
    """A pool over one connection, blocking and for asyncio, by its behaviour after an exception. A
    pool that raises another exception behaves like a failed rollback on a broken connection."""

    def __init__(self, way, conn, interrupt=Alarm):
        self.way, self.conn, self.interrupt = way, conn, interrupt
        self.uses = 0

    def __call__(self):
        self.uses += 1
        return self

    def __enter__(self):
        return self.conn

    def __exit__(self, kind, error, traceback):
        if error is None and not self.way.endswith("at_any_end"):
            return None
        self.conn.rollback()
        if "interrupted" in self.way:
            raise self.interrupt
        if self.way.startswith("raises"):
            raise BUSY
        return self.way == "swallows"

    async def __aenter__(self):
        return Awaiting(self.conn)

    async def __aexit__(self, *given):
        return self.__exit__(*given)


WAYS = ("raises_another", "raises_at_any_end", "swallows", "rolls_back")
INTERRUPTS = (Alarm, asyncio.CancelledError)


class OfThreads(engines.OnSqlite):
    """Accounts over a pool of this behaviour."""

    way, interrupt = "rolls_back", Alarm

    def accounts(self, hasher=LOW, dialect=None, **more):
        self.pool = Pool(self.way, self.conn, self.interrupt)
        return self.over(self.pool, hasher, dialect, **more)


class OfTasks(OfThreads, engines.OnSqliteTasks):
    """AsyncAccounts over a pool of this behaviour."""


class Endings:
    """The exit of a pool doesn't change the answer to its caller."""

    @each(*((it, StoreFault) for it in WAYS), *(("is_interrupted", it) for it in INTERRUPTS))
    def test_a_fault_is_said(self, way, wanted):
        """The caller gets a job's exception, and an interrupt in preference to it."""
        self.way, self.interrupt = way, wanted
        accounts = self.accounts()
        self.conn.execute("ALTER TABLE users RENAME TO gone")
        self.assertRaises(wanted, accounts.verify, "ann", "one")
        self.assertEqual(self.pool.uses, 1)
        accounts._dialect.examine = None
        self.assertRaises(TypeError if wanted is StoreFault else wanted, accounts.examine)
        self.conn.execute("ALTER TABLE gone RENAME TO users")

    @each(*itertools.product((*WAYS, "is_interrupted"), INTERRUPTS))
    def test_an_interrupt_is_no_lost_connection(self, way, interrupt):
        """An interrupt reaches the caller whatever the pool does with it, and nothing is sent
        again."""
        self.way, self.interrupt = way, interrupt
        accounts = self.accounts()
        accounts._table.before_commit = mock.Mock(side_effect=interrupt)
        self.assertRaises(interrupt, accounts.change, "ann", "one", "two")
        self.assertEqual(self.pool.uses, 2)
        self.assertTrue(self.is_right("one"))

    @each(*INTERRUPTS)
    def test_an_interrupt_at_the_way_back(self, interrupt):
        """An interrupt reaches the caller even if the work is done."""
        self.way, self.interrupt = "is_interrupted_at_any_end", interrupt
        self.assertRaises(interrupt, self.accounts().verify, "ann", "one")

    @each((True, "one"), (False, "two"))
    def test_an_interrupt_after_a_lost_answer(self, before, right):
        """After an interrupt nobody can find out the outcome of a lost COMMIT."""
        self.way = "is_interrupted"
        self.give("one")
        self.assertRaises(Alarm, self.losing(before).change, "ann", "one", "two")
        self.assertTrue(self.is_right(right))

    def test_a_pool_that_gives_nothing(self):
        """A pool's exception before the start of a job reaches the caller, and nothing is
        stored."""

        class Shut(Pool):
            __enter__ = mock.Mock(side_effect=RuntimeError("the pool is shut"))
            __exit__ = mock.Mock(side_effect=AssertionError("it never was entered"))

            async def __aenter__(self):
                self.__enter__()

        accounts = self.over(Shut("rolls_back", None))
        self.assertRaisesRegex(RuntimeError, "the pool is shut", accounts.verify, "ann", "old")


globals().update(engines.made(Endings, engine) for engine in (OfThreads, OfTasks))
globals().update(
    engines.made(of_engines.LostAnswers, engine, way=way)
    for engine, way in itertools.product((OfThreads, OfTasks), WAYS)
)


class Openings(Base):
    """PerUse: no connection outlives its task, whenever the task is cancelled."""

    @each("opening", "using", "closing")
    def test_one_that_is_cancelled(self, place):
        """A task is cancelled while its connection opens, works or closes; in the end the
        connection is closed. `connect` returns an awaitable that isn't a coroutine, as aiosqlite's
        does."""
        closed = mock.Mock()

        async def act():
            reached, goes_on = asyncio.Event(), asyncio.Event()

            async def at(here):
                if here == place:
                    reached.set()
                    await goes_on.wait()

            async def close():
                await at("closing")
                closed()

            class Opening:
                def __await__(self):
                    yield from at("opening").__await__()
                    return mock.Mock(close=close)

            async def use():
                async with PerUse(Opening)():
                    await at("using")

            task = asyncio.create_task(use())
            await asyncio.wait_for(reached.wait(), 60)
            task.cancel()
            with self.assertRaises(asyncio.CancelledError):
                await task
            goes_on.set()
            for _ in range(10):
                await asyncio.sleep(0)

        asyncio.run(act())
        closed.assert_called_once_with()

    def test_few_are_opened_at_a_time(self):
        """Only a few connections open at a time: each one blocks the loop for a while, and other
        ready tasks have to wait."""
        opening, most = [], []

        async def connect():
            opening.append(1)
            most.append(len(opening))
            await asyncio.sleep(0)
            opening.pop()
            return Awaiting(self.connect())

        async def act():
            accounts = AsyncAccounts(PerUse(connect), self.dialect, LOW)
            return {*await asyncio.gather(*(accounts.login("ann", "one") for _ in range(30)))}

        self.assertEqual(asyncio.run(act()), {Reply.YES})
        self.assertEqual((len(most), max(most)), (30, 4))
