"""Breaks parts of the accounts in a torture: its history must then be legal, or the checker must
refuse it."""

import dataclasses
import functools
import random
import sqlite3
import threading
import time
from contextlib import asynccontextmanager, contextmanager, suppress

import support  # noqa: F401: finds the package
from rigzumal.accounts import OutcomeUnknown, PerThread, Postgres, Sqlite
from rigzumal.accounts._session import Session, run
from rigzumal.accounts.types import Answer


def take_pool(accounts, pool):
    accounts._connections = dataclasses.replace(accounts._connections, primary=pool)


def uncompared(accounts):
    """The UPDATE overwrites any other record."""
    dialect = accounts._dialect
    mark = "%s::text" if isinstance(dialect, Postgres) else dialect.mark
    dialect.at_once = ""
    front, _, back = dialect.update.partition(" AND ")
    returning = back[back.find(" RETURNING") :] if dialect.returns else ""
    dialect.update = f"{front} AND ({mark} IS NULL OR 1 = 1){returning}"


def uncounted(accounts):
    """The operation ignores the number of updated rows."""
    table = accounts._table
    table.dialect.at_once = ""
    compare = table.compare

    async def careless(session, worked):
        if not worked.reply.makes_change:
            return await compare(session, worked)
        put = (worked.after, worked.ticket.request.key, worked.ticket.copy)
        await session.execute(table.dialect.update, *put)
        return Answer(worked.reply, worked.ticket.copy, worked.after)

    table.compare = careless


def snapshots(accounts):
    """Each read runs in a transaction of REPEATABLE READ that lasts for twenty reads."""
    table, pool, seen = accounts._table, accounts._connections.primary, [0, None]

    async def look(session, key):
        if seen[0] % 20 == 0:
            if seen[1]:
                seen[1].rollback()
            seen[1] = seen[1] or pool._connect()
            if isinstance(table.dialect, Postgres):
                seen[1].execute("BEGIN ISOLATION LEVEL REPEATABLE READ")
            else:
                seen[1].begin()
        seen[0] += 1
        return await table.one(Session(seen[1]), table.dialect.select, key)

    table.look = look


def unlooked(accounts):
    """An operation without a change answers from the copy, without a look at the primary."""
    commit = accounts._commit

    async def blind(worked, *given):
        if worked.reply.makes_change:
            return await commit(worked, *given)
        return Answer(worked.reply, worked.ticket.copy, worked.ticket.copy)

    accounts._commit = blind


class LeavesOpen(PerThread):
    """Leaves a connection open after an exception, for statements that a thread may still send."""

    def _take_back(self, held, is_well):
        if is_well:
            super()._take_back(held, is_well)
        else:
            self._parents.append(held)
            self._local.held = None


class Left(BaseException):
    """The exception of a pool that is interrupted on a connection's way back."""


class Queue:
    """A pool of one connection for a process, in each of the ways of writing a pool.

    The connection is broken, so the rollback raises an exception instead of the first one.
    """

    def __init__(self, connect):
        self._connect, self.idle = connect, []
        self.way = random.choice(("raises", "swallows", "interrupted", "rolls back"))

    @contextmanager
    def __call__(self):
        conn = self.idle.pop() if self.idle else self._connect()
        try:
            yield conn
            self.idle.append(conn)
        except BaseException:
            if self.way == "interrupted":
                with suppress(Exception):
                    conn.close()
                raise Left from None
            try:
                conn.rollback()
                self.idle.append(conn)
            except Exception:
                if self.way == "raises":
                    raise
            if self.way != "swallows":
                raise


# A caller's own transaction on a pool that swallows exceptions is the caller's fault.
OWN = ("whole", "parts")


def queued(accounts):
    """COMMITs lose their answers, and each process has a different kind of pool."""

    async def acted(act, *given):
        try:
            return await act(*given)
        except Left:
            raise OutcomeUnknown from None

    lossy(accounts, Queue)
    for name in ("_perform", "_commit"):
        setattr(accounts, name, functools.partial(acted, getattr(accounts, name)))


def lossy(accounts, pool=LeavesOpen):
    """Three of ten COMMITs have no answer: not sent, done, or still on their way.

    No COMMIT remains on its way in a pool that rolls back: there the connection breaks.
    """
    connect = accounts._connections.primary._connect
    if isinstance(accounts._dialect, Sqlite):
        # A thread of its own may send the late COMMIT.
        path = connect().execute("PRAGMA database_list").fetchone()[2]
        given = {"isolation_level": None, "check_same_thread": False, "timeout": 20}
        connect = functools.partial(sqlite3.connect, path, **given)
    take_pool(accounts, pool(connect))
    losing(accounts._dialect, lambda conn: conn.close(), may_be_late=pool is LeavesOpen)


def losing(dialect, breaks, may_be_late=False):
    """Lets some COMMITs lose their answers."""

    def late(commit, session, *given):
        time.sleep(random.uniform(0, 0.1))
        with suppress(Exception):
            run(commit(session, *given))
            session.conn.close()

    def sometimes(commit):
        async def committed(session, *given):
            fate = random.random()
            if fate < 0.1:
                breaks(session.conn)
            elif fate < 0.2 or (fate < 0.3 and not may_be_late):
                await commit(session, *given)
                if not may_be_late:
                    breaks(session.conn)
            elif fate < 0.3:
                threading.Thread(target=late, args=(commit, session, *given)).start()
            else:
                return await commit(session, *given)
            raise ConnectionError("planted")

        return committed

    for name in ("commit", "put_at_once"):
        setattr(dialect, name, sometimes(getattr(dialect, name)))


def queued_tasks(accounts):
    """Lets COMMITs of tasks lose their answers, in a pool of this kind."""
    connect = accounts._connections.primary._connect
    idle, way = [], random.choice(("closes", "raises", "swallows"))

    @asynccontextmanager
    async def pool():
        conn = idle.pop() if idle else await connect()
        try:
            yield conn
            idle.append(conn)
        except BaseException as error:
            if way == "closes" or not isinstance(error, Exception):
                await conn.close()
                raise
            await conn.rollback()
            idle.append(conn)
            if way != "swallows":
                raise

    take_pool(accounts, pool)
    losing(accounts._dialect, lambda conn: conn.pgconn.finish())


def resent(accounts):
    """COMMITs get lost, and the lost operations run again from their beginning."""
    lossy(accounts)

    async def again(worked, also):
        return await accounts._perform(worked.ticket.request, also)

    accounts._settled = again


def resent_at_none(accounts):
    """Sends an enrolment whose COMMIT was lost again if the account has no record."""
    lossy(accounts)
    settled = accounts._settled

    async def again(worked, also):
        if worked.ticket.copy is not None:
            return await settled(worked, also)
        # Long enough for another client to remove the new record.
        time.sleep(0.05)
        while True:
            now = (await accounts._begin(worked.ticket.request)).copy
            if now is not None and now != worked.after:
                return await settled(worked, also)
            if now == worked.after:
                return Answer(worked.reply, None, worked.after)
            with suppress(Exception):
                await accounts._change(worked, also)

    accounts._settled = again
