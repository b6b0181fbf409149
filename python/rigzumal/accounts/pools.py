"""The smallest pools, and a pool for SQLAlchemy. psycopg_pool's `connection` is a pool too.

Your own pool must close a connection, or roll it back, after any exception, even a BaseException:

    @contextmanager
    def pool():
        conn = idle.get()
        try:
            yield conn
        except BaseException:
            conn.close()
            conn = connect()
            raise
        finally:
            idle.put(conn)
"""

from __future__ import annotations

import inspect
import os
import threading
import weakref
from collections.abc import AsyncIterator, Awaitable, Callable, Iterator
from contextlib import AbstractAsyncContextManager, AbstractContextManager
from contextlib import asynccontextmanager, contextmanager, suppress
from typing import TYPE_CHECKING, Any, Final, Optional

from rigzumal.accounts._running import runs_over
from rigzumal.accounts.types import NoConnection

if TYPE_CHECKING:
    import asyncio

Pool = Callable[[], AbstractContextManager[Any]]
AsyncPool = Callable[[], AbstractAsyncContextManager[Any]]
IN_USE: Final = (
    "this thread uses the pool's connection in a `with` of its own, whose transaction may hold the"
    " row: end the `with` first, or call commit_in with its connection"
)
_MAKERS: Final = {
    "__enter__": "PerThread(connect), of_engine(engine) or ConnectionPool(..).connection",
    "__aenter__": "PerUse(connect), of_engine(async_engine) or AsyncConnectionPool(..).connection",
}
"""The pools of Accounts and of AsyncAccounts, by the method that lends a connection."""


def check_pool(pool: object, enter: str) -> None:
    """Raises TypeError for a connection, an engine or a pool's context manager instead of a pool,
    and for a PerThread or a PerUse of the other kind of accounts."""
    is_other = isinstance(pool, PerThread if enter == "__aenter__" else PerUse)
    # contextlib's context managers are callables too, since they are decorators.
    is_use = isinstance(pool, (AbstractContextManager, AbstractAsyncContextManager))
    is_use = is_use and type(pool).__module__ == "contextlib"
    if not callable(pool) or hasattr(type(pool), "cursor") or is_other or is_use:
        raise TypeError(f"pass a pool, not a {type(pool).__name__}: {_MAKERS[enter]}")


def check_connect(connect: object, of: str) -> None:
    """Raises TypeError for a connection or a DSN instead of a function that opens one."""
    if not callable(connect) or hasattr(type(connect), "cursor"):
        kind = type(connect).__name__
        raise TypeError(f"{of} needs a function that opens a connection, not a {kind}")


def lent(pool: Any, enter: str) -> Any:
    """Returns the context manager of a pool's connection, and raises TypeError if the manager lacks
    `enter`.

    A connection of psycopg or sqlite3 is also a context manager, but its exit doesn't close the
    connection. Only operations call this function.
    """
    if isinstance(pool, PerThread):
        pool.refuse_within_use()
    lender = pool()
    kind = type(lender)
    if hasattr(kind, enter) and not hasattr(kind, "cursor"):
        if kind is _Use:
            lender.is_of_operation = True
        return lender
    if inspect.iscoroutine(lender):
        lender.close()
    wanted = "`with`" if enter == "__enter__" else "`async with`"
    fault = f"a pool lends connections by {wanted}, but this one returned"
    raise TypeError(f"{fault} a {kind.__name__}: {_MAKERS[enter]}")


class _Held:
    """A connection that closes with its thread, in the process that opened it."""

    conn: Any = None
    pid, is_lent = 0, False  # after an interrupted __init__: no process has the pid 0

    def __init__(self, conn: Any) -> None:
        self.conn, self.pid = conn, os.getpid()

    def close(self) -> None:
        if self.pid == os.getpid():
            with suppress(Exception):
                self.conn.close()

    __del__ = close


class PerThread:
    """Keeps one connection for each thread, and closes it after any exception or with the thread.

    `connect` opens a connection in autocommit. After a fork the child opens its own connection, and
    doesn't use its parent's. Your own statements may use the pool too, but an operation within
    their `with` raises a TypeError.
    """

    def __init__(self, connect: Callable[[], Any]) -> None:
        check_connect(connect, "PerThread")
        self._connect = connect
        self._local = threading.local()
        self._parents: list[_Held] = []

    def __call__(self) -> AbstractContextManager[Any]:
        return _Use(self)

    def refuse_within_use(self) -> None:
        """Raises TypeError within a `with` of the caller's own on this pool.

        An operation there would get a second connection, which waits for ever for a row that the
        caller's transaction holds: no server sees that the caller waits for the operation.
        """
        if any(use.is_in_progress for use in getattr(self._local, "uses", ())):
            raise TypeError(IN_USE)

    def close(self) -> None:
        """Closes this thread's connection if one is open."""
        held = self._mine()
        self._local.held = None
        if held is not None:
            held.close()

    def _lend(self) -> _Held:
        """Returns the thread's connection, or a new one."""
        if runs_over(self):
            fault = "this thread's connection is in use"
            raise TypeError(f"{fault}: within `also`, use the connection that `also` receives")
        held = self._mine()
        # A lent connection never came back: a signal may have interrupted its use anywhere.
        if held is None or held.is_lent:
            held = self._made()
        held.is_lent = True
        return held

    def _note(self, use: _Use) -> None:
        """Notes a use of the caller's own while it lives: an interrupt may leave it anywhere."""
        if not hasattr(self._local, "uses"):
            self._local.uses = weakref.WeakSet()
        self._local.uses.add(use)

    def _take_back(self, held: _Held, is_well: bool) -> None:
        """Keeps a connection for the thread's next use, or closes it."""
        if held is not getattr(self._local, "held", None):
            held.close()  # the thread has another connection by now, or has closed this one
        elif is_well:
            held.is_lent = False
        else:
            self.close()

    def _mine(self) -> Optional[_Held]:
        """Returns this thread's connection, if this process opened it."""
        held: Optional[_Held] = getattr(self._local, "held", None)
        if held is not None and held.pid != os.getpid():
            # Closing it here, or dropping it, would end the parent's session at the server.
            self._parents.append(held)
            return None
        return held

    def _made(self) -> _Held:
        conn = self._connect()
        if inspect.iscoroutine(conn):
            conn.close()
        if inspect.isawaitable(conn):
            fault = "`connect` returned an awaitable"
            raise TypeError(f"{fault}: use AsyncAccounts and PerUse")
        held = self._local.held = _Held(conn)
        return held


class _Use:
    """A use of a thread's connection, by an operation or in a `with` of the caller's own."""

    is_of_operation = False  # operations don't nest: one that never came back was interrupted
    _is_entered = False

    def __init__(self, pool: PerThread) -> None:
        self._pool = pool

    def __enter__(self) -> Any:
        self._held = self._pool._lend()
        if not self.is_of_operation:
            self._pool._note(self)
        self._is_entered = True
        return self._held.conn

    def __exit__(self, kind: Any, *error: object) -> None:
        self._is_entered = False
        self._pool._take_back(self._held, kind is None)

    @property
    def is_in_progress(self) -> bool:
        """Whether this process is within the use's `with`."""
        return self._is_entered and self._held.pid == os.getpid()


_CONNECTING: Final = 4  # the number of connections to open at a time: each delays the event loop


class PerUse:
    """Opens a connection for each use by AsyncAccounts; `connect` opens one in autocommit.

    If the task is cancelled, even while the connection opens, the pool closes the connection. For
    many simultaneous uses, a pool that keeps its connections is faster.
    """

    def __init__(self, connect: Callable[[], Awaitable[Any]]) -> None:
        check_connect(connect, "PerUse")
        self._connect = connect
        self._turns: weakref.WeakKeyDictionary[Any, asyncio.Semaphore]
        self._turns = weakref.WeakKeyDictionary()

    @asynccontextmanager
    async def __call__(self) -> AsyncIterator[Any]:
        conn = await self._opened()
        import asyncio

        try:
            yield conn
        finally:
            await asyncio.shield(conn.close())

    async def _opened(self) -> Any:
        import asyncio

        loop = asyncio.get_running_loop()
        async with self._turns.setdefault(loop, asyncio.Semaphore(_CONNECTING)):
            connecting = self._connect()
            if not inspect.isawaitable(connecting):
                with suppress(Exception):
                    connecting.close()  # type: ignore[attr-defined]
                raise TypeError("`connect` didn't return an awaitable: use Accounts and PerThread")
            opening = asyncio.ensure_future(connecting)
            try:
                return await asyncio.shield(opening)
            except asyncio.CancelledError:
                opening.add_done_callback(_close)
                raise


def _close(opening: asyncio.Future[Any]) -> None:
    """Closes a connection that opened after its task was cancelled."""
    import asyncio

    if not opening.cancelled() and opening.exception() is None:
        asyncio.ensure_future(opening.result().close())


def of_engine(engine: Any) -> Any:
    """Returns the pool of an engine of SQLAlchemy, 1.4 or 2.0.

    An Engine becomes a pool for Accounts, and an AsyncEngine a pool for AsyncAccounts. The engine
    must have isolation_level="AUTOCOMMIT", or be
    `engine.execution_options(isolation_level="AUTOCOMMIT")`. If the engine has no free connection
    in time, an operation raises Unavailable.
    """
    if not hasattr(engine, "connect"):
        raise TypeError(f"of_engine needs an engine of SQLAlchemy, not a {type(engine).__name__}")

    @contextmanager
    def pool() -> Iterator[Any]:
        with _drivers_error():
            conn = engine.connect()
        with conn:
            try:
                yield conn.connection.driver_connection
            except BaseException:
                conn.invalidate()
                raise

    @asynccontextmanager
    async def awaited() -> AsyncIterator[Any]:
        with _drivers_error():
            conn = await engine.connect()
        try:
            yield (await conn.get_raw_connection()).driver_connection
        except BaseException:
            await conn.invalidate()
            raise
        finally:
            await conn.close()

    return awaited if hasattr(engine, "sync_engine") else pool


@contextmanager
def _drivers_error() -> Iterator[None]:
    """Raises the driver's error from inside SQLAlchemy's error, since the dialect knows only the
    driver's errors."""
    try:
        yield
    except Exception as error:
        if type(error).__name__ == "TimeoutError":  # of its pool
            raise NoConnection(f"no connection was free: {error}") from error
        raise getattr(error, "orig", None) or error
