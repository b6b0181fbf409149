"""The difference between blocking drivers and asyncio.

All layers above are coroutines. Over a blocking driver, coroutines wait only for the driver, so
`run` gets their results at once.
"""

from __future__ import annotations

import contextvars
import inspect
import time
from collections.abc import AsyncGenerator, Awaitable, Callable, Coroutine, Generator
from collections.abc import Iterable, Mapping
from concurrent.futures import ThreadPoolExecutor
from typing import Any, NamedTuple, Optional, TypeVar, Union

from rigzumal.accounts.types import Reply, StoreFault
from rigzumal.accounts.pools import lent

T = TypeVar("T")

Hook = Optional[Callable[[Any, Reply], Any]]
"""A caller's own statements: a function of the driver's connection and the reply."""


class HookFailed(Exception):
    """A caller's hook raised `error`; the library passes `error` to the caller, and stores
    nothing."""

    def __init__(self, error: Exception) -> None:
        super().__init__()
        self.error = error


def at_once(name: str, answer: Any) -> Any:
    """Returns the answer of a caller's function, and raises TypeError if its body didn't run."""
    if isinstance(answer, Coroutine):
        answer.close()
    if isinstance(answer, Awaitable):
        raise TypeError(f"`{name}` returned a coroutine: use AsyncAccounts")
    if isinstance(answer, (Generator, AsyncGenerator)):
        raise TypeError(f"`{name}` returned a generator, which nobody runs")
    return answer


class Result(NamedTuple):
    """The answer to a statement: its rows, its row count, and the server's command tag."""

    rows: list[tuple[Any, ...]]
    affected: int
    status: Optional[str] = None


class Session:
    """Runs statements on a connection of the DB-API (PEP 249).

    `options` are keywords of the driver's `execute`.
    """

    def __init__(self, conn: Any, options: Mapping[str, Any] = {}) -> None:
        self.conn, self._options = conn, options

    async def execute(self, sql: str, *values: object) -> Result:
        """Runs a statement to its end, since an open cursor would keep SQLite's snapshot."""
        cursor = self.conn.cursor()
        try:
            # Without values, no driver looks for placeholders in the statement.
            statement = (sql, values) if values else (sql,)
            cursor.execute(*statement, **self._options)
            return _result(cursor, cursor.fetchall() if cursor.description else ())
        finally:
            cursor.close()

    async def wait(self, answer: Any) -> None:
        """Awaits what a caller's `also` returned."""
        at_once("also", answer)


class AsyncSession(Session):
    """A connection of psycopg's AsyncConnection, or of a driver with cursors like it."""

    async def execute(self, sql: str, *values: object) -> Result:
        async with self.conn.cursor() as cursor:
            await cursor.execute(sql, *([values] if values else []), **self._options)
            fetched = await cursor.fetchall() if cursor.description else ()
            return _result(cursor, fetched)

    async def wait(self, answer: Any) -> None:
        at_once("also", await answer if isinstance(answer, Awaitable) else answer)


def _result(cursor: Any, fetched: Any) -> Result:
    rows = [*fetched]
    if rows and type(rows[0]) is not tuple:
        rows = [_values(row) for row in rows]
    return Result(rows, cursor.rowcount, getattr(cursor, "statusmessage", None))


def _values(row: Any) -> tuple[Any, ...]:
    """Returns a row's values, from a driver whose rows aren't tuples."""
    if not isinstance(row, Iterable) or isinstance(row, (str, bytes)):
        raise StoreFault(f"a row is {type(row).__name__}, not a tuple or a dictionary")
    return tuple(row.values() if isinstance(row, Mapping) else row)


Job = Callable[[Session], Coroutine[Any, Any, T]]
"""The type of a job on one connection."""


def run(coroutine: Coroutine[Any, Any, T]) -> T:
    """Returns the result of a coroutine over a blocking driver."""
    try:
        coroutine.send(None)
    except StopIteration as end:
        answer: T = end.value
        return answer
    except HookFailed as failed:
        error = failed.error
    else:
        coroutine.close()
        error = TypeError("a blocking operation can't await: use AsyncAccounts")
    raise error


async def _ended(job: Awaitable[T], ends: list[Union[T, BaseException]]) -> None:
    """Notes the result of a job, or its exception."""
    try:
        ends.append(await job)
    except BaseException as error:
        ends.append(error)
        raise


def _answer(end: Union[T, BaseException]) -> T:
    """Returns a job's answer, or raises its error."""
    if isinstance(end, BaseException):
        raise end
    return end


class Runtime:
    """Waits in the thread; `options` are those of its sessions."""

    enter = "__enter__"  # lends a connection of a pool
    _session: type[Session] = Session
    _executors: tuple[type[ThreadPoolExecutor], ...] = ()  # the kinds of executor that it accepts

    def __init__(
        self, options: Mapping[str, Any], executor: Optional[ThreadPoolExecutor] = None
    ) -> None:
        if executor is not None and not isinstance(executor, self._executors):
            if not self._executors:
                raise TypeError("only AsyncAccounts uses an executor")
            kind = type(executor).__name__
            raise TypeError(f"AsyncAccounts needs a ThreadPoolExecutor, not {kind}")
        self._options, self._executor = options, executor

    def session(self, conn: Any) -> Session:
        """Returns a session on a connection."""
        return self._session(conn, self._options)

    async def use(self, pool: Any, job: Job[T]) -> T:
        """Runs a job on a connection of a pool, and returns the job's outcome even if the pool
        raises or swallows an error afterwards.

        A pool that rolls back a broken connection raises its own error instead of the job's;
        "COMMIT had no answer" would then look like "nothing was stored".
        """
        ends: list[Union[T, BaseException]] = []
        try:
            with lent(pool, self.enter) as conn:
                await _ended(job(self.session(conn)), ends)
        except Exception:
            if not ends:
                raise
        return _answer(*ends)

    async def pause(self, seconds: float) -> None:
        """Waits this many seconds."""
        time.sleep(seconds)

    async def call(self, work: Callable[..., T], *args: Any) -> T:
        """Runs a function that uses a processor for some time."""
        return work(*args)

    async def ask(self, name: str, hook: Callable[..., Any], *args: Any) -> Any:
        """Returns the answer of a caller's hook, which may also hash."""
        return at_once(name, hook(*args))


class AsyncRuntime(Runtime):
    """Waits in a task of asyncio, and hashes in a thread of an executor."""

    enter = "__aenter__"
    _session = AsyncSession
    _executors = (ThreadPoolExecutor,)

    async def use(self, pool: Any, job: Job[T]) -> T:
        ends: list[Union[T, BaseException]] = []
        try:
            async with lent(pool, self.enter) as conn:
                await _ended(job(self.session(conn)), ends)
        except Exception:
            if not ends:
                raise
        return _answer(*ends)

    # asyncio takes as long to import as all else here, so a blocking program doesn't import it.

    async def pause(self, seconds: float) -> None:
        import asyncio

        await asyncio.sleep(seconds)

    async def call(self, work: Callable[..., T], *args: Any) -> T:
        import asyncio

        # As asyncio.to_thread, which has no executor to choose.
        run_in, loop = contextvars.copy_context().run, asyncio.get_running_loop()

        def done() -> T:
            try:
                return run_in(work, *args)
            except StopIteration as end:
                # Before Python 3.13 no future accepts this exception: a task that awaits one waits
                # for ever.
                raise RuntimeError("a function raised StopIteration") from end

        return await loop.run_in_executor(self._executor, done)

    async def ask(self, name: str, hook: Callable[..., Any], *args: Any) -> Any:
        if inspect.iscoroutinefunction(hook):
            return await hook(*args)
        answer = await self.call(hook, *args)
        return await answer if isinstance(answer, Awaitable) else answer
