"""The client for asyncio.

    async with aio.Client() as book:
        if await book.verify("ada", password) is Reply.YES: ...
"""

from __future__ import annotations

import asyncio
import os
from collections.abc import Coroutine
from typing import Any, Optional, Union

from rigzumal._hidden import hide
from rigzumal.server._client import LOGIN_SOCKET, LONGEST_ANSWER, Calls, Question, Reply
from rigzumal.server._client import Unavailable, answer_of


class Client(Calls[Coroutine[Any, Any, Reply], Coroutine[Any, Any, "list[str]"]]):
    """`rigzumal.server.Client` with coroutines, over a single connection for each event loop.

    Many tasks may call at the same time: tags connect answers with calls. After a connection has
    ended, the next call opens a new one.

    Args:
        path: the path of the socket.
        timeout: the time limit of a call, in seconds.
    """

    def __init__(
        self, path: Union[str, "os.PathLike[str]"] = LOGIN_SOCKET, timeout: float = 10.0
    ) -> None:
        self._path, self._timeout = os.fspath(path), timeout
        self._connections: dict[asyncio.AbstractEventLoop, _Connection] = {}

    async def __aenter__(self) -> Client:
        return self

    async def __aexit__(self, *_: object) -> None:
        await self.close()

    async def close(self) -> None:
        """Ends this event loop's connection; waiting calls then raise `Unavailable`."""
        found = self._connections.pop(asyncio.get_running_loop(), None)
        if found is not None:
            await found.close()

    async def _reply(self, asked: Question) -> Reply:
        try:
            known = asked.known_reply()
            return asked.reply(*await self._line(asked)) if known is None else known
        except BaseException as raised:
            hide(raised)
            raise

    async def _listed(self, asked: Question) -> list[str]:
        return answer_of(*await self._line(asked)).split()[1:]

    async def _line(self, asked: Question) -> tuple[bytes, bytes]:
        """Returns the tag and the received line, which is empty if the connection ended."""
        connection = self._connection()
        tag = connection.new_tag()
        try:
            answering = connection.answer(tag, asked.line(tag))
            return tag, await asyncio.wait_for(answering, self._timeout)
        except asyncio.TimeoutError:
            raise Unavailable(f"{self._path}: no answer in time") from None
        except OSError as fault:
            raise Unavailable(f"{self._path}: {fault.strerror or fault}") from None

    def _connection(self) -> _Connection:
        """Returns this event loop's connection: each `asyncio.run` has a loop of its own."""
        loop = asyncio.get_running_loop()
        if loop not in self._connections:
            for other in [it for it in [*self._connections] if it.is_closed()]:
                self._connections.pop(other, None)
            self._connections[loop] = _Connection(self._path)
        return self._connections[loop]


class _Connection:
    """The connection of one event loop, to which its lock, task and futures belong."""

    def __init__(self, path: str) -> None:
        self._path = path
        self._waiting: dict[bytes, asyncio.Future[bytes]] = {}
        self._writer: Optional[asyncio.StreamWriter] = None
        self._reading: Optional[asyncio.Task[None]] = None
        self._connecting = asyncio.Lock()
        self._last = 0

    def new_tag(self) -> bytes:
        self._last += 1
        return b"%d" % self._last

    async def close(self) -> None:
        if self._reading is not None:
            self._reading.cancel()
            await asyncio.gather(self._reading, return_exceptions=True)
            self._reading = None

    async def answer(self, tag: bytes, sent: bytes) -> bytes:
        """Sends a line, and returns the answer with its tag."""
        async with self._connecting:
            if self._reading is None or self._reading.done():
                reader, self._writer = await asyncio.open_unix_connection(
                    self._path, limit=LONGEST_ANSWER
                )
                self._reading = asyncio.ensure_future(self._read(reader, self._writer))
        assert self._writer is not None
        answer: asyncio.Future[bytes] = asyncio.get_running_loop().create_future()
        self._waiting[tag] = answer
        try:
            self._writer.write(sent)
            return await answer
        finally:
            self._waiting.pop(tag, None)

    async def _read(self, reader: asyncio.StreamReader, writer: asyncio.StreamWriter) -> None:
        """Passes answers to waiting calls, until the connection ends."""
        try:
            while line := await reader.readline():
                waiting = self._waiting.pop(line.partition(b" ")[0], None)
                if waiting is not None and not waiting.done():
                    waiting.set_result(line)
        except (OSError, ValueError):
            pass
        finally:
            writer.close()
            for waiting in self._waiting.values():
                if not waiting.done():
                    waiting.set_result(b"")
            self._waiting.clear()
