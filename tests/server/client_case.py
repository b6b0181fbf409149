"""The parts that tests of rigzumal.server's clients share: both clients, and peers that aren't
servers."""

import asyncio
import importlib
import os
import pathlib
import socket
import sys
import time
from collections.abc import Callable, Coroutine, Iterator
from typing import Any

from served import TOP, Case
from tests.helpers import Peer, longest
from tests.needs import need_file


class ClientCase(Case):
    def setUp(self) -> None:
        super().setUp()
        sys.path.insert(0, str(TOP / "python"))
        need_file(os.environ["RIGZUMAL_LIBRARY"])
        self.server: Any = importlib.import_module("rigzumal.server")
        self.aio: Any = importlib.import_module("rigzumal.server.aio")

    def peer(self, answer: bytes, then: str = "") -> pathlib.Path:
        """A socket at which a line gets these bytes; then it is closed, or waits, or drips."""

        def reply(line: bytes, client: socket.socket) -> None:
            client.sendall(answer)
            for _ in range(600 if then == "drips" else 0):
                client.sendall(b"x")
                time.sleep(0.2)
            client.recv(1 if then == "waits" else 0)

        return self.enterContext(Peer(self.room() / "s", reply)).path

    def calls(self, path: object, **options: float) -> Iterator[Callable[..., Any]]:
        """One of each client: called with a method's name and its arguments, it calls that. By
        default it waits longer than a machine may stall."""
        options = {"timeout": longest(), **options}
        plain = self.server.Client(path, **options)
        yield lambda name, *given: getattr(plain, name)(*given)

        async def awaited(name: str, *given: object) -> Any:
            async with self.aio.Client(path, **options) as client:
                return await getattr(client, name)(*given)

        yield lambda name, *given: asyncio.run(awaited(name, *given))

    def run_with(self, path: object, used: Callable[[Any], Coroutine[Any, Any, None]]) -> None:
        """Runs a coroutine function with an asyncio client."""

        async def run() -> None:
            async with self.aio.Client(path, longest()) as client:
                await used(client)

        asyncio.run(run())

    def is_unavailable(self, call: Callable[..., Any], *given: object) -> float:
        """The seconds until a call raised Unavailable."""
        begun = time.monotonic()
        with self.assertRaises(self.server.Unavailable):
            call(*(given or ("verify", "ada", "x")))
        return time.monotonic() - begun
