"""Reads the lines of the sockets' clients, and writes the answers."""

from __future__ import annotations

import asyncio
import re
import socket
import time
from collections import Counter, defaultdict
from collections.abc import Iterable
from contextlib import suppress
from typing import TYPE_CHECKING, Optional

if TYPE_CHECKING:
    from .doors import Door, Peer
    from .service import Service
    from .transfers import Incoming

AT_ONCE = 32  # open requests of a client
LONGEST = 960  # bytes of a line
READ_SIZE = 4096  # bytes to read at a time
READ_SIZE_OF_TEXT = 65536  # bytes of an import's text to read at a time
SEND_BUFFER = 16384  # bytes that may wait in the system for a client to read them
TAG = re.compile(rb"[a-z0-9]{1,20}")
NO_TAG = b"*"  # before the answer to a line that needs no work of the book
BAD_LINE, LONG = b"bad 11 line", b"bad 16 long"
PAUSE_SECONDS = 0.001  # seconds after an answer without the book's work, times a user's clients


class Client:
    """A client that sends lines, and receives an answer to each, in any order."""

    no_room = b"* unavailable\n"  # the answer to a client that gets no place

    def __init__(self, service: Service, door: Door, sock: socket.socket, peer: Peer) -> None:
        self.service = service
        self.door = door
        self.socket = sock
        self.pid = peer.pid
        self.uid = peer.uid
        self.user = peer.user
        self.is_ending = False  # the client may send no more requests
        self.is_watched = False  # the event loop reports when the socket has bytes to read
        self.running = 0  # requests without an answer
        self.active = time.monotonic()  # the time of the last answer, or of an import's last bytes
        self.queues = defaultdict[object, asyncio.Lock](asyncio.Lock)  # for each kind of places
        self.incoming: Optional[Incoming] = None  # the import whose text comes next
        self.answered = asyncio.Event()
        self.writing = asyncio.Lock()
        self.loop = asyncio.get_running_loop()
        sock.setsockopt(socket.SOL_SOCKET, socket.SO_SNDBUF, SEND_BUFFER)

    async def run(self) -> None:
        """Reads requests. Closes the connection once all lines have answers, or if nobody reads the
        answers."""
        try:
            with suppress(OSError):
                await self.read()
                self.socket.send(b"")  # which fails if nobody reads the answers
                await self.has_fewer(1)
        finally:
            self.is_ending = True
            self.loop.remove_reader(self.socket)
            del self.service.clients[self]
            self.door.counts -= Counter([self.user])
            async with self.writing:  # after all tasks that wait for the socket
                self.socket.close()

    async def read(self) -> None:
        """Passes each line on, but only the beginning of a line that is too long, for a refusal."""
        text, is_rest = b"", False
        while more := await self.receive():
            text += more
            while b"\n" in text or len(text) > LONGEST:
                line, end, text = text.partition(b"\n")
                if is_rest:
                    await self.pause()
                else:
                    await self.answer_line(line)
                is_rest = not end
                if self.incoming is not None:
                    text = await self.read_text(self.incoming, text)

    async def read_text(self, incoming: Incoming, data: bytes) -> bytes:
        """Begins an import when its text has arrived, and returns the bytes after the text."""
        transfers = self.service.transfers
        try:
            rest = incoming.take(data)
            while incoming.missing and (more := await self.receive()):
                self.active = time.monotonic()
                rest = incoming.take(more)
        finally:
            self.incoming = None
            if incoming.missing:
                transfers.drop(incoming)
        if not incoming.missing:
            transfers.begin(incoming.request, incoming.text)
        return rest

    async def receive(self) -> bytes:
        """Returns some bytes, or none at the end of the input. The event loop watches the socket
        between two calls, which saves the time that sock_recv would spend on watching the socket
        again."""
        self.received: asyncio.Future[bytes] = self.loop.create_future()
        if not self.is_watched:
            self.is_watched = True
            self.loop.add_reader(self.socket, self.wake)
        return b"" if self.is_ending else await self.received

    def wake(self) -> None:
        """Reads the available bytes if a task waits for them."""
        self.is_watched = not self.received.done()
        if not self.is_watched:  # nobody waits for more
            self.loop.remove_reader(self.socket)
            return
        try:
            most = READ_SIZE if self.incoming is None else READ_SIZE_OF_TEXT
            self.received.set_result(self.socket.recv(most))
        except BlockingIOError:
            return
        except OSError:
            self.received.set_result(b"")

    async def answer_line(self, line: bytes) -> None:
        """Answers a line, with its tag if it has one."""
        tag, *words = line.split(b" ")
        if not TAG.fullmatch(tag):
            await self.submit(NO_TAG, words, LONG if len(line) > LONGEST else BAD_LINE)
        elif len(line) > LONGEST:
            await self.submit(tag, words, LONG)
        else:
            await self.submit(tag, words)

    async def submit(self, tag: bytes, words: list[bytes], refusal: bytes = b"") -> None:
        """Answers or refuses a request, once few enough other requests run and it is this user's
        turn."""
        await self.has_fewer(AT_ONCE)
        if self.is_ending:
            return
        await self.service.turns.take(self.user)
        self.loop.call_soon(self.service.turns.release, self.user)  # in the next pass
        if self.is_ending:
            return
        if answer := refusal or self.service.submit(self, tag, words):
            await self.reply(tag, answer)
            await self.pause()

    async def has_fewer(self, count: int) -> None:
        """Waits until fewer requests run."""
        while self.running >= count:
            self.answered.clear()
            await self.answered.wait()

    async def pause(self) -> None:
        await asyncio.sleep(PAUSE_SECONDS * self.door.counts[self.user])

    async def reply(self, tag: bytes, answer: bytes, seconds: int = 0) -> None:
        """Sends an answer, without the remaining seconds of a wait."""
        await self.write([b"%b %b\n" % (tag, answer)])

    async def write(self, pieces: Iterable[bytes]) -> None:
        """Sends the pieces of an answer, as fast as the client reads them."""
        async with self.writing:
            try:
                for piece in pieces:
                    await self.loop.sock_sendall(self.socket, piece)
                    self.active = time.monotonic()
            except OSError:
                self.end(socket.SHUT_RDWR)

    def has_gone(self) -> bool:
        """Whether the client has stopped reading answers; it may still send lines."""
        try:
            self.socket.send(b"")  # this fails if the client stopped reading
        except OSError:
            return True
        return False

    def end(self, how: int = socket.SHUT_RD) -> None:
        """Accepts no more requests; with SHUT_RDWR, running requests get no answer either."""
        self.is_ending = True
        with suppress(OSError):
            self.socket.shutdown(how)
