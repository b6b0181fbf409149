"""Messages, notices to systemd, and files of lines that only grow."""

import asyncio
import errno
import logging
import os
import re
import socket
import subprocess
import sys
import time
from contextlib import suppress
from typing import Hashable, Optional

from . import appending
from .appending import FAULT, SIZE, GrowingFile, private

log = logging.getLogger("credkeep-server")
SELDOM = 3600.0  # seconds
MOST_KEYS = 65536  # the most keys of logged messages to remember
logged_at = dict[Hashable, float]()  # the times at which log_seldom logged each key
MARKED = re.compile(
    rb"(?P<name>[!-~]+)"
    rb"(?: (?P<mark>[a-z]+))?"
    rb" \d{4}-\d\d-\d\dT\d\d:\d\d:\d\dZ"  # the time, as `utc` writes it
)
MOST_LINES = 4096  # lines of a journal that may wait for its disk
UNDOES = {b"unlock": b"lock", b"renew": b"expire"}  # each of these marks ends another


class Problem(Exception):
    """The reason why the server can't start, in words for its administrator."""


def log_seldom(key: Hashable, text: str, *values: object) -> None:
    """Logs messages with the same key at most once an hour, for the last 65536 keys."""
    now = time.monotonic()
    if now >= logged_at.get(key, -SELDOM) + SELDOM:
        logged_at.pop(key, None)
        logged_at[key] = now
        log.warning(text, *values)
        if len(logged_at) > MOST_KEYS:
            del logged_at[next(iter(logged_at))]  # the oldest


def forget_message(key: Hashable) -> bool:
    """Makes `log_seldom` log the key's next message at once. Returns False if no message was
    logged."""
    return logged_at.pop(key, None) is not None


def utc(seconds: Optional[float] = None) -> str:
    """Returns a time, by default the present one, in the form of RFC 3339, to the second."""
    return time.strftime("%Y-%m-%dT%H:%M:%SZ", time.gmtime(seconds))


def notify(text: str) -> None:
    """Sends notices to systemd, if systemd wants notices."""
    if path := os.environ.get("NOTIFY_SOCKET"):
        try:
            with socket.socket(socket.AF_UNIX, socket.SOCK_DGRAM) as notices:
                notices.sendto(text.encode(), re.sub("^@", "\0", path))
        except OSError as fault:
            log_seldom("systemd", "NOTIFY_SOCKET: %s", fault.strerror)


class Journal(GrowingFile):
    """A file of lines. The next write stores all lines that arrive during a write."""

    def __init__(self, path: str) -> None:
        super().__init__(path)
        self.lines = list[bytes]()  # those that wait
        self.one_at_a_time = asyncio.Lock()
        self.open_lines = 0  # those that wait, and those that are written now
        self.lacking = 0  # lines that were never written

    def is_full(self) -> bool:
        """Whether so many lines wait for the disk that the journal accepts no more lines."""
        return len(self.lines) >= MOST_LINES

    def add(self, line: bytes) -> asyncio.Future[bool]:
        """Appends a line, with others that arrive meanwhile. Returns whether the line is on the
        disk."""
        if self.is_full():
            text = "%s: its disk hangs: %d lines wait, and the server drops further lines"
            log_seldom((self.path, "full"), text, self.path, MOST_LINES)
            self.lacking += 1
            left_out: asyncio.Future[bool] = asyncio.get_running_loop().create_future()
            left_out.set_result(False)
            return left_out
        self.lines.append(line)
        self.open_lines += 1
        if len(self.lines) == 1:
            self.written = asyncio.ensure_future(self.write())
        return self.written

    async def write(self) -> bool:
        """Writes all waiting lines once no other write runs. Returns False if the write fails."""
        async with self.one_at_a_time:
            lines = self.lines
            self.lines = []
            try:
                await self.write_text(b"".join(line + b"\n" for line in lines))
                return True
            except OSError as fault:
                log_seldom(self.path, "%s: %s", self.path, fault.strerror)
                self.lacking += len(lines)
                return False
            finally:
                self.open_lines -= len(lines)

    async def write_text(self, text: bytes) -> None:
        """Writes a text to the disk."""
        await asyncio.to_thread(self.append, text)


class Writer:
    """A process that writes a file, and the socket through which it receives the texts."""

    def __init__(self, path: str) -> None:
        self.socket, other = socket.socketpair()
        self.socket.setblocking(False)
        words = [sys.executable, "-I", "-B", str(appending.__file__), path]
        with other:  # in a session of its own: a terminal's signals are the server's
            self.process = subprocess.Popen(words, stdin=other.fileno(), start_new_session=True)

    def has_ended(self) -> bool:
        return self.process.poll() is not None

    async def append(self, text: bytes) -> None:
        """Lets the process write a text to the disk, one text at a time."""
        loop = asyncio.get_running_loop()
        await loop.sock_sendall(self.socket, SIZE.pack(len(text)) + text)
        answer = await loop.sock_recv(self.socket, FAULT.size)
        if len(answer) < FAULT.size:
            raise OSError(errno.EPIPE, "its writing process has ended")
        (number,) = FAULT.unpack(answer)
        if number:
            raise OSError(number, os.strerror(number))


class AuditLog(Journal):
    """A journal that another process writes, so that the server can exit while its disk hangs."""

    def __init__(self, path: str) -> None:
        super().__init__(path)
        self.writer: Optional[Writer] = None

    async def write_text(self, text: bytes) -> None:
        if self.writer is not None and self.writer.has_ended():
            self.writer.socket.close()
            self.writer = None
        if self.writer is None:
            self.writer = Writer(self.path)
        await self.writer.append(text)


class Marks(Journal):
    """Names with their marks: lines of NAME [MARK] TIME."""

    def __init__(self, path: str) -> None:
        super().__init__(path)
        self.pairs = set[tuple[bytes, bytes]]()
        with suppress(FileNotFoundError), open(path, "rb", opener=private) as file:
            for line in file.read().split(b"\n"):
                if found := MARKED.fullmatch(line):
                    self.apply(found["name"], found["mark"] or b"")

    def apply(self, name: bytes, mark: bytes) -> None:
        """Counts a mark of a name, or one that ends another mark."""
        if mark in UNDOES:
            self.pairs.discard((name, UNDOES[mark]))
        else:
            self.pairs.add((name, mark))

    def has(self, name: bytes, mark: bytes = b"") -> bool:
        return (name, mark) in self.pairs

    async def put(self, name: bytes, mark: bytes = b"") -> bool:
        """Writes a mark to the disk, and then counts it. Returns False if the write fails."""
        words = (name, mark, utc().encode()) if mark else (name, utc().encode())
        is_on_disk = await self.add(b" ".join(words))
        if is_on_disk:
            self.apply(name, mark)
        return is_on_disk
