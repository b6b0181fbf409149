"""Transfers of whole books through a socket: an import, an export and a backup.

credkeep carries out each transfer. An import needs exclusive use of the book's file: the book's
process ends in order, lines wait, and the next process starts after the import. An export, a backup
and a trial import use a copy, which credkeep writes beside the file while the server uses the book.
"""

from __future__ import annotations

import asyncio
import os
import re
import signal
from collections.abc import Iterator
from contextlib import suppress
from dataclasses import dataclass, field
from typing import TYPE_CHECKING, BinaryIO, Optional

from .book import UNAVAILABLE
from .clients import BAD_LINE, LONG
from .disk import FULL, NEEDED, has_room
from .journal import log
from .names import Names
from .protocol import IMPORT_OPTIONS, LONGEST_TEXT, ONLY_TRIED

if TYPE_CHECKING:
    from .service import Request, Service

LONGEST_FAULTS = 1 << 20  # bytes to keep of credkeep's standard error
PIECE = 65536  # bytes to read or send at a time
# An import may need the size of its text this many times: first SQLite's log grows, and then the
# file.
ROOM_FOR_TEXT = 4
BUSY = b"bad 14 busy"
DATABASE_FAILED = 5  # a status of credkeep
ENDING = b"credkeep-server: the book is ending: the server did nothing\n"
UNNOTED = b"credkeep-server: HTPASSWD.moved can't be written: the server did nothing\n"
HUNG = b"credkeep-server: killed credkeep, which still ran after %d s\n"
KILLED_FIRST = "1000"  # of proc(5), oom_score_adj


def memory_file() -> BinaryIO:
    """Creates a file in memory, without a name, so that no hanging disk can block it."""
    return open(os.memfd_create("credkeep-server"), "w+b")


def size_of_file(path: str) -> int:
    with suppress(OSError):
        return os.stat(path).st_size
    return 0


@dataclass
class Result:
    """The status of a run of credkeep, and its output on both streams."""

    status: int = 0
    output: BinaryIO = field(default_factory=memory_file)
    faults: bytes = b""

    def answer(self, tag: bytes) -> Iterator[bytes]:
        """Yields the answer in pieces: a line with the sizes of both texts, followed by the
        texts."""
        left = self.output.seek(0, os.SEEK_END)
        yield b"%b ended %d %d %d\n" % (tag, self.status, left, len(self.faults))
        self.output.seek(0)
        while left and (piece := self.output.read(min(left, PIECE))):
            left -= len(piece)
            yield piece
        yield self.faults

    def first_line(self) -> bytes:
        """Returns the first line of the output, such as the counts of an import."""
        self.output.seek(0)
        return self.output.readline(PIECE).rstrip(b"\n")


class Incoming:
    """The text of an import, as far as it has arrived."""

    def __init__(self, request: Request, size: int) -> None:
        self.request = request
        self.missing = size  # bytes
        self.text = memory_file()

    def take(self, data: bytes) -> bytes:
        """Stores bytes of the text, and returns the bytes after the text."""
        own, rest = data[: self.missing], data[self.missing :]
        self.text.write(own)
        self.missing -= len(own)
        return rest


class Transfers:
    """Runs credkeep for the imports, exports and backups of a server, one request at a time."""

    def __init__(self, service: Service) -> None:
        self.service = service
        self.file = service.options.file
        self.copy = f"{self.file}-transfer"
        self.has_import = False  # an import whose text is arriving, or that waits or runs
        self.one_at_a_time = asyncio.Lock()
        self.running: Optional[asyncio.subprocess.Process] = None

    # ---- a client's request

    def submit(self, request: Request) -> bytes:
        """Begins a request, or returns its answer."""
        word, *fields = request.words
        if self.service.audit.is_full():
            return UNAVAILABLE
        if word == b"import":
            return self.submit_import(request, fields)
        if any(fields):
            return BAD_LINE
        if not self.has_room(size_of_file(self.file) + size_of_file(f"{self.file}-wal")):
            return FULL
        self.begin(request, None)
        return b""

    def submit_import(self, request: Request, fields: list[bytes]) -> bytes:
        """Asks the client for the text with the answer `send`, or returns another answer."""
        size, *options = fields
        are_known = all(option.decode(errors="replace") in IMPORT_OPTIONS for option in options)
        if not re.fullmatch(rb"[0-9]{1,12}", size) or not are_known:
            return BAD_LINE
        if int(size) > LONGEST_TEXT:
            return LONG
        if self.has_import:
            return BUSY
        if not self.has_room(ROOM_FOR_TEXT * int(size)):
            return FULL
        try:
            request.client.incoming = Incoming(request, int(size))
        except OSError:  # no descriptor is free
            return UNAVAILABLE
        self.has_import = True
        return b"send %d" % int(size)

    def has_room(self, size: int) -> bool:
        """Whether the disks have room for a change, and the book's disk for this many additional
        bytes."""
        folder = self.service.folders[self.file]
        return self.service.has_free_space() and has_room(folder, size + NEEDED)

    def drop(self, incoming: Incoming) -> None:
        """Drops a text that didn't arrive completely."""
        incoming.text.close()
        self.has_import = False

    def begin(self, request: Request, text: Optional[BinaryIO]) -> None:
        """Begins a request; an import continues even if its client ends."""
        request.client.running += 1
        self.service.begin(self.process(request, text))

    # ---- the work

    async def process(self, request: Request, text: Optional[BinaryIO]) -> None:
        """Runs and answers a request. A fault fails only this request, and never the service."""
        client = request.client
        try:
            result = await self.result(request, text)
            if await self.is_noted(request, result):
                await client.write(result.answer(request.tag))
            else:
                await client.reply(request.tag, UNAVAILABLE)  # no answer reports what the log lacks
        except Exception as fault:
            log.error("%s: a fault: %s", request.word.decode(), type(fault).__name__)
            await client.reply(request.tag, UNAVAILABLE)
        finally:
            client.running -= 1
            client.answered.set()

    async def is_noted(self, request: Request, result: Result) -> bool:
        """Records a request in the audit log. Returns False if that fails."""
        if result.status or is_only_tried(request):
            return True
        is_import = request.word == b"import"
        return await self.service.note(request, result.first_line() if is_import else b"ok")

    async def result(self, request: Request, text: Optional[BinaryIO]) -> Result:
        """Runs a request when no other credkeep runs, and returns the result."""
        try:
            async with self.one_at_a_time:
                if self.service.book.has_ended():
                    return Result(DATABASE_FAILED, faults=ENDING)
                if request.word == b"import" and not is_only_tried(request):
                    return await self.import_text(request, text)
                return await self.use_copy(request, text)
        except OSError as fault:
            what = fault.filename or self.service.options.credkeep
            why = f"credkeep-server: {what}: {fault.strerror}\n"
            return Result(DATABASE_FAILED, faults=why.encode(errors="replace"))
        finally:
            if request.word == b"import":
                self.has_import = False

    async def import_text(self, request: Request, text: Optional[BinaryIO]) -> Result:
        """Imports the text into the book, whose lines wait meanwhile."""
        words = self.import_words(request)
        text = await self.with_names_of_book(text)
        if not await self.has_noted_records():  # of which this import may remove some
            return Result(DATABASE_FAILED, faults=UNNOTED)
        try:
            async with self.service.book.lent() as status:
                if status:
                    return Result(status, faults=ENDING)
                log.info("an import runs, and lines wait")
                result = await self.run(self.file, *words, text=text)
                log.info("the import has ended with status %d", result.status)
        finally:
            await self.service.end_waits()
        await self.has_noted_records()
        self.service.tally.counts["changes"] += not result.status
        return result

    async def has_noted_records(self) -> bool:
        """Notes which users have left an old file. Returns False if a note fails."""
        return not self.service.foreign or await self.service.foreign.note_records()

    async def use_copy(self, request: Request, text: Optional[BinaryIO]) -> Result:
        """Runs a request on a copy, while the server uses the book."""
        try:
            backup = await self.run(self.file, "backup", self.copy)
            if backup.status:
                return backup
            if request.word == b"backup":
                return Result(0, open(self.copy, "rb"), backup.faults)
            if request.word == b"export":
                return await self.export_copy()
            text = await self.with_names_of_book(text)
            return await self.run(self.copy, *self.import_words(request), text=text)
        finally:
            self.remove_copy()

    async def export_copy(self) -> Result:
        """Returns the lines of the copy, with a lock for users whom an old file bars."""
        result = await self.run(self.copy, "export")
        if self.service.foreign:
            result.output = await self.service.foreign.with_locks(result.output)
        return result

    def remove_copy(self) -> None:
        """Removes the copy, or the part of a copy that a kill left."""
        for path in (self.copy, f"{self.copy}-wal", f"{self.copy}-new"):
            try:
                os.unlink(path)
            except FileNotFoundError:
                pass
            except OSError as fault:
                log.error("%s: %s", path, fault.strerror)

    # ---- credkeep

    def import_words(self, request: Request) -> list[str]:
        """Returns the arguments of credkeep's import, with the bounds on a record's costs in
        lines."""
        options = self.service.options
        words = ["import", *(option.decode() for option in request.words[2:])]
        if options.most_memory:
            words += ["--most-memory", options.most_memory]
        if options.most_work:
            words += ["--most-work", options.most_work]
        return words

    async def with_names_of_book(self, text: Optional[BinaryIO]) -> Optional[BinaryIO]:
        """Returns the text of an import, with its addresses in the book's form."""
        if text is None or not self.service.options.mail_names:
            return text
        return await asyncio.to_thread(with_names_of_book, text, self.service.names)

    async def run(self, file: str, *words: str, text: Optional[BinaryIO] = None) -> Result:
        """Runs credkeep with this text as its input, and returns the result."""
        options, result = self.service.options, Result()
        if text is not None:
            text.seek(0)
        process = await asyncio.create_subprocess_exec(
            *(options.credkeep, "--wait", str(options.wait), file, *words),
            stdin=asyncio.subprocess.DEVNULL if text is None else text,
            stdout=result.output,
            stderr=asyncio.subprocess.PIPE,
            start_new_session=True,
        )
        self.running = process
        if text is not None:
            text.close()
        have_killed_first(process.pid)
        assert process.stderr is not None
        loop, seconds = asyncio.get_running_loop(), options.import_seconds()
        hung = loop.call_later(seconds, self.kill_hung, result, seconds)
        try:
            faults = await beginning_of(process.stderr)
            status = await process.wait()
        finally:
            hung.cancel()
        self.running = None
        result.faults = faults + result.faults
        result.status = status if status >= 0 else 128 - status
        return result

    def kill_hung(self, result: Result, seconds: float) -> None:
        """Kills the running credkeep, whose file may be on a disk that hangs."""
        log.error("killing credkeep, which still runs after %d s", seconds)
        result.faults = HUNG % seconds
        self.kill()

    def kill(self) -> None:
        """Kills the running credkeep: a killed import has imported all lines, or none."""
        if self.running is not None and self.running.returncode is None:
            with suppress(ProcessLookupError):
                os.kill(self.running.pid, signal.SIGKILL)


def is_only_tried(request: Request) -> bool:
    return ONLY_TRIED.encode() in request.words


def have_killed_first(pid: int) -> None:
    """Makes the system kill this process before the server if memory runs out."""
    with suppress(OSError), open(f"/proc/{pid}/oom_score_adj", "w") as file:
        file.write(KILLED_FIRST)


async def beginning_of(stream: asyncio.StreamReader) -> bytes:
    """Reads a stream to its end, and returns the whole lines at its beginning."""
    text, left_out = b"", 0
    while more := await stream.read(PIECE):
        if len(text) < LONGEST_FAULTS:
            text += more
        else:
            left_out += len(more)
    if left_out:
        text, _, rest = text.rpartition(b"\n")
        left_out += len(rest)
        text += b"\ncredkeep-server: %d bytes more aren't shown\n" % left_out
    return text


def with_names_of_book(text: BinaryIO, names: Names) -> BinaryIO:
    """Returns the lines of an import, with the addresses before their first colons in the book's
    form."""
    written = memory_file()
    text.seek(0)
    for line in text:
        name, colon, rest = line.partition(b":")
        is_address = b"@" in name and not name.startswith(b"#")
        written.write(names.of_book(name) + colon + rest if is_address else line)
    return written
