"""The book: its process, which answers lines, and the turns of its users."""

import asyncio
import base64
import itertools
import os
import re
import signal
import time
from collections import Counter, OrderedDict, deque
from collections.abc import AsyncIterator, Awaitable, Callable
from contextlib import asynccontextmanager, suppress
from typing import Any, Hashable, Optional

from .journal import log_seldom

LONGEST_ANSWER = 65536  # bytes
UNAVAILABLE = b"unavailable"
NAME = re.compile(rb"[a-z0-9._-]{1,32}")  # of a book
LOCKED, MUST_CHANGE = b"!", b"~"  # the marks of an account, in this order before its record
LACKS = (b"absent", b"noaccount")  # the answers for an account without a record, and for no account
LATER = b"later"  # the beginning of the answer to a try that is too early
UNLOCKED = b"unlocked"  # the answer to `unlock`
EARLY = re.compile(rb"later ([1-9][0-9]{0,2})")  # the whole answer, with the remaining seconds
LONGEST_WAIT = 900  # seconds
NO_RECORD = b"none"  # `show`'s answer for an account without a record
NO_ACCOUNT = b"bad 5 noaccount"
RETRY_SECONDS = 1.0  # seconds between a failed start of a process and the next one
REST = 1.5  # as a share of the time of a round of changes
LONGEST_REST = 0.1  # seconds


def password_of(field: bytes) -> Optional[bytes]:
    """Returns the password in a field of a line, or None if the field isn't that of a password."""
    if field == b"-":
        return b""
    try:
        password = base64.b64decode(field + b"=" * (-len(field) % 4), validate=True)
    except ValueError:
        return None
    return password if field_of(password) == field else None


def field_of(password: bytes) -> bytes:
    """Returns the field with this password in a line."""
    return base64.b64encode(password).rstrip(b"=") or b"-"


def seconds_to_wait(answer: bytes) -> int:
    """Returns the remaining seconds in the answer to a try that was too early, or 0 for any other
    answer."""
    early = EARLY.fullmatch(answer)
    return int(early[1]) if early else 0


def is_answer(text: bytes) -> bool:
    """Whether the book can have sent this text: printable ASCII, with its seconds after `later`."""
    if not re.fullmatch(rb"[ -~]+", text):
        return False
    return text.split(b" ")[0] != LATER or 0 < seconds_to_wait(text) <= LONGEST_WAIT


def has_record(row: bytes) -> bool:
    """Whether a row has a record, possibly after marks."""
    return row.lstrip(LOCKED + MUST_CHANGE).startswith(b"$")


class Process(asyncio.SubprocessProtocol):
    """A process of `credkeep FILE serve --tagged`, which answers in any order."""

    def __init__(self) -> None:
        self.tags = itertools.count(1)
        self.pending = dict[bytes, asyncio.Future[bytes]]()  # answers, by their tags
        self.rest = b""  # the beginning of a line that the process is writing
        self.ended: asyncio.Future[int] = asyncio.get_running_loop().create_future()

    def connection_made(self, transport: Any) -> None:
        self.transport = transport
        self.stdin = transport.get_pipe_transport(0)

    def ask(self, words: tuple[bytes, ...], answer: asyncio.Future[bytes]) -> None:
        """Sends a line to the process; the future receives the answer, or UNAVAILABLE if the
        process ends first."""
        if self.ended.done():
            answer.set_result(UNAVAILABLE)
            return
        tag = b"%d" % next(self.tags)
        self.pending[tag] = answer
        self.stdin.write(b"%b %b\n" % (tag, b" ".join(words)))

    def pipe_data_received(self, _: int, data: bytes) -> None:
        """Passes on the answers of the process, and kills it if an answer doesn't end."""
        *lines, self.rest = (self.rest + data).split(b"\n")
        for line in lines:
            tag, _space, text = line.partition(b" ")
            if answer := self.pending.pop(tag, None):
                answer.set_result(text if is_answer(text) else UNAVAILABLE)
                if not is_answer(text):
                    log_seldom("misread", "the book sent an unknown answer")
            else:
                log_seldom("the book", "the book answered a line that nobody sent")
        if len(self.rest) > LONGEST_ANSWER:
            self.kill()

    def connection_lost(self, _: object) -> None:
        """Refuses the open lines; asyncio calls this method after the process's end and its last
        output."""
        status = self.transport.get_returncode()
        self.ended.set_result(status if status >= 0 else 128 - status)
        for answer in self.pending.values():
            answer.set_result(UNAVAILABLE)
        self.pending.clear()

    def end(self) -> None:
        """Lets the process answer its open lines, close the file, and end."""
        self.stdin.close()

    def kill(self) -> None:
        """Kills the process. asyncio's own call might lose the status."""
        if self.transport.get_returncode() is None:
            with suppress(ProcessLookupError):
                os.kill(self.transport.get_pid(), signal.SIGKILL)


class Book:
    """The book's answers, which come from successive processes: only one process can open the file.

    While another program has the file open (`lent`), lines wait for the next process.
    """

    def __init__(self, command: list[str], prepare: Callable[[], Awaitable[None]]) -> None:
        self.command = command
        self.prepare = prepare  # what the next process needs after it has opened the file
        self.process: Optional[Process] = None  # answers lines; None during a loan
        self.living = set[Process]()
        self.status = 0  # the status of the last process that ended
        self.waiting = list[tuple[tuple[bytes, ...], asyncio.Future[bytes]]]()
        self.is_down = False  # the last process couldn't start, so no line waits for the next one
        self.is_ending = False  # the server starts no more processes
        self.opened = 0.0  # the moment since which no line has waited for a process
        self.lent_at = 0.0  # the beginning of the last loan
        # The last process's status, once that process ends by itself or the server ends.
        self.ended: asyncio.Future[int] = asyncio.get_running_loop().create_future()

    async def open(self) -> None:
        """Starts the book's first process."""
        self.hand_over_to(await self.start_process())

    async def start_process(self) -> Process:
        """Starts a process in its own session: signals of a terminal go only to the server."""
        loop, process = asyncio.get_running_loop(), Process()
        await loop.subprocess_exec(
            lambda: process, *self.command, stderr=None, start_new_session=True
        )
        self.living.add(process)
        process.ended.add_done_callback(lambda ended: self.note_end(process, ended.result()))
        return process

    def note_end(self, process: Process, status: int) -> None:
        """Marks the book as ended if its present process ended by itself."""
        self.living.discard(process)
        self.status = status
        if process is self.process and not self.ended.done():
            self.ended.set_result(status)

    def hand_over_to(self, process: Process) -> None:
        """Sends the waiting lines, and from now on all lines, to a process."""
        self.process, self.is_down = process, False
        if process.ended.done():
            self.note_end(process, process.ended.result())
        self.opened = time.monotonic()
        waiting, self.waiting = self.waiting, []
        for words, answer in waiting:
            process.ask(words, answer)

    def ask(self, *words: bytes) -> asyncio.Future[bytes]:
        """Sends a line. The result is the answer, or UNAVAILABLE if the book ends before it
        answers."""
        answer: asyncio.Future[bytes] = asyncio.get_running_loop().create_future()
        if self.process is not None:
            self.process.ask(words, answer)
        elif self.is_down or self.is_ending:
            answer.set_result(UNAVAILABLE)
        else:
            self.waiting.append((words, answer))
        return answer

    def row(self, name: bytes) -> asyncio.Future[bytes]:
        """Asks for an account's marks followed by its record, or NO_RECORD. The answer may be the
        refusal of `show`."""
        return self.ask(b"show", name)

    def is_lent(self, seconds: float) -> bool:
        """Whether another program has had the book's file for less than this many seconds."""
        return self.process is None and time.monotonic() < self.lent_at + seconds

    def has_ended(self) -> bool:
        """Whether the book has ended, or is about to."""
        return self.ended.done() or self.is_ending

    @asynccontextmanager
    async def lent(self) -> AsyncIterator[int]:
        """Lends the file to one user at a time, while no process has it open.

        The process answers its open lines and ends, and the block receives its status. New lines
        wait for the next process, which opens the file after the loan.
        """
        process, self.process = self.process, None
        assert process is not None
        self.lent_at = time.monotonic()
        process.end()
        try:
            yield await asyncio.shield(process.ended)
        finally:
            await self.reopen()

    async def reopen(self) -> None:
        """Starts processes until one of them answers, or the server ends. If the first process
        doesn't answer, the book refuses all waiting lines."""
        while not self.is_ending:
            if process := await self.process_that_answers():
                await self.prepare()
                self.hand_over_to(process)
                return
            self.is_down = True
            self.refuse_waiting()
            log_seldom("reopen", "the server can't reopen the book, and retries each second")
            await asyncio.sleep(RETRY_SECONDS)
        self.refuse_waiting()
        if not self.ended.done():
            self.ended.set_result(self.status)

    async def process_that_answers(self) -> Optional[Process]:
        """Starts a process, and returns it once it has answered a line, and so opened the file, or
        None."""
        try:
            process = await self.start_process()
        except OSError as fault:
            log_seldom(("reopen", fault.errno), "%s: %s", self.command[0], fault.strerror)
            return None
        answer: asyncio.Future[bytes] = asyncio.get_running_loop().create_future()
        process.ask((b"show", b"-"), answer)
        if await answer != UNAVAILABLE:
            return process
        process.kill()
        await process.ended
        return None

    def refuse_waiting(self) -> None:
        waiting, self.waiting = self.waiting, []
        for _, answer in waiting:
            answer.set_result(UNAVAILABLE)

    def end(self) -> None:
        """Lets the book's process end in order, and starts no new one."""
        self.is_ending = True
        self.refuse_waiting()
        for process in self.living:
            process.end()

    def kill(self) -> None:
        for process in self.living:
            process.kill()


class Places:
    """Places that users get in turn: the user with the fewest places gets the next one."""

    def __init__(self, count: int) -> None:
        self.free = count
        self.taken = Counter[Hashable]()  # for each user
        # The waiting users, in the order of their next turns, and the places for which they wait.
        self.users = OrderedDict[Hashable, deque[asyncio.Future[None]]]()

    def take(self, user: Hashable) -> asyncio.Future[None]:
        """Waits for a free place."""
        place: asyncio.Future[None] = asyncio.get_running_loop().create_future()
        if self.free > 1 and not self.users:
            self.give(user, place)
        else:
            self.users.setdefault(user, deque()).append(place)
            self.give_next()
        return place

    def give(self, user: Hashable, place: asyncio.Future[None]) -> None:
        """Gives a free place to a user."""
        if not place.cancelled():  # when the server ends
            self.free -= 1
            self.taken[user] += 1
            place.set_result(None)

    def release(self, user: Hashable) -> None:
        """Frees a place, and gives it to the next user."""
        self.free += 1
        self.taken[user] -= 1
        self.give_next()

    def give_next(self) -> None:
        """Assigns the free places to the users whose turn it is."""
        while self.free and self.users:
            user = min(self.users, key=self.taken.__getitem__)
            if self.free == 1 and self.taken[user]:
                return  # the last one is for another user
            waiting = self.users.pop(user)
            self.give(user, waiting.popleft())
            if waiting:
                self.users[user] = waiting  # the user's next turn comes after the others'


class Rounds:
    """Runs changes in rounds while users log in. A round runs all waiting changes that hash, and at
    most one other change, and a rest follows."""

    def __init__(self, book: Book, is_busy: Callable[[], bool]) -> None:
        self.book = book
        self.is_busy = is_busy  # whether somebody logs in
        self.gate = asyncio.Event()  # set while no round runs or rests
        self.gate.set()
        self.running = 0  # changes in this round

    async def ask(self, words: list[bytes], is_alone: bool) -> bytes:
        """Runs a change, at once or in the round that has room for it, and returns the answer."""
        while self.is_busy() and not self.gate.is_set():
            await self.gate.wait()
            if not is_alone:
                break
        self.gate.clear()
        began = time.monotonic()
        self.running += 1
        answer = await self.book.ask(*words)
        self.running -= 1
        if not self.running:
            took = time.monotonic() - began if self.is_busy() else 0.0
            rest = min(REST * took, LONGEST_REST)
            asyncio.get_running_loop().call_later(rest, self.end_rest)
        return answer

    def end_rest(self) -> None:
        """Begins the next round."""
        if not self.running:  # otherwise the end of that round begins another rest
            self.gate.set()
