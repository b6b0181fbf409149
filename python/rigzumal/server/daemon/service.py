"""The requests of clients: their rights, their turns at the book, and their entries in the audit
log."""

import asyncio
import json
import os
import random
import time
from collections import deque
from collections.abc import Coroutine
from dataclasses import dataclass, replace
from typing import TYPE_CHECKING, Any, Optional

from .book import LACKS, LATER, LOCKED, MUST_CHANGE, NO_ACCOUNT, NO_RECORD, UNAVAILABLE, UNLOCKED
from .book import Book, Places, Rounds, password_of, seconds_to_wait
from .clients import LONG, LONGEST, Client
from .disk import FULL, NEEDED, LogRoom, has_room
from .doors import Door
from .journal import AuditLog, log_seldom, utc
from .names import Names
from .options import Options
from .protocol import ANSWERS, NO_ANSWER, OPERATIONS, RIGHT, Operation
from .tally import Tally
from .transfers import Transfers

if TYPE_CHECKING:
    from .foreign import Foreign

DENIED = b"denied"
SHORT = b"short"
# The answers to `known`, by the beginning of a row.
KNOWN = {b"$": b"yes", LOCKED: b"absent", MUST_CHANGE: b"expired"}
KNOWN |= {NO_RECORD: b"absent", NO_ACCOUNT: b"noaccount"}
TURNS = 8  # places for lines in a pass of the event loop
LOOKS, CHANGES = 16, 128  # places for lines that change nothing, and for quick changes
SYNC_SECONDS = 0.01  # seconds that a change waits for the disk, about
REFUSALS = (b"noaccount", b"bad ", LATER)  # these change nothing; a name may be a password
MOST_LOGINS_TIMED = 16


@dataclass(eq=False)
class Request:
    """A client's request, and the places for which it waits."""

    client: Client
    tag: bytes
    words: list[bytes]  # the operation and its fields
    places: Places

    @property
    def word(self) -> bytes:
        """The word of the operation."""
        return self.words[0]

    @property
    def operation(self) -> Operation:
        return OPERATIONS[self.words[0]]

    @property
    def name(self) -> str:
        """The account's name."""
        return self.words[1].decode(errors="replace")


class Service:
    """The book, its doors, and the rights and turns of clients."""

    def __init__(self, options: Options) -> None:
        self.options = options
        self.names = Names(options)
        # The files that a change writes, and their folders: SQLite writes beside the book.
        files = filter(None, (options.file, options.audit))
        self.folders = {path: os.path.dirname(os.path.realpath(path)) for path in files}
        self.log_room = LogRoom(os.path.realpath(options.file))
        self.book = Book(options.book_words(), self.log_room.renew)
        self.tally = Tally(options)
        self.turns = Places(TURNS)
        self.hashes = Places(options.workers())
        self.changes = Places(CHANGES)
        self.looks = Places(LOOKS)
        self.logins = 0  # the logins that wait for the book's answer
        self.rounds = Rounds(self.book, lambda: self.logins > 0)
        self.hash_seconds = 1.0  # the time of a hash if nothing else waits
        self.login_seconds = deque[float](maxlen=MOST_LOGINS_TIMED)  # the times of the last logins
        self.timing: Optional[asyncio.Future[Any]] = None  # the hashes of the start
        self.clients = dict[Client, asyncio.Task[None]]()
        self.accepting = list[asyncio.Task[None]]()  # a task for each door
        self.tasks = set[asyncio.Task[None]]()  # a task for each request
        self.audit = AuditLog(options.audit)
        if options.audit:
            self.audit.append(b"")  # opens it now, so that a fault ends the start
        self.upgrading = asyncio.Lock()
        self.transfers = Transfers(self)
        self.answer = self.ask  # or an old file's, if the book lacks the name
        self.foreign: Optional["Foreign"] = None
        if options.foreign:
            from .foreign import Foreign  # this needs passlib

            self.foreign = Foreign(self, options.foreign)
            self.answer = self.foreign.answer

    # ---- a request arrives

    def submit(self, client: Client, tag: bytes, words: list[bytes]) -> bytes:
        """Begins to process a request, or returns the server's own answer."""
        while len(words) < 2:  # an operation, and at least one field
            words.append(b"")
        if what := why_denied(client.door, words):
            self.tell_denied(client, what)
            return DENIED
        operation = OPERATIONS[words[0]]
        if operation.is_transfer:
            return self.transfers.submit(Request(client, tag, words, self.changes))
        words = self.with_names_of_book(words)
        if answer := self.own_answer(words):
            return answer
        client.running += 1
        self.begin(self.process(Request(client, tag, words, self.places_for(operation))))
        return b""

    def begin(self, answering: Coroutine[Any, Any, None]) -> None:
        """Begins a task, for whose end the server waits before it exits."""
        task = asyncio.ensure_future(answering)
        self.tasks.add(task)
        task.add_done_callback(self.tasks.discard)

    def tell_denied(self, client: Client, what: str) -> None:
        self.tally.counts["denied"] += 1
        values = (client.door.name, client.uid, what)
        log_seldom(values, "denied at %s to uid %d: %s", *values)

    def with_names_of_book(self, words: list[bytes]) -> list[bytes]:
        """Returns the words of a request, with names in the book's form."""
        word, *fields = words
        count = OPERATIONS[word].names
        return [word, *map(self.names.of_book, fields[:count]), *fields[count:]]

    def own_answer(self, words: list[bytes]) -> bytes:
        """Returns the server's own answer to a request that the book needn't answer, or nothing."""
        operation = OPERATIONS[words[0]]
        if len(b" ".join(words)) + 1 > LONGEST:  # with names that became longer
            return LONG
        if operation.is_own:
            return self.tally.answer(words[0], words[1].decode(errors="replace")).encode()
        if 0 < operation.new < len(words):
            return self.answer_to_new_password(words[operation.new])
        return b""

    def answer_to_new_password(self, field: bytes) -> bytes:
        """Returns the answer to a refused new password, or nothing for any other password, and for
        a field that isn't a password."""
        password = password_of(field)
        if password is None:  # which the book refuses
            return b""
        length = len(password.decode(errors="surrogateescape"))
        return SHORT if length < self.options.least_length else b""

    def places_for(self, operation: Operation) -> Places:
        """Returns the places for which a request waits: those of hashes, changes or looks."""
        is_quick = operation.changes and self.hash_seconds <= SYNC_SECONDS
        if operation.hashes and not is_quick:
            return self.hashes
        return self.changes if operation.changes else self.looks

    # ---- the server answers the request

    async def process(self, request: Request) -> None:
        """Answers a request, and records the answer in the audit log. The server records a change
        before the client gets the answer, and a login afterwards, so that a slow disk delays no
        login."""
        client, operation = request.client, request.operation
        answer = await self.answer_in_turn(request)
        if seconds := seconds_to_wait(answer):
            answer = LATER
        # Without the record that a `disable` shows.
        noted = b"disabled" if operation.changes and b":" in answer else answer
        self.tally.count(operation, request.name, noted.decode(), seconds)
        if seconds:
            # `later` takes the time of a hash, as does the answer to a name that the book lacks.
            await asyncio.sleep(random.choice(self.login_seconds or [self.hash_seconds]))
        if operation.changes and not await self.note(request, noted):
            answer = UNAVAILABLE  # no answer reports a change that the audit log lacks
        await client.reply(request.tag, answer, seconds)
        client.running -= 1
        client.answered.set()
        if not operation.changes:
            await self.note(request, noted)
        if answer == b"yes" and self.options.upgrade and request.word == b"verify":
            await self.upgrade(request)

    async def answer_in_turn(self, request: Request) -> bytes:
        """Answers a request once it has a place. Returns nothing if the request changes nothing and
        its client has ended by then."""
        client, came = request.client, time.monotonic()
        async with client.queues[request.places]:  # one of its requests waits at a time
            await request.places.take(client.user)
        self.tally.waited += time.monotonic() - came
        try:
            if not request.operation.changes and client.has_gone():
                return b""
            return await self.answer_if_room(request)
        finally:
            request.places.release(client.user)

    async def answer_if_room(self, request: Request) -> bytes:
        """Answers a request. The server doesn't try a change if the disks have no room, or if
        so many lines wait for the audit log that the server can't record the change."""
        if request.operation.changes and self.audit.is_full():
            return UNAVAILABLE
        if request.operation.changes and not await self.has_room():
            return FULL
        return await self.answer(request)

    async def has_room(self) -> bool:
        """Whether a change has room: without room, a change would end the book, or lack a record in
        the audit log."""
        return self.has_free_space() and await self.log_room.allocate()

    def has_free_space(self) -> bool:
        """Whether the disks have enough free space for changes."""
        full = [path for path, folder in self.folders.items() if not has_room(folder)]
        for path in full:
            text = "%s: its disk has less than %d KiB left, so the server refuses changes"
            log_seldom(("disk", path), text, path, NEEDED // 1024)
        return not full

    # ---- the server asks the book

    async def ask(self, request: Request) -> bytes:
        """Returns the book's answer to a request."""
        word, *fields = request.words
        if word in (b"known", b"show") and len(fields) == 1:
            row = await self.book.row(*fields)
            return row if word == b"show" else answer_to_known(row)
        if request.operation.tries and not request.operation.changes:
            is_upgrading = word == b"login" and await self.has_room()
            return await self.log_in(b"login" if is_upgrading else b"verify", *fields)
        if request.places is self.changes:
            is_alone = not request.operation.hashes
            answer = await self.rounds.ask(request.words, is_alone=is_alone)
        else:
            answer = await self.book.ask(*request.words)
        if answer == UNLOCKED:
            await self.book.ask(b"forgive", *fields)  # each try at the locked account has failed
        return answer

    async def log_in(self, *words: bytes) -> bytes:
        """Returns the answer to a login. The fastest login with a name that the book lacks measures
        the time of a hash at the costs of new records."""
        began = time.monotonic()
        self.logins += 1
        answer = await self.book.ask(*words)
        self.logins -= 1
        seconds = time.monotonic() - began
        if began < self.book.opened:  # it waited for an import
            return answer
        if answer in (b"yes", b"no", *LACKS):
            self.login_seconds.append(seconds)
        if answer in LACKS:
            self.hash_seconds = min(seconds, 1.01 * self.hash_seconds)
        return answer

    async def ask_besides(self, request: Request, *words: bytes) -> bytes:
        """Sends the book an additional line of a request, and returns the answer. The audit log
        gets that line too."""
        answer = await self.book.ask(*words)
        await self.note(replace(request, words=list(words)), answer)
        return answer

    async def end_waits(self) -> None:
        """Ends the waits after failed tries that the book's last process counted."""
        self.tally.end_waits(self.foreign.rest if self.foreign else lambda _: 0)
        if self.foreign:
            await self.foreign.end_waits()

    async def upgrade(self, request: Request) -> None:
        """After a right password, upgrades a record with other costs; upgrades run one at a
        time."""
        if self.upgrading.locked() or not await self.has_room():
            return
        async with self.upgrading:
            name, password = request.words[1:3]
            record = await self.book.ask(b"show", name)
            costs = f"{self.options.upgrade}$".encode()
            if record.startswith(b"$") and not record.startswith(costs):
                answer = await self.ask_besides(request, b"upgrade", name, password)
                self.tally.counts["upgraded"] += answer == b"upgraded"

    # ---- the audit log

    async def note(self, request: Request, answer: bytes) -> bool:
        """Adds a request to the audit log, if the log records its answer. Returns False if the
        write fails."""
        if not self.audit.path or not self.is_noted(request, answer):
            return True
        client, (word, *fields) = request.client, request.words
        entry: dict[str, Any] = {"time": utc(), "door": client.door.name}
        entry.update(uid=client.uid, pid=client.pid, operation=word.decode())
        for key, name in zip(("name", "new_name"), fields[: request.operation.names]):
            is_name_hidden = answer.startswith(REFUSALS)
            entry[key] = None if is_name_hidden else name.decode(errors="replace")
        entry["answer"] = answer.decode()
        return await self.audit.add(json.dumps(entry).encode())

    def is_noted(self, request: Request, answer: bytes) -> bool:
        """Whether the audit log records such an answer."""
        operation = request.operation
        if operation.is_transfer:
            return True
        if operation.changes and not answer.startswith(REFUSALS):
            return True
        if not operation.tries:
            return False
        tried = ANSWERS.get(answer.decode(), NO_ANSWER).tried
        return tried == RIGHT or bool(tried) and self.options.audit_tries


def answer_to_known(row: bytes) -> bytes:
    """Returns the answer to `known`, from an account's row, or the row itself if it is a
    refusal."""
    for begin, answer in KNOWN.items():
        if row.startswith(begin):
            return answer
    return row


def why_denied(door: Door, words: list[bytes]) -> str:
    """Returns the part of a request that its socket doesn't allow, in words for the log, or an
    empty text."""
    word = words[0]
    if word not in OPERATIONS:
        return "an unknown operation"
    if word not in door.operations:
        return word.decode()
    is_setting_given = 0 < OPERATIONS[word].setting < len(words)
    if is_setting_given and b"load" not in door.operations:  # only administrators may set costs
        return f"{word.decode()} with a setting"
    return ""
