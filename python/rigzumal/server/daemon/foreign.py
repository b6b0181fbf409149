"""Users of an htpasswd file, who move into the book when they enter their right passwords."""

import asyncio
from collections.abc import Collection
from contextlib import AsyncExitStack
from dataclasses import replace
from secrets import token_urlsafe
from typing import BinaryIO
from weakref import WeakValueDictionary

from .aging import Line, today
from .book import LACKS, LATER, LOCKED, NO_ACCOUNT, NO_RECORD, UNAVAILABLE, UNLOCKED
from .book import field_of, has_record, password_of
from .old_file import OldFile
from .schemes import is_right
from .service import Request, Service
from .transfers import memory_file
from .tries import Tries

# Answers to a password that leave a record in the book.
HAS_RECORD = (b"yes", b"expired", b"same", b"replaced", b"upgraded", b"kept", b"enrolled")
# The answers to operations that add a name, if the file has the name.
IF_NAME_IS_TAKEN = {b"account": b"bad 1 exists", b"rename": b"exists"}
ENDS_RECORD = (b"disable", b"delete", b"rename", b"remove")  # these leave no record
MARKS = (b"lock", b"unlock", b"expire")
EXPIRED, FORGIVEN = b"expired", b"forgiven"  # the answers to `expire` and `forgive`
NAMES_AT_ONCE = 1000  # names to look for in the book at once


class Foreign:
    """Decides whether the file or the book checks a user's password."""

    def __init__(self, service: Service, path: str) -> None:
        self.service = service
        self.file = OldFile(path, service.names)
        self.tries = Tries(service.options.tries)
        self.locks = WeakValueDictionary[bytes, asyncio.Lock]()  # one for each name's requests

    async def answer(self, request: Request) -> bytes:
        """Returns the answer to a wrong password if the file bars the user, otherwise the answer of
        the book or the file."""
        if request.word == b"list":
            return await self.service.ask(request)
        if request.word == b"marks":
            return await self.page_of_marks(request)
        if request.word == b"forgive":
            return await self.forgive(request)
        if not request.operation.tries and request.word not in (b"known", b"show"):
            answer = await self.answer_unbarred(request)
            if answer == UNLOCKED:
                self.tries.forgive(request.words[1])
            return answer
        name, question = request.words[1], request
        is_barred = await self.file.bars(name)
        if is_barred and request.operation.tries:
            # Such a try takes as many hashes as a wrong password, counts as one, and changes
            # nothing.
            question = replace(request, words=with_wrong_password(request.words))
        answer = await self.answer_unbarred(question)
        if is_barred or await self.file.bars(name):  # the file may have changed
            return answer_to_barred(request, answer)
        return answer

    async def page_of_marks(self, request: Request) -> bytes:
        """Returns a page of `marks`, with a lock for users whom the file bars."""
        page = await self.service.ask(request)
        word, *items = page.split(b" ")
        if word != b"marks":
            return page
        first, count = request.words[1], int(request.words[2])
        rows = dict[bytes, bytes]()
        for item in items:
            name, _, marks = item.partition(b":")
            rows[name] = marks
        last = max(rows) if len(items) == count else b""  # none on the last page
        for name in await self.file.barred():
            if first <= name and (not last or name <= last):
                rows[name] = row_with_lock(rows.get(name, b""))
        names = sorted(rows)[:count]
        return b" ".join([word, *(b"%b:%b" % (name, rows[name]) for name in names)])

    async def forgive(self, request: Request) -> bytes:
        """Clears the failed tries at a name, both in the book and for the file."""
        name = request.words[1]
        answer = await self.service.ask(request)
        if answer == b"noaccount" and (await self.file.line(name)).record:
            answer = FORGIVEN
        if answer == FORGIVEN:
            self.tries.forgive(name)
        return answer

    def rest(self, name: str) -> int:
        """Returns the remaining seconds of the wait for a user whom the file decides about."""
        return self.tries.rest(name.encode(errors="replace"))

    async def note_records(self) -> bool:
        """Notes that each name with a record in the book has moved, however the book got the
        record. If the record goes, the file's must not count again. Returns False if a note
        fails."""
        names, are_noted = await self.file.unmoved(), True
        for at in range(0, len(names), NAMES_AT_ONCE):
            noted = await asyncio.gather(*map(self.note_record, names[at : at + NAMES_AT_ONCE]))
            are_noted = are_noted and all(noted)
        return are_noted

    async def note_record(self, name: bytes) -> bool:
        """Notes that a name has moved if the book has its record. Returns False if that fails."""
        async with self.locks.setdefault(name, asyncio.Lock()):
            if not has_record(await self.service.book.row(name)):
                return True
            if self.file.is_expired(name) and not await self.has_expired(name):
                return False
            return await self.file.note_moved(name)

    async def has_expired(self, name: bytes) -> bool:
        """Marks an account in the book whose password must be changed, as HTPASSWD.moved says."""
        if not await self.service.has_room():
            return False
        return await self.service.book.ask(b"expire", name) == EXPIRED

    async def end_waits(self) -> None:
        """After an import, ends the waits of users who have a record in the book."""
        for name in list(self.tries.failed):
            if has_record(await self.service.book.row(name)):
                self.end_wait(name)

    def end_wait(self, name: bytes) -> None:
        """Clears a user's failed tries, since the file decides no further try."""
        if name in self.tries.failed:
            self.tries.forgive(name)
            self.service.tally.end_wait(name.decode(errors="replace"), "the book decides now")

    async def with_locks(self, text: BinaryIO) -> BinaryIO:
        """Returns an export, with a lock for users whom the file bars."""
        return await asyncio.to_thread(with_locks, text, await self.file.barred())

    async def answer_unbarred(self, request: Request) -> bytes:
        """Returns the book's answer, or the file's if the book lacks the name. Requests for a name
        that the file may decide about run one after another."""
        word, name = request.words[:2]
        makes_name = word in IF_NAME_IS_TAKEN
        names = {name, request.words[-1]} if makes_name else {name}
        may_end = word in ENDS_RECORD and not self.file.has_moved(name)
        is_of_file = (await self.file.line(name)).record or self.file.is_expired(name)
        is_asked_about = any(each in self.locks for each in names)
        if not (makes_name or may_end or is_of_file or is_asked_about):
            return await self.service.ask(request)
        async with AsyncExitStack() as stack:
            for each in sorted(names):
                await stack.enter_async_context(self.locks.setdefault(each, asyncio.Lock()))
            answer = await self.answer_in_turn(request)
        return answer

    async def answer_in_turn(self, request: Request) -> bytes:
        """Answers a request while no other request for its names runs."""
        word, name = request.words[:2]
        if word in IF_NAME_IS_TAKEN and (await self.file.line(request.words[-1])).record:
            return IF_NAME_IS_TAKEN[word]
        line, row = await self.file.line(name), await self.service.book.row(name)
        if refusal := await self.prepare(request, line, row):
            return refusal
        is_try_of_file = request.operation.tries and line.record and not has_record(row)
        if is_try_of_file and (seconds := self.tries.rest(name)):
            return b"%b %d" % (LATER, seconds)
        answer = await self.service.ask(request)
        if not line.record:
            return answer
        if answer in LACKS:
            return await self.answer_of_file(request, line, answer)
        if word == b"load" and answer == b"ok":
            self.end_wait(name)
            await self.file.note_moved(name)
        await self.note_move(request, answer)
        return answer

    async def prepare(self, request: Request, line: Line, row: bytes) -> bytes:
        """Does the steps before the book's part. Returns the answer if the book needn't answer."""
        word, name = request.words[:2]
        if row == UNAVAILABLE or row.startswith(b"bad ") and row != NO_ACCOUNT:
            return row
        if word == b"rename" and line.record and not has_record(row):
            return b"noaccount"  # the file would decide, without a lock
        if has_record(row) and self.file.is_expired(name) and word not in (b"show", *MARKS):
            if refusal := await self.finish_move(request):
                return refusal
        if ends_record(word, row):
            if not await self.file.note_moved(name):
                return UNAVAILABLE  # otherwise the file decides, also once it is readable again
            self.end_wait(name)
        return b""

    async def finish_move(self, request: Request) -> bytes:
        """Finishes a move that a kill may have interrupted after `enrol`. Returns a refusal, if
        any."""
        name = request.words[1]
        answer = await self.service.ask_besides(request, b"expire", name)
        if answer != EXPIRED:
            return answer
        return b"" if await self.file.note_moved(name) else UNAVAILABLE

    async def note_move(self, request: Request, answer: bytes) -> None:
        """Notes that a name has moved, if the book has the name's record after this answer."""
        if request.operation.hashes and answer in HAS_RECORD:
            self.tries.forgive(request.words[1])
            await self.file.note_moved(request.words[1])

    async def answer_of_file(self, request: Request, line: Line, answer: bytes) -> bytes:
        """Answers a request for a user who is in the file but not in the book."""
        word, name = request.words[:2]
        if request.operation.tries:
            return await self.judge(request, line)
        if word == b"known":
            is_shut = line.why_shut(today()) or await self.is_locked(name)
            return b"absent" if is_shut else self.answer_to_known(name, line)
        if word == b"expire":
            return EXPIRED if await self.file.expire(name) else UNAVAILABLE
        if word == b"unlock":
            return b"none"
        if word == b"delete":
            return b"deleted"
        if word not in (b"lock", b"disable", b"reset"):
            return answer
        said = await self.service.ask_besides(request, b"account", name)
        if word == b"disable":
            return b"disabled"
        if said not in (b"ok", b"bad 1 exists"):
            return said
        answer = await self.service.ask(request)
        await self.note_move(request, answer)
        return answer

    def answer_to_known(self, name: bytes, line: Line) -> bytes:
        """Returns the answer to `known`, and to a right password, for a user whom nothing bars."""
        return b"expired" if self.file.must_change(name, line) else b"yes"

    async def is_locked(self, name: bytes) -> bool:
        return (await self.service.book.row(name)).startswith(LOCKED)

    async def judge(self, request: Request, line: Line) -> bytes:
        """Answers a try by the file's record; a right password moves its user."""
        name, password = request.words[1], password_of(request.words[2]) or b""
        is_password = await asyncio.to_thread(is_right, line.record, password)
        is_same = await self.file.line(name) == line  # as before that hash
        is_open = is_same and not await self.is_locked(name) and not line.why_shut(today())
        if not is_password or not is_open:
            self.tries.fail(name)
            return request.operation.wrong
        self.tries.forgive(name)
        is_login = not request.operation.changes
        if is_login and not await self.service.has_room():  # the user moves at a later login
            return self.answer_to_known(name, line)
        if refusal := await self.move(request, line):
            return refusal
        answer = await self.service.ask(request)
        await self.note_move(request, answer)
        return answer

    async def move(self, request: Request, line: Line) -> bytes:
        """Writes a user's record to the book, which then decides. Returns a refusal, if any.

        If the password must be changed, the call first notes that: a kill after `enrol` would leave
        a record without the mark. `finish_move` reads the note.
        """
        name, field = request.words[1:3]
        if line.must_change(today()) and not await self.file.expire(name):
            return UNAVAILABLE
        await self.service.ask_besides(request, b"account", name)
        answer = await self.service.ask_besides(request, b"enrol", name, field)
        if answer == b"exists":  # the account has got a lock or a record: the book decides
            return b""
        if answer == b"enrolled" and self.file.is_expired(name):
            answer = await self.service.ask_besides(request, b"expire", name)
        if answer not in HAS_RECORD:
            return answer
        await self.file.note_moved(name)
        return b""


def with_wrong_password(words: list[bytes]) -> list[bytes]:
    """Returns the words of a try with a password that nobody has. A field that the book would
    refuse stays unchanged.

    A long password keeps its length, and one with a NUL gets a NUL. Some old schemes don't hash a
    password that is too long or has a NUL.
    """
    operation, name, *fields = words
    password = password_of(fields[0]) if fields else None
    if password is None:
        return words
    nobodys = token_urlsafe(18).encode()
    if b"\0" in password:
        nobodys = nobodys[:-1] + b"\0"
    return [operation, name, field_of(nobodys + password[len(nobodys) :]), *fields[1:]]


def ends_record(word: bytes, row: bytes) -> bool:
    """Whether an operation removes the record of a row, or the lock of a row without a record."""
    if word == b"rename":
        return has_record(row) or row.startswith(LOCKED)
    if word == b"remove":
        return has_record(row)
    return word in (b"disable", b"delete")


def row_with_lock(row: bytes) -> bytes:
    """Returns the row with an added lock, even if the record or the account is missing; other
    refusals stay unchanged."""
    if row in (NO_ACCOUNT, NO_RECORD):
        return LOCKED
    if row.startswith((b"bad ", LOCKED)) or row == UNAVAILABLE:
        return row
    return LOCKED + row


def with_locks(text: BinaryIO, names: Collection[bytes]) -> BinaryIO:
    """Returns the lines of an export, with a lock for these names."""
    locked = memory_file()
    text.seek(0)
    for line in text:
        name, colon, row = line.partition(b":")
        locked.write(name + colon + row_with_lock(row) if name in names else line)
    return locked


def answer_to_barred(request: Request, answer: bytes) -> bytes:
    """Returns the answer for a user whom the file bars, instead of this one."""
    if request.word == b"show":
        return row_with_lock(answer)
    if answer not in (b"yes", b"no", b"expired"):
        return answer
    return b"absent" if request.word == b"known" else request.operation.wrong
