"""Moves the marks that earlier versions of the server kept beside the book into the book."""

from __future__ import annotations

import asyncio
import os
from typing import TYPE_CHECKING

from .book import LACKS, LOCKED, MUST_CHANGE, NAME, UNAVAILABLE
from .journal import Marks, Problem, log

if TYPE_CHECKING:
    from .service import Service

# For each operation that sets a mark of the book: the mark, and the answer.
MARK_OF = {b"lock": LOCKED, b"expire": MUST_CHANGE}
ANSWER_OF = {b"lock": b"locked", b"expire": b"expired"}


async def take_in(service: Service) -> None:
    """Writes the marks of FILE-locks to the book, and then removes the file.

    After a fault, or a kill at any moment, the file still exists, and the next start repeats this
    step. The sockets open only after this step, so nobody can have changed a mark.
    """
    path = f"{service.options.file}-locks"
    if not os.path.lexists(path):
        return
    marks = Marks(path)
    taken = list[bool]()
    try:
        for name, word in sorted(marks.pairs):
            if word in MARK_OF:
                taken.append(await has_taken(service, name, word))
        os.unlink(path)
        marks.sync_name()
    finally:
        if os.path.lexists(path):
            log.error("%s stays: the book lacks some of its marks, so the server can't start", path)
    log.info("removed %s: %d of its marks are now in the book", path, sum(taken))
    if lacking := len(taken) - sum(taken):
        log.warning("dropped %d of its marks: their names have no account, or no record", lacking)


async def has_taken(service: Service, name: bytes, word: bytes) -> bool:
    """Writes the mark of an operation to the book. Returns False if the name has no account, or if
    the account lacks the record that the mark needs."""
    if not NAME.fullmatch(name):  # such as one that is too long for a line
        return False
    row = await asyncio.shield(service.book.row(name))
    if MARK_OF[word] in row.partition(b"$")[0]:
        return True
    if not await service.has_room():
        raise Problem("the book's disk has no room for a mark")
    answer = await ask(service, word, name)
    if answer in LACKS:
        answer = await mark_in_old_file(service, name, word) or answer
    if answer != ANSWER_OF[word] and answer not in LACKS:
        raise Problem(f"the book answered {word.decode()} by {answer.decode()!r}")
    return answer == ANSWER_OF[word]


async def mark_in_old_file(service: Service, name: bytes, word: bytes) -> bytes:
    """Marks a user who is only in an old htpasswd file; for any other name, the answer is empty."""
    if not service.foreign or not (await service.foreign.file.line(name)).record:
        return b""
    if word == b"expire":
        return b"expired" if await service.foreign.file.expire(name) else UNAVAILABLE
    await ask(service, b"account", name)
    return await ask(service, word, name)


async def ask(service: Service, *words: bytes) -> bytes:
    """Returns the book's answer, even if the server cancels the start meanwhile."""
    return await asyncio.shield(service.book.ask(*words))
