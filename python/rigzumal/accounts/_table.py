"""Does the work of operations on one connection.

A change is a single statement that commits, if the engine has such a statement and the row shows
afterwards whether it took effect. Otherwise the change is a transaction: the comparison, a read of
the new record, COMMIT.
"""

from __future__ import annotations

import secrets
import uuid
from collections.abc import Callable, Container, Sequence
from dataclasses import dataclass
from typing import Any, Final, NamedTuple, NoReturn, Optional, Union

from rigzumal.accounts._running import RUNNING, Also, runs_on
from rigzumal.accounts._session import Hook, HookFailed, Session
from rigzumal.accounts.dialects._dialect import ANOTHER_RECORD, NOT_NULL, Dialect
from rigzumal.accounts.dialects._dialect import Verdict, is_of_driver
from rigzumal.accounts.dialects._faults import Fault, Severity
from rigzumal.accounts.types import NO_ROW, Answer, Copy, Key, Kind, Reply, Request
from rigzumal.accounts.types import StoreFault, Ticket, Unavailable, Worked

ENDED: Final = (
    "`also` has ended the operation's transaction, closed its connection, or swallowed an"
    " error that made the transaction fail"
)
WROTE: Final = "`also` has changed the account's own record"
NESTED: Final = (
    "`also` called an operation on the same table, which can wait for the row that the outer"
    " operation locks: use the connection that `also` receives"
)


class Lost(Exception):
    """The connection is broken, and the job stored nothing; the cause gives the reason."""


class Broken(Exception):
    """The program sent COMMIT, but no answer arrived."""


@dataclass(frozen=True)
class Undone:
    """The job stored nothing, and the caller may repeat it."""

    cause: Optional[BaseException]
    reason: str = ""  # the reason for a missing connection, in words that quote no row


class _Put(NamedTuple):
    """A change in a trial."""

    reply: Reply
    after: Copy
    what: str  # the participle of the change, such as "written"


@dataclass
class Table:
    """The jobs on one table."""

    dialect: Dialect
    confirm: bool  # a COMMIT that writes confirms an operation without a change
    before_commit: Callable[[Worked], None]  # the table calls it before each COMMIT of a change
    pool: Any = None  # of the primary: accounts that share this pool are of one database

    def refuse_nested(self) -> None:
        """Refuses an operation inside an `also` on the same table."""
        if runs_on(self.pool, self.dialect.table):
            raise TypeError(NESTED)

    def writes(self, worked: Worked) -> bool:
        """Whether the operation writes, either a change or the same record again."""
        if worked.reply.makes_change:
            return True
        return self.confirm and worked.ticket.copy is not NO_ROW

    async def look(self, session: Session, key: Key) -> Copy:
        """Returns the present record."""
        self.dialect.fresh(session.conn)
        try:
            await self.dialect.prepare(session)
            return await self.one(session, self.dialect.select, key)
        except Exception as error:
            caught = error
        self._raise(session, caught)

    async def one(self, session: Session, sql: str, key: Key) -> Copy:
        """Returns the record that a statement reads, or NO_ROW for a key that the column can't
        store."""
        try:
            return _record((await session.execute(sql, key)).rows)
        except Exception as error:
            if not self.dialect.lacks_key(error, key):
                raise
        return NO_ROW

    async def change(
        self, session: Session, worked: Worked, also: Hook = None
    ) -> Union[Answer, Undone]:
        """Writes a change in one statement, or in a transaction that includes a caller's hook."""
        self.dialect.fresh(session.conn)
        done: Union[Answer, Undone, None] = None
        if also is None and self._is_of_one_statement(worked):
            done = await self._at_once(session, worked)
        return done or await self._transaction(session, worked, also)

    def _is_of_one_statement(self, worked: Worked) -> bool:
        """Whether one statement can write the change, if the engine has such a statement.

        If a change adds or removes a record, the row doesn't show afterwards who changed it. The
        library must therefore know whether a connection broke before COMMIT.
        """
        copy, after = worked.ticket.copy, worked.after
        both = isinstance(copy, str) and isinstance(after, str)
        return bool(self.dialect.at_once) and both and copy != after

    async def _at_once(self, session: Session, worked: Worked) -> Union[Answer, Undone, None]:
        """Writes a change in one statement. Returns None if only a transaction can show its
        outcome."""
        dialect, copy, after = self.dialect, worked.ticket.copy, worked.after
        is_sent = False
        try:
            await dialect.prepare(session)
            self.before_commit(worked)
            is_sent = True
            key = worked.ticket.request.key
            touched = await dialect.put_at_once(session, after, key, copy)
            return Answer(worked.reply, copy, after) if touched == 1 else None
        except Exception as error:
            caught = error
        if is_sent and dialect.refuses_at_once(caught):
            return None
        if is_sent and self._may_stand(caught):
            raise Broken() from caught
        return await self._undone(session, caught)

    def _may_stand(self, caught: Exception) -> bool:
        """Whether a driver's statement may have taken effect: not if the server gave it up."""
        return is_of_driver(caught) and not self.dialect.gave_up(caught)

    async def _transaction(
        self, session: Session, worked: Worked, also: Hook
    ) -> Union[Answer, Undone]:
        dialect, is_sent = self.dialect, False
        try:
            await dialect.prepare(session)
            await dialect.start(session)
            answer = await self._answer(session, worked, also)
            if answer.reply is Reply.CHANGED:
                # For example, a trigger has written a row that the server doesn't count.
                await dialect.undo(session)
                return answer
            if answer.reply.makes_change:
                self.before_commit(worked)
            is_sent = True
            await dialect.commit(session)
            return answer
        except Exception as error:
            caught = error
        if isinstance(caught, HookFailed):
            return await self._hook_failed(session, caught.error)
        if is_sent and self._may_stand(caught):
            wrote = answer.reply.makes_change or also is not None
            raise (Broken if wrote else Lost)() from caught
        return await self._undone(session, caught)

    async def _answer(self, session: Session, worked: Worked, also: Hook) -> Answer:
        """Calls a caller's hook with the reply, compares the record with the copy, and writes the
        change.

        The transaction locks the row during the hook. The method writes the record last, so that it
        writes nothing if the hook has ended the transaction.
        """
        if also is None:
            return await self.compare(session, worked)
        locked, key = self.dialect.locked, worked.ticket.request.key
        can_stand = self.dialect.can_stand(key)
        now = await self.one(session, locked, key) if can_stand else NO_ROW
        expected = judged(worked, now)
        if expected.reply is Reply.CHANGED:
            return expected
        await self.dialect.hold(session)
        outer, this = RUNNING.get(), Also(self.pool, self.dialect.table)
        try:
            RUNNING.set((*outer, this))
            await session.wait(also(session.conn, expected.reply))
        except Exception as error:
            raise HookFailed(error)
        finally:
            this.is_over = True
            RUNNING.set(outer)
        if not (self._is_open(session) and await self.dialect.is_held(session)):
            raise HookFailed(TypeError(ENDED))
        answer = await self.compare(session, worked)
        if answer.reply is not expected.reply:
            raise HookFailed(TypeError(WROTE))
        return answer

    def _is_open(self, session: Session) -> bool:
        """Whether a healthy transaction is open on a connection, which may itself be closed."""
        try:
            mode = self.dialect.mode(session.conn)
        except Exception:
            return False
        return mode.has_transaction and not mode.has_failed

    async def commit_in(self, session: Session, worked: Worked) -> Answer:
        """Compares the record and writes the change in a transaction that the caller begins and
        ends."""
        self.dialect.check_key(worked.ticket.request.key)
        await self.dialect.within(session)
        return await self.compare(session, worked)

    async def compare(self, session: Session, worked: Worked) -> Answer:
        """Compares the record with the copy, and writes the change, within an open transaction."""
        key, copy = worked.ticket.request.key, worked.ticket.copy
        dialect = self.dialect
        if not dialect.can_stand(key):
            return Answer(Reply.NO_ACCOUNT, NO_ROW, NO_ROW)
        if not self.writes(worked):
            return judged(worked, await self.one(session, dialect.locked, key))
        rows, count, _ = await dialect.put(session, worked.after, key, copy)
        if count == 0:
            # With a lock: a plain SELECT may read an old snapshot, which the UPDATE didn't.
            answer = judged(worked, await self.one(session, dialect.locked, key))
            if answer.reply is not worked.reply:
                return answer
            # NULL may have come back since the UPDATE, and the lock now keeps it.
            rows, count, _ = await dialect.put(session, worked.after, key, copy)
        if count == 0:
            raise StoreFault("the row still has its old record, which an UPDATE doesn't change")
        if count != 1:
            raise StoreFault(f"the UPDATE changed {count} rows instead of one")
        # A trigger, a short column or a character set may have altered the record.
        if not dialect.returns:
            rows = (await session.execute(dialect.select, key)).rows
        if _record(rows) != worked.after:
            raise StoreFault(ANOTHER_RECORD)
        return Answer(worked.reply, copy, worked.after)

    async def examine(self, session: Session, record: str, used: Container[Kind]) -> list[Fault]:
        """Returns the faults that only the engine or a trial shows. No catalogue shows a role that
        may not update, a rule that does nothing, or a CHECK that no record passes."""
        self.dialect.fresh(session.conn)
        found = await self.dialect.examine(session)
        faults = [*found.faults, *(() if self.confirm else found.unless_confirmed)]
        for place, fault in enumerate(faults):
            if fault.code == NOT_NULL and Kind.REMOVE in used:
                faults[place] = Fault(Severity.ERROR, fault.code, fault.text)
        puts = [_Put(Reply.REPLACED, record, "written")]
        if Kind.REMOVE in used and all(it.code != NOT_NULL for it in faults):
            puts.append(_Put(Reply.REMOVED, None, "removed"))
        text = await self._trial(session, puts) if found.is_usable else None
        return faults + ([Fault(Severity.ERROR, "no-update", text)] if text else [])

    async def _trial(self, session: Session, puts: Sequence[_Put]) -> Optional[str]:
        """Returns the reason why a row can't store one of these changes."""
        fault, put = None, puts[0]
        try:
            await self.dialect.start(session)
            key = await self._row(session)
            if key is None:
                await self._put_nowhere(session, put.after)
            else:
                # With a lock, so that nobody else's change comes between.
                copy = await self.one(session, self.dialect.locked, key)
                for put in puts:
                    ticket = Ticket(Request(Kind.RESET, key), copy)
                    answer = await self.compare(session, Worked(ticket, put.reply, put.after))
                    if answer.reply is not put.reply:
                        raise StoreFault("the server didn't count the row that it wrote")
                    await self.dialect.settle(session)
                    copy = put.after
        except StoreFault as raised:
            fault = str(raised)
        except Exception as raised:
            fault = f"no record can be {put.what}: {self.name(raised)}"
        await self._is_undone(session)
        return fault

    async def _put_nowhere(self, session: Session, record: Copy) -> None:
        """Runs an UPDATE of no row, which the server refuses if the role may not update."""
        key = unused_key(self.dialect.key_type)
        try:
            await self.dialect.put(session, record, key, None)
        except Exception as raised:
            # An enum has no value for an unused key, so an empty table with such a key shows
            # nothing.
            if not self.dialect.lacks_key(raised, key):
                raise

    async def _row(self, session: Session) -> Optional[Key]:
        """Returns the key of a new row, or of an existing one, or None if the table is empty and
        refuses a row."""
        dialect = self.dialect
        key = unused_key(dialect.key_type)
        try:
            await session.execute(dialect.insert, key)
            if await self.one(session, dialect.select, key) is not NO_ROW:
                return key
        except Exception:
            pass
        # The role may add no rows, rows need other columns too, or the server pads a key.
        await dialect.undo(session)
        await dialect.start(session)
        sql = dialect.alone(f"SELECT {dialect.key} FROM {dialect.table} LIMIT 1")
        found = await session.execute(sql)
        return found.rows[0][0] if found.rows else None

    async def _hook_failed(self, session: Session, error: Exception) -> Undone:
        """Rolls back after a caller's hook has raised this exception.

        The library repeats the operation only after errors of this connection: the hook may have
        used others, whose errors look the same.
        """
        verdict = Verdict.REFUSED
        if self.dialect.is_drivers(error):
            verdict = self.dialect.verdict(error)
        is_open = await self._is_undone(session)
        if verdict is Verdict.AGAIN and is_open:
            return Undone(error)
        if verdict is Verdict.REFUSED or (verdict is Verdict.LOST and is_open):
            raise HookFailed(error)
        self._raise_lost(session, error)

    async def _undone(self, session: Session, error: Exception) -> Undone:
        """Rolls back after an error, and then raises it, or returns Undone for another attempt."""
        verdict = self.dialect.verdict(error) if is_of_driver(error) else None
        is_kept = verdict is not Verdict.LOST and await self._is_undone(session)
        if verdict is Verdict.AGAIN and is_kept:
            return Undone(error)
        self._raise(session, error)

    async def _is_undone(self, session: Session) -> bool:
        """Rolls back if possible; the pool closes a connection on which a job raised an
        exception."""
        try:
            await self.dialect.undo(session)
        except Exception:
            return False
        return True

    def _raise_lost(self, session: Session, error: Exception) -> NoReturn:
        """Raises Lost, or Unavailable if the change would wait in vain for another connection."""
        is_elsewhere = self.dialect.verdict(error) is Verdict.ELSEWHERE
        if is_elsewhere and self.dialect.only_reads(session.conn):
            raise Unavailable(f"the database is set to read only: {self.name(error)}") from error
        raise Lost() from error

    def _raise(self, session: Session, error: Exception) -> NoReturn:
        """Raises the exception that an error means.

        The exception contains the error's kind and number, and its text only if a table, a column
        or a right is missing: other texts of a driver may quote the refused row, with the record.
        For the same reason the method runs outside the handler.
        """
        if not is_of_driver(error):
            raise error
        if self.dialect.verdict(error) is not Verdict.REFUSED:
            self._raise_lost(session, error)
        said = self.dialect.missing_name(error) or "see examine()"
        raise StoreFault(f"the server refused a statement: {self.name(error)}; {said}")

    def name(self, error: Optional[BaseException]) -> str:
        """Returns an error's kind and number, without its text."""
        number = "" if error is None else self.dialect.number(error)
        return f"{type(error).__name__} {number}".rstrip()


def judged(worked: Worked, now: Copy) -> Answer:
    """Returns the answer without a change, for the record that the statement found."""
    if now == worked.ticket.copy:
        return Answer(worked.reply, now, now)
    return Answer(Reply.NO_ACCOUNT if now is NO_ROW else Reply.CHANGED, now, now)


def _record(rows: list[tuple[Any, ...]]) -> Copy:
    """Returns the record of the row that the statement found, or NO_ROW if it found none."""
    if len(rows) > 1:
        raise StoreFault("more than one row has the key")
    if not rows:
        return NO_ROW
    if len(rows[0]) != 1:
        raise StoreFault(f"a row has {len(rows[0])} values instead of its record")
    (record,) = rows[0]
    if record is not None and not isinstance(record, str):
        raise StoreFault(f"the record is not text, but {type(record).__name__}")
    return record


def unused_key(kind: type) -> Key:
    """Returns a key that no row has."""
    number = uuid.uuid4()
    # A column of two bytes can hold this number.
    small = -1 - secrets.randbelow(30_000)
    keys: dict[type, Key] = {str: number.hex[:16], int: small, bytes: number.bytes}
    return keys.get(kind, number)
