"""The operations, as coroutines.

An operation reads the record (the copy), hashes without a connection, and commits by an UPDATE that
compares the row's record with the copy. Its reply is that of the whole operation on a single
record, which the row had between the call and the answer. The row had this record at the commit,
or, without a change, when the operation read the primary. The operation compares a replica's copy
with the primary's record at the end.
"""

from __future__ import annotations

import time
from collections.abc import Callable, Collection, Iterable
from concurrent.futures import ThreadPoolExecutor
from typing import Any, ClassVar, Final, Generic, Optional, TypeVar

from rigzumal._library import OutOfMemoryError, Secret, whole_number
from rigzumal.accounts._connections import LOGGER, Connections, Waits
from rigzumal.accounts._judgement import Foreign, Hasher, Judge, Passwords, Prepare
from rigzumal.accounts._judgement import verdict_of
from rigzumal.accounts._session import Hook, Job, Runtime
from rigzumal.accounts._table import Broken, Table, Undone, judged, unused_key
from rigzumal.accounts.types import NO_ROW, Answer, Copy, Key, Kind, NoConnection
from rigzumal.accounts.types import OutcomeUnknown, Reply, Request, StoreFault, Ticket
from rigzumal.accounts.types import Unavailable, Worked, check_kind
from rigzumal.accounts.dialects._dialect import Dialect, Verdict
from rigzumal.accounts.dialects._faults import Fault
from rigzumal.accounts.pools import check_pool

AnyPool = TypeVar("AnyPool")

_REFUSALS: Final = 3  # refused COMMITs after which an operation leaves its outcome unknown

AS_A_VERIFY: Final = {
    Reply.KEPT: Reply.YES,
    Reply.UPGRADED: Reply.YES,
    Reply.WRONG: Reply.NO,
}
"""The replies of a login for those of an upgrade."""


class Operations(Generic[AnyPool]):
    """Runs the operations over any runtime; Accounts and AsyncAccounts document them."""

    _kind: ClassVar[type[Runtime]]
    _runtime: Runtime

    def __init__(
        self,
        pool: AnyPool,
        dialect: Dialect,
        hasher: Hasher,
        *,
        replica: Optional[AnyPool] = None,
        foreign: Optional[Foreign] = None,
        upgrade_from: Iterable[str] = (),
        tries: int = 8,
        patience: float = 10.0,
        confirm: bool = False,
        least_length: int = 1,
        prepare: Optional[Prepare] = None,
        executor: Optional[ThreadPoolExecutor] = None,
    ) -> None:
        whole_number("tries", tries)
        if not isinstance(patience, (int, float)):
            raise TypeError(
                f"patience must be a number of seconds, not a {type(patience).__name__}"
            )
        if tries < 1 or not patience >= 0:
            raise ValueError("tries must be 1 or more, and patience 0 or more")
        for one in (pool, *([] if replica is None else [replica])):
            check_pool(one, self._kind.enter)
        if not isinstance(dialect, Dialect):
            wanted = 'pass a dialect such as Postgres("users", "id", "record")'
            raise TypeError(f"{wanted}, not a {type(dialect).__name__}")
        self._judge = Judge(hasher, foreign, upgrade_from)
        self._passwords = Passwords(least_length, prepare)
        self._dialect, self._tries = dialect, tries
        self._runtime = self._kind(dialect.execute_options, executor)
        self._table = Table(dialect, confirm, self._before_commit, pool)
        self._connections = Connections(self._runtime, pool, replica, self._table, patience)

    def _before_commit(self, worked: Worked) -> None:
        """Does nothing; the table calls this method just before each COMMIT of a change."""

    async def _replied(self, request: Request, also: Hook) -> Reply:
        return (await self._perform(request, also)).reply

    async def _login(self, key: Key, password: Secret, also: Hook) -> Reply:
        begun = time.monotonic()
        try:
            request = Request(Kind.UPGRADE, key, password)
            hook = None if also is None else _as_a_verify(also)
            reply = (await self._perform(request, hook)).reply
            return AS_A_VERIFY.get(reply, reply)
        except OutcomeUnknown:
            if also is not None:
                raise  # the server may have stored the rows of `also`
        except NoConnection:
            raise  # another look would wait for a connection too
        except (StoreFault, OutOfMemoryError, Unavailable):
            pass
        # The upgrade already waited for the server: one more look, or looks in the time left.
        rest = max(0.0, self._connections.patience - (time.monotonic() - begun))
        verify = Request(Kind.VERIFY, key, password)
        return (await self._perform(verify, also, rest)).reply

    async def _examined(self, used: Collection[Kind]) -> list[Fault]:
        for kind in used:
            check_kind(kind)
        record, pool = self._judge.sample, self._connections.primary
        faults = await self._runtime.use(
            pool, lambda session: self._table.examine(session, record, used)
        )
        key = unused_key(self._dialect.key_type)
        return faults + await self._connections.replica_faults(self._looking(key))

    async def _new_record(self, password: Secret) -> str:
        prepared = self._passwords.new(password)
        return await self._runtime.call(self._judge.new_record, prepared)

    async def _begin(self, request: Request) -> Ticket:
        request = self._passwords.of(request)
        return Ticket(request, (await self._first_copy(request))[0])

    async def _commit_in(self, conn: Any, worked: Worked) -> Answer:
        return await self._table.commit_in(self._runtime.session(conn), worked)

    async def _perform(
        self, request: Request, also: Hook = None, patience: Optional[float] = None
    ) -> Answer:
        """Runs the whole operation, and repeats it if the row changed before the commit."""
        request = self._passwords.of(request)
        copy, is_settled = await self._first_copy(request, patience)
        for _ in range(self._tries):
            worked = await self._work(Ticket(request, copy))
            if is_settled and also is None and not self._table.writes(worked):
                return Answer(worked.reply, copy, copy)
            answer = await self._commit(worked, also, patience)
            if answer.reply is not Reply.CHANGED:
                break
            # The row's record is the next copy: no replica has to catch up with it.
            copy, is_settled = answer.after, True
        return answer

    async def _work(self, ticket: Ticket) -> Worked:
        judge, call = self._judge, self._runtime.call
        asked = None if judge.foreign is None else judge.question(ticket)
        if asked is None:
            return await call(judge.work, ticket)
        answer = await self._runtime.ask("foreign", *asked)
        return await call(judge.work, ticket, verdict_of(answer))

    async def _first_copy(
        self, request: Request, patience: Optional[float] = None
    ) -> tuple[Copy, bool]:
        """Returns a copy to work on, and whether the copy comes from the primary."""
        key, connections = request.key, self._connections
        self._dialect.check_key(key)
        if not self._dialect.can_stand(key):
            return NO_ROW, True
        if request.kind is Kind.ENROL:
            self._dialect.check_new_key(key)
        if connections.replica is not None:
            found = await connections.at_replica(self._looking(key))
            if not isinstance(found, Undone):
                return found, False
        # No replica exists, or it is down: logins go on.
        return await connections.patiently(self._looking(key), patience), True

    def _looking(self, key: Key) -> Job[Copy]:
        return lambda session: self._table.look(session, key)

    async def _commit(
        self, worked: Worked, also: Hook = None, patience: Optional[float] = None
    ) -> Answer:
        """Compares the record with the copy and writes the change, in one statement or one
        transaction."""
        key = worked.ticket.request.key
        if also is None and not self._dialect.can_stand(key):
            return Answer(Reply.NO_ACCOUNT, NO_ROW, NO_ROW)
        if also is None and not self._table.writes(worked):
            look = self._looking(key)
            return judged(worked, await self._connections.patiently(look, patience))
        try:
            return await self._change(worked, also, patience)
        except Broken as broken:
            cause = broken.__cause__
        LOGGER.warning("COMMIT had no answer: %s", self._table.name(cause))
        return await self._settled(worked, also)

    async def _change(self, worked: Worked, also: Hook, patience: Optional[float] = None) -> Answer:
        answer: Answer = await self._connections.patiently(
            lambda session: self._table.change(session, worked, also), patience
        )
        return answer

    async def _settled(self, worked: Worked, also: Hook) -> Answer:
        """Finds out whether a change was stored if its COMMIT had no answer.

        No other operation writes the same record, since its salt is fresh. If the row has the new
        record, the server therefore wrote the change. The change may not have reached the disk or
        the standby, so the operation writes the record again: the COMMIT of that write waits for
        both, and a SELECT wouldn't.

        If the row still has the copy, the server hasn't stored the change so far, and the operation
        sends the change again: a replaced record never returns. NULL returns if another client has
        removed the new record meanwhile, so the operation doesn't send an enrolment again.
        """
        waits, why = Waits(self._connections.patience, time.monotonic(), 0.01), ""
        refusals = 0
        while worked.reply.makes_change and refusals < _REFUSALS:
            try:
                if await self._put_again(worked, also):
                    return Answer(worked.reply, worked.ticket.copy, worked.after)
            except Broken as broken:
                refusals += self._is_refusal(broken.__cause__)
            except OutcomeUnknown:
                raise
            except Exception as error:
                # A failure now says nothing about the COMMIT that had no answer.
                why = f" ({self._table.name(error)})"
                break
            if waits.are_over:
                break
            await self._runtime.pause(waits.next())
        raise _unknown(worked, why)

    def _is_refusal(self, cause: Optional[BaseException]) -> bool:
        """Whether the server answered a COMMIT with an error, as while its disk fails."""
        return cause is not None and self._dialect.verdict(cause) is Verdict.REFUSED

    async def _put_again(self, worked: Worked, also: Hook) -> bool:
        """Whether the server has stored the change permanently; False if another attempt may find
        out.

        Raises:
            OutcomeUnknown: the row has neither the copy nor the new record.
        """
        copy, after, request = worked.ticket.copy, worked.after, worked.ticket.request
        now = await self._connections.patiently(self._looking(request.key))
        if now == after and after is not None:
            again = Worked(Ticket(request, after), worked.reply, after)
            also = None  # the server committed its rows with the record
        elif now == copy and copy is not None:
            again = worked
        else:
            raise _unknown(worked)
        sent = await self._change(again, also)
        return sent.reply is worked.reply


def _as_a_verify(also: Callable[[Any, Reply], Any]) -> Hook:
    return lambda conn, reply: also(conn, AS_A_VERIFY.get(reply, reply))


def _unknown(worked: Worked, why: str = "") -> OutcomeUnknown:
    request = worked.ticket.request
    what = f"the server may or may not have stored the {request.kind.value} of {request.key!r}"
    return OutcomeUnknown(f"COMMIT had no answer: {what}{why}")
