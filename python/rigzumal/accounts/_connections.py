"""Handles broken connections, failing servers, and the time limit of an operation."""

from __future__ import annotations

import logging
import random
import re
import time
from dataclasses import dataclass, field
from typing import Any, Final, Optional

from rigzumal.accounts._session import Job, Runtime
from rigzumal.accounts._table import Lost, Table, Undone
from rigzumal.accounts.types import AccountsError, NoConnection, StoreFault, Unavailable
from rigzumal.accounts.dialects._dialect import Verdict, is_of_driver
from rigzumal.accounts.dialects._faults import Fault, error as fault_of, warning

LOGGER: Final = logging.getLogger("rigzumal.accounts")
"""Warns of retries and unknown outcomes, without a name, record or password."""

REFUSED: Final = "the server refused the connection"
_NOT_IN_TIME: Final = "no server completed the operation in time"
_AT_ONCE: Final = 0.5  # seconds in which lost connections don't lengthen the pauses
_LONGEST: Final = 400  # letters of a reason
_AWAY: Final = 5.0  # seconds for which a replica that failed isn't asked
# What stands before a password in a driver's text, and the password, in quotes or without.
_DSN_PASSWORD: Final = re.compile(
    r"""
    (
        (?:password|passwd|pwd)\s*=\s*
        | //[^/@\s:]*:
        | invalid[ ]integer[ ]value[ ]
        | :[ ](?=")
    )
    ('[^']*' | "[^"]*" | [^\s@;,]+)
    """,
    re.I | re.VERBOSE,
)


@dataclass
class Connections:
    """The pools in which jobs run: that of the primary, and optionally that of a lagging
    replica."""

    runtime: Runtime
    primary: Any
    replica: Optional[Any]
    table: Table
    patience: float
    _has_connected: bool = field(default=False, init=False)  # to the primary
    _is_passed_over: bool = field(default=False, init=False)
    _asked_from: float = field(default=0.0, init=False)  # the time of the replica's next job

    async def at_replica(self, job: Job[Any]) -> Any:
        """Runs a job once at the replica. Returns Undone if no replica exists, if the replica or
        its pool fails, or if it failed within the last five seconds."""
        begun = time.monotonic()
        if self.replica is None or begun < self._asked_from:
            return Undone(None)
        if self._is_passed_over:
            # Only this operation tests whether the replica is back, which may take a while.
            self._asked_from = begun + _AWAY
        done = await self._at_replica(job)
        self._asked_from = time.monotonic() + _AWAY if self._is_passed_over else 0.0
        return done

    async def _at_replica(self, job: Job[Any]) -> Any:
        self.table.refuse_nested()
        try:
            done = await self._once(self.replica, job)
        except Exception as raised:  # a job at the replica runs no hook of the caller's
            done = Undone(raised)
        is_passed_over = isinstance(done, Undone)
        if is_passed_over and not self._is_passed_over:
            LOGGER.warning("skipping the replica: %s", self._why(done))
        self._is_passed_over = is_passed_over
        return done

    async def replica_faults(self, job: Job[Any]) -> list[Fault]:
        """Returns the faults of the replica, if one exists."""
        done = None if self.replica is None else await self._at_replica(job)
        if not isinstance(done, Undone):
            return []
        is_away = not isinstance(done.cause, AccountsError) and done.reason
        kind, code = (warning, "away") if is_away else (fault_of, "refuses")
        text = f"skipping the replica: {self._why(done)}{done.reason}"
        return [kind(f"replica-{code}", text)]

    def _why(self, done: Undone) -> str:
        """Returns the reason why the job did nothing, without the driver's text, which may quote a
        row."""
        cause = done.cause.__cause__ if isinstance(done.cause, Lost) else done.cause
        if isinstance(cause, AccountsError):
            return f"{type(cause).__name__}: {cause}"
        return self.table.name(cause)

    async def patiently(self, job: Job[Any], patience: Optional[float] = None) -> Any:
        """Runs a job at the primary until the job is done, with growing pauses.

        The method repeats a job that did nothing, after a lost connection or after a transaction
        that the server undid. The method computes no hash again. A pool that has never connected
        isn't asked again if the server refuses its connection: its database may be misspelled.
        """
        begun, waits = time.monotonic(), None
        while True:
            done = await self._once(self.primary, job)
            if not isinstance(done, Undone) or not done.reason:
                self._has_connected = True
            if not isinstance(done, Undone):
                return done
            cause, is_dead = done.cause, False
            is_refused = self._is_refused(done)
            if waits is None:
                waits = Waits(self.patience if patience is None else patience, begun)
            if isinstance(cause, Lost):
                cause, is_dead = cause.__cause__, waits.age < _AT_ONCE
            name = self.table.name(cause)
            if waits.are_over or (is_refused and not self._has_connected):
                kind = NoConnection if done.reason else Unavailable
                said = REFUSED if is_refused else f"{_NOT_IN_TIME}: {name}"
                raise kind(said + done.reason) from cause
            if waits.is_first:
                LOGGER.warning("retrying an operation: %s", name)
            await self.runtime.pause(waits.next(is_dead))

    def _is_refused(self, done: Undone) -> bool:
        """Whether a server itself refused the connection that the job needed."""
        if not done.reason or done.cause is None:
            return False
        return self.table.dialect.refuses_connection(done.cause)

    async def _once(self, pool: Any, job: Job[Any]) -> Any:
        """Runs a job once. Returns Undone if the job stored nothing and may run again."""
        self.table.refuse_nested()
        try:
            return await self.runtime.use(pool, job)
        except Lost as lost:
            return Undone(lost)
        except Exception as error:  # of the pool, which opens connections
            return self._unconnected(error)

    def _unconnected(self, error: Exception) -> Undone:
        """Returns Undone if a pool's error means that another try may get a connection. Otherwise
        raises a fault of the pool, a refusal by the server, or the error itself."""
        names = {kind.__name__ for kind in type(error).__mro__}
        reason = _reason(error)
        if "PoolClosed" in names:
            raise NoConnection(f"the pool is closed{reason}") from error
        # Until Python 3.10 there are several kinds of TimeoutError.
        if names & {"ConnectionError", "TimeoutError"}:
            return Undone(error, reason)
        if not is_of_driver(error):
            raise error
        if self.table.dialect.verdict(error) is not Verdict.REFUSED:
            return Undone(error, reason)
        # The text of a ProgrammingError may have the part of a DSN that no driver can read.
        if isinstance(error, OSError) or "ProgrammingError" in names:
            raise error
        raise StoreFault(REFUSED + reason) from error


class Waits:
    """Growing pauses, for this many seconds in all."""

    is_first = True

    def __init__(self, patience: float, begun: float, first: float = 0.002) -> None:
        self._patience, self._begun, self._next = patience, begun, first

    @property
    def age(self) -> float:
        return time.monotonic() - self._begun

    @property
    def are_over(self) -> bool:
        return self.age >= self._patience

    def next(self, is_dead: bool = False) -> float:
        """Returns the next pause in seconds. A dead connection doesn't lengthen later pauses."""
        pause, self.is_first = self._next, False
        if not is_dead:
            self._next = min(pause * 2, 0.5)
        return pause * random.uniform(0.5, 1.5)


def _reason(error: Exception) -> str:
    """Returns the reason for a missing connection, in the words of the server or the system.

    The text quotes no row, since the program sent nothing, and omits a password in the DSN.
    """
    lines = [line.strip() for line in str(error).splitlines()]
    return ": " + _DSN_PASSWORD.sub(r"\1***", "; ".join(filter(None, lines)))[:_LONGEST]
