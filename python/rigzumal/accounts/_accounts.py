"""The operations that callers use, for blocking drivers and for asyncio."""

from __future__ import annotations

import functools
from collections.abc import Callable, Coroutine
from typing import TYPE_CHECKING, Any, TypeVar

from rigzumal._hidden import hidden, hide
from rigzumal._library import Secret
from rigzumal.accounts._operations import Operations
from rigzumal.accounts._session import AsyncRuntime, Hook, HookFailed, Runtime, run
from rigzumal.accounts.types import Answer, Key, Kind, Reply, Request, Ticket, Worked
from rigzumal.accounts.dialects._faults import Fault
from rigzumal.accounts.pools import AsyncPool, Pool

if TYPE_CHECKING:
    from typing_extensions import Concatenate, ParamSpec

    P = ParamSpec("P")

T = TypeVar("T")


class Accounts(Operations[Pool]):
    """Keeps password records in a service's own table.

    Each row is an account; NULL in the record column means an account without a record. The
    operations run in their own transactions, on autocommit connections without an open transaction.
    Any number of threads may use one object.

    Args:
        pool: a callable that returns a context manager of a connection to the primary. After any
            exception (even a BaseException, such as an interrupt or a cancelled task) the pool must
            close the connection, or roll back before it lends the connection again.
        dialect: the dialect of the database, with the names of the table and its columns.
        hasher: PasswordHasher or ScryptHasher, for the costs of new records. Its tags must have 32
            bytes. Its `threads` has no effect. With a secret, a scrypt record raises
            InvalidRecordError, unless `secrets` contains b"". A login replaces a record whose
            secret is an older one of `secrets`.
        replica: a pool of a replica, for the copies of records. The replica may lag, since each
            answer depends on the primary's record. If the replica or its pool fails, operations
            read copies from the primary.
        foreign: a function that checks passwords against records of other schemes, as (text,
            password) -> bool or None. After any other answer the operation raises a TypeError, and
            stores nothing.
        upgrade_from: costs such as "$argon2i$v=19$m=65536,t=3,p=4" that an upgrade replaces even if
            the new costs aren't higher.
        tries: the most tries of an operation whose commit finds a different record; 1 or more.
        patience: the seconds to wait for a new connection, a busy server, or a lost answer; 0 or
            more. This limit doesn't end a statement that hangs, or a pool's wait for a connection:
            set separate limits of some seconds for both.
        confirm: whether to confirm an answer without a change, such as a verify's, by writing the
            record again. Use `confirm` with servers that show a change before the change is safe
            (MariaDB without a binary log). A login then costs as much as a change.
        least_length: the minimum number of characters of a new password; logins have no such bound.
        prepare: a function, such as `rigzumal.opaque_string`, that turns a password that is text,
            new or present, into the text for the hash. Use it from the table's first record on: a
            record of a different form of the password counts as one of another password.

    Raises:
        TypeError: an argument has a wrong type.
        ValueError: a number, or the size of the hasher's tag, is out of range.
        InvalidRecordError: an entry of `upgrade_from` isn't costs.

    Each operation accepts `also`, a function of the driver's connection and the reply. The library
    calls `also` in the operation's transaction, while it holds the lock of the account's row and
    before it writes the record. The server therefore commits your own rows, such as a session, with
    the reply or not at all. If the server undoes the transaction, the library calls `also` again in
    the next one. The library doesn't call `also` for CHANGED. An exception in `also` undoes
    everything and reaches the caller, unless the exception is an error of the connection that calls
    for a retry. `also` must leave the transaction open, must not write the record, and must not
    call an operation on the same table.

    Every operation may raise:
        TypeError: the key's type differs from its column's, or a password is neither
            bytes nor text; the operation read no row. A hook returned a wrong answer,
            or `also` has ended the transaction; the operation wrote no record.
        ValueError: a new password is too short or has over 256 bytes, or UTF-8 can't encode it, or
            `prepare` refuses it. An enrolment also refuses a name that is empty, begins or ends
            with a blank, or begins with a byte order mark. The operation read no row. A present
            password of over 256 bytes, or that UTF-8 or `prepare` refuses, counts as wrong, after
            the usual hashes.
        StoreFault: the table, the server or the connection has a fault.
        InvalidRecordError: the record has another scheme, and the accounts have no `foreign`.
        Unavailable: no server completed the operation in time, and the operation stored nothing.
        OutcomeUnknown: after a change, or with `also`, COMMIT had no answer, and the row doesn't
            show whether the server stored the change.
        OutOfMemoryError: the free memory was too small for the costs.
        Exception: any exception of the pool or the hooks.
    """

    _kind = Runtime

    def _done(self, doing: Coroutine[Any, Any, T]) -> T:
        """Returns the operation's answer, or, in AsyncAccounts, a coroutine that returns the
        answer."""
        return run(doing)

    @hidden
    def enrol(self, key: Key, password: Secret, *, also: Hook = None) -> Reply:
        """Gives an account its first record. Returns ENROLLED, EXISTS if the account has a record,
        or NO_ACCOUNT.

        Use this operation only for rows whose owner is known; for a sign-up use `new_record`.
        """
        return self._done(self._replied(Request(Kind.ENROL, key, password), also))

    @hidden
    def verify(self, key: Key, password: Secret, *, also: Hook = None) -> Reply:
        """Checks the password. Returns YES, NO, ABSENT if the account has no record, or
        NO_ACCOUNT."""
        return self._done(self._replied(Request(Kind.VERIFY, key, password), also))

    @hidden
    def login(self, key: Key, password: Secret, *, also: Hook = None) -> Reply:
        """Verifies the password, and replaces a record whose costs are too low.

        The replies are those of `verify`, even if the server can't write the new record (a full
        disk, or, without `also`, an unknown outcome).
        """
        return self._done(self._login(key, password, also))

    @hidden
    def change(
        self, key: Key, password: Secret, new_password: Secret, *, also: Hook = None
    ) -> Reply:
        """Replaces the password. Returns REPLACED, WRONG if the old password is wrong, ABSENT,
        NO_ACCOUNT or CHANGED.

        CHANGED, a reply of every operation, means that the commit found a different record `tries`
        times.
        """
        request = Request(Kind.CHANGE, key, password, new_password)
        return self._done(self._replied(request, also))

    @hidden
    def reset(self, key: Key, new_password: Secret, *, also: Hook = None) -> Reply:
        """Sets a password without the old one. Returns REPLACED, ENROLLED if the account had no
        record, or NO_ACCOUNT."""
        request = Request(Kind.RESET, key, b"", new_password)
        return self._done(self._replied(request, also))

    @hidden
    def upgrade(self, key: Key, password: Secret, *, also: Hook = None) -> Reply:
        """Replaces a record whose costs are too low. Returns UPGRADED, KEPT for other records,
        WRONG, ABSENT or NO_ACCOUNT."""
        return self._done(self._replied(Request(Kind.UPGRADE, key, password), also))

    @hidden
    def remove(self, key: Key, password: Secret, *, also: Hook = None) -> Reply:
        """Removes the record, and keeps the account. Returns REMOVED, WRONG, ABSENT or
        NO_ACCOUNT."""
        return self._done(self._replied(Request(Kind.REMOVE, key, password), also))

    @hidden
    def new_record(self, password: Secret) -> str:
        """Returns a record for your own INSERT, which adds an account with its password.

        Raises:
            TypeError: the password is neither bytes nor text.
            ValueError: the password is too short or too long, or `prepare` refuses it.
        """
        return self._done(self._new_record(password))

    @hidden
    def examine(self, *used: Kind) -> list[Fault]:
        """Returns the faults of the table, the server and the replica, or an empty list.

        A trial writes a record into a new row, or into an existing one if it can't add a row,
        and then rolls its transaction back. Pass Kind.REMOVE if the service removes
        records: then a NOT NULL column is an error, and the trial also removes a record. On SQLite
        `examine` warns of a full disk if the filesystem reports it, but not of a user's quota.

        Raises:
            TypeError: an argument isn't a Kind.
            StoreFault: the connection isn't in autocommit, or has a transaction open.
            Exception: whatever the driver raises.
        """
        return self._done(self._examined(used))

    # ---- in parts: see rigzumal.accounts.types

    @hidden
    def perform(self, request: Request, *, also: Hook = None) -> Answer:
        """Runs the whole operation, and returns an answer with the records before and after it."""
        return self._done(self._perform(request, also))

    @hidden
    def begin(self, request: Request) -> Ticket:
        """Runs the first part, which reads the record."""
        return self._done(self._begin(request))

    @hidden
    def work(self, ticket: Ticket) -> Worked:
        """Runs the second part, which hashes, and uses no connection."""
        return self._done(self._work(ticket))

    @hidden
    def commit(self, worked: Worked) -> Answer:
        """Runs the third part, which writes the new record if the row still has the copy.

        If the row has a different record, the reply is CHANGED, and `after` is that record.
        """
        return self._done(self._commit(worked))

    @hidden
    def commit_in(self, conn: Any, worked: Worked) -> Answer:
        """Runs the third part in a transaction that the caller begins and ends.

        The reply counts once the server has acknowledged the caller's COMMIT; on PostgreSQL with a
        synchronous standby, the acknowledgement must have no warning. After CHANGED, and after any
        exception, roll back and start again from BEGIN. An operation without a change locks its
        row, so that the record stays until the transaction ends.

        On SQLite the transaction must begin with BEGIN IMMEDIATE. On PostgreSQL it must be READ
        COMMITTED, or SERIALIZABLE if all transactions on these rows are. On MariaDB it may have any
        level except READ UNCOMMITTED.

        Raises:
            StoreFault: no transaction is open on the connection, the open one has PostgreSQL's
            level REPEATABLE READ, or the table has a fault.
            Exception: whatever the driver raises.
        """
        return self._done(self._commit_in(conn, worked))


def _awaited(
    method: Callable[Concatenate[Accounts, P], T]
) -> Callable[Concatenate[AsyncAccounts, P], Coroutine[Any, Any, T]]:
    """Wraps a blocking method as a coroutine with the same operation."""

    @functools.wraps(method)
    async def operation(accounts: Any, /, *args: P.args, **kwargs: P.kwargs) -> T:
        try:
            doing: Any = method(accounts, *args, **kwargs)
            answer: T = await doing
            return answer
        except HookFailed as failed:
            error = failed.error
        except BaseException as raised:
            del args, kwargs
            hide(raised)
            raise
        del args, kwargs  # noqa: F821
        hide(error)
        raise error

    return operation


class AsyncAccounts(Operations[AsyncPool]):
    """`Accounts` with coroutines, over psycopg's AsyncConnection or aiosqlite.

    Arguments, replies and exceptions are as in `Accounts`. `also` and `foreign` may be coroutine
    functions. Hashes, and a `foreign` that is a plain function, run in threads of the executor, so
    that other tasks continue. If a task is cancelled during a change, the change may or may not be
    stored, as after `OutcomeUnknown`, and may still be stored later.

    Args:
        executor: a ThreadPoolExecutor, only for AsyncAccounts. Each of its threads may
            need the memory of one hash. The default is asyncio's own executor, which also resolves
            hosts.
    """

    _kind = AsyncRuntime

    def _done(self, doing: T) -> T:
        return doing

    enrol = _awaited(Accounts.enrol)
    verify = _awaited(Accounts.verify)
    login = _awaited(Accounts.login)
    change = _awaited(Accounts.change)
    reset = _awaited(Accounts.reset)
    upgrade = _awaited(Accounts.upgrade)
    remove = _awaited(Accounts.remove)
    new_record = _awaited(Accounts.new_record)
    examine = _awaited(Accounts.examine)
    perform = _awaited(Accounts.perform)
    begin = _awaited(Accounts.begin)
    work = _awaited(Accounts.work)
    commit = _awaited(Accounts.commit)
    commit_in = _awaited(Accounts.commit_in)
