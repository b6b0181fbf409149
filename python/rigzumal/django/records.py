"""A user's record: its row, the known copies, and its comparing replacement.

`user.password` is the copy: the record at the time when the user was read. An operation checks the
password and hashes without a lock, and an UPDATE writes the new record if the row still has the
copy. Otherwise the operation checks the password against the row's record. The answer is therefore
that of the row's record, and no slower operation undoes a change.

In the caller's transaction (`ATOMIC_REQUESTS`) a change counts once the transaction commits.
On PostgreSQL, MySQL and MariaDB, the transaction's isolation must be READ COMMITTED, Django's
default. On SQLite a transaction that has read fails ("database is locked") if another process
writes first.
"""

from __future__ import annotations

import functools
from collections.abc import Awaitable, Callable, Sequence
from typing import Any, Optional, TypeVar

from asgiref.sync import sync_to_async
from django.contrib.auth import hashers
from django.db import connections, router, transaction

from rigzumal._hidden import hidden_below

T = TypeVar("T")

TRIES = 8
"""The tries of an operation, if the row's record changes meanwhile."""


class RecordChanged(Exception):
    """The row's record has changed since the user was read, and remains unchanged.

    To continue, read the user again (`refresh_from_db`) and check the password again.
    """

    def __str__(self) -> str:
        return "the password has changed since the user was read: this call saved nothing"


def database_of(user: Any) -> str:
    """Returns the database to which the user's record is written."""
    # __class__ is the model even if `request.user` is a lazy object, whose type isn't the model.
    return str(router.db_for_write(user.__class__, instance=user))


class Copy:
    """The record that was read with a user, or that was written since then.

    The last element of `records` is the newest record. Until the transaction of that write commits,
    `records` also keeps the older ones: after a rollback the row has one of them.
    """

    def __init__(self, *records: str) -> None:
        self.records = records

    @property
    def newest(self) -> str:
        """The row's record, unless a rollback or another process has changed it."""
        return self.records[-1]

    def settle(self) -> None:
        """Keeps only the newest record; Django calls this method at the commit."""
        self.records = self.records[-1:]

    def is_in_doubt(self, database: str) -> bool:
        """Whether a rollback may have undone the write: no on_commit callback is waiting."""
        waiting = [entry[1] for entry in connections[database].run_on_commit]
        return len(self.records) > 1 and self.settle not in waiting

    def followed_by(self, record: str, database: str) -> Copy:
        """Returns the copy for a record that was written over this one's."""
        if not connections[database].in_atomic_block:
            return Copy(record)
        copy = Copy(*self.records, record)
        transaction.on_commit(copy.settle, using=database)
        return copy

    def __deepcopy__(self, memo: Any) -> Copy:
        return self  # also for TestCase's class data, which isn't committed yet

    def __reduce__(self) -> tuple[Any, ...]:
        return Copy, self.records[-1:]


def note_read(user: Any, database: str, record: str) -> None:
    """Stores the record that was read with a user, and forgets older ones."""
    user._record_copies = {database: Copy(record)}


def note_put(user: Any, database: str, copy: Copy) -> None:
    """Stores the record that was written."""
    user._record_copies = {**getattr(user, "_record_copies", {}), database: copy}


def known_copy(user: Any, database: str) -> Optional[Copy]:
    """Returns the user's record in a database, or None if no query has read or written it there.

    For a write, the record may come from another database: a replica.
    """
    copies: dict[str, Copy] = getattr(user, "_record_copies", {})
    if copies and database not in copies and database == database_of(user):
        return next(iter(copies.values()))
    return copies.get(database)


class Row:
    """The row of a user's record, in the database to which it is written."""

    def __init__(self, user: Any) -> None:
        if user.pk is None:
            raise ValueError("the user isn't saved yet")
        # An UPDATE through a child model's table would first select the row, and then compare
        # nothing.
        holder = user._meta.get_field("password").model
        self.user, self.database = user, database_of(user)
        self._rows = holder._base_manager.using(self.database).filter(
            pk=getattr(user, holder._meta.pk.attname)
        )

    def look(self) -> Optional[str]:
        """Returns the row's record, or None if the user was deleted."""
        found: Optional[str] = self._rows.values_list("password", flat=True).first()
        return found

    def put(self, over: Sequence[str], record: str) -> bool:
        """Writes the record if the row has one of the known records, and then sets the user's
        record too."""
        if self._rows.filter(password__in=over).update(password=record) == 0:
            return False
        copy = known_copy(self.user, self.database)
        if copy is None or copy.newest != over[-1]:
            copy = Copy(*over)
        self.user.password = record
        note_put(self.user, self.database, copy.followed_by(record, self.database))
        return True

    def found(self, record: str) -> None:
        """Sets the user's record to that of the row."""
        self.user.password = record
        copy = known_copy(self.user, self.database)
        if copy is None or copy.newest != record:
            note_read(self.user, self.database, record)


def _at_what_stands(user: Any, judge: Callable[[str], tuple[bool, str]]) -> bool:
    """Checks the password against the copy, and writes the new record; starts again if the row has
    a different record."""
    row, copy = Row(user), user.password
    for _ in range(TRIES):
        right, after = judge(copy)
        if after != copy and row.put([copy], after):
            return right
        stands = row.look()
        if stands is None:
            return False
        if stands == copy == after:
            row.found(copy)
            return right
        copy = stands
    raise RecordChanged


def judge_alone(user: Any, password: Any) -> bool:
    """Returns whether the password is right, and never rehashes."""
    check = hashers.check_password
    return _at_what_stands(user, lambda copy: (check(password, copy), copy))


def judge_login(user: Any, password: Any) -> bool:
    """Returns whether the password is right, and rehashes a record with old costs."""

    def judge(copy: str) -> tuple[bool, str]:
        after = [copy]

        def upgrade(raw_password: Any) -> None:
            after.append(hashers.make_password(raw_password))

        right = hashers.check_password(password, copy, upgrade)
        return right, after[-1]

    return _at_what_stands(user, judge)


def judge_change(
    user: Any, old_password: Any, new_password: Any, judged: Optional[str] = None
) -> bool:
    """Changes the password if the old one is right, as it is for the record `judged`."""

    def judge(copy: str) -> tuple[bool, str]:
        right = copy == judged or hashers.check_password(old_password, copy)
        return right, hashers.make_password(new_password) if right else copy

    return _at_what_stands(user, judge)


def awaited(function: Callable[..., T]) -> Callable[..., Awaitable[T]]:
    """Runs a function in a thread, for `await`.

    An error report shows the waiting frames. None of these contains a password, since the work has
    no arguments and runs in no coroutine.
    """
    concealed = hidden_below(function)

    @functools.wraps(function)
    def asynchronous(*args: Any, **kwargs: Any) -> Awaitable[T]:
        work = hidden_below(lambda: concealed(*args, **kwargs))
        answer: Awaitable[T] = sync_to_async(work)()
        return answer

    return asynchronous
