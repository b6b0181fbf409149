"""The types of the operations: names, requests, answers, faults.

A caller with its own transaction splits an operation into three parts:

    ticket = accounts.begin(Request(Kind.CHANGE, user_id, old, new))
    worked = accounts.work(ticket)             # no connection is held
    answer = accounts.commit_in(conn, worked)  # within a transaction that is open

If an operation only has to commit some rows together with its reply, `also` is enough.
"""

from __future__ import annotations

import enum
import uuid
from dataclasses import dataclass, field
from typing import TYPE_CHECKING, Final, Union

from rigzumal._hidden import hidden
from rigzumal._library import Secret, bytes_of

Key = Union[int, str, bytes, uuid.UUID]
"""The name of an account, of its column's type."""

LONGEST_PASSWORD: Final = 256  # bytes; the operations refuse a longer one, and never truncate it


class Reply(enum.Enum):
    """The answer of an operation."""

    ENROLLED = "enrolled"
    EXISTS = "exists"
    YES = "yes"
    NO = "no"
    ABSENT = "absent"
    REPLACED = "replaced"
    WRONG = "wrong"
    UPGRADED = "upgraded"
    KEPT = "kept"
    REMOVED = "removed"
    CHANGED = "changed"
    NO_ACCOUNT = "noaccount"

    __hash__ = object.__hash__  # Enum's own __hash__ is a function in Python, and slow

    # Hidden from mypy, whose `truthy-bool` then reports each place where a comparison is missing.
    if not TYPE_CHECKING:

        def __bool__(self) -> bool:
            """Refuses `if accounts.login(..)`, which would let everybody in."""
            fault = "a Reply has no truth value: compare it, for example with Reply.YES"
            raise TypeError(fault)

    @property
    def makes_change(self) -> bool:
        """Whether the operation replaced, added or removed the record."""
        # Before Python 3.12 `value` is a slow property.
        return self._value_ in ("enrolled", "replaced", "upgraded", "removed")


class Kind(enum.Enum):
    """The operations."""

    ENROL = "enrol"
    VERIFY = "verify"
    CHANGE = "change"
    UPGRADE = "upgrade"
    REMOVE = "remove"
    RESET = "reset"

    __hash__ = object.__hash__


def check_kind(kind: object) -> None:
    """Raises TypeError for a string instead of a Kind, since a string equals no Kind."""
    if not isinstance(kind, Kind):
        raise TypeError(f"pass a Kind, such as Kind.CHANGE, not a {type(kind).__name__}")


class NoRow(enum.Enum):
    """The copy for an account that doesn't exist."""

    NO_ROW = "no row"


NO_ROW: Final = NoRow.NO_ROW

Copy = Union[str, None, NoRow]
"""An account's record when it was read; None for no record, NO_ROW for no account."""


def bytes_of_password(password: Secret) -> bytes:
    """Returns the bytes of a password, and raises the exceptions of `new_record` for a password
    that no account may have."""
    found = password if type(password) is bytes else bytes_of(password)
    if len(found) > LONGEST_PASSWORD:
        raise ValueError(f"the password has over {LONGEST_PASSWORD} bytes")
    return found


@dataclass(frozen=True, init=False)
class Request:
    """A requested operation on an account.

    Raises:
        TypeError: the kind isn't a Kind, or a password is neither bytes nor text.
        ValueError: a new password has over 256 bytes, or UTF-8 can't encode it.
    """

    kind: Kind
    key: Key
    password: bytes = field(repr=False)  # not of a reset
    new_password: bytes = field(repr=False)  # of a change and of a reset
    # False for a password that no account can have: the field is then empty, and the password
    # wrong.
    can_be_right: bool = field(init=False, repr=False)

    @hidden
    def __init__(
        self, kind: Kind, key: Key, password: Secret = b"", new_password: Secret = b""
    ) -> None:
        check_kind(kind)
        new, can_be_right = bytes_of_password(new_password), True
        try:
            present = bytes_of_password(password)
        except ValueError:
            # A login gets an answer, not an exception, whatever its password.
            if kind is Kind.ENROL:
                raise
            present, can_be_right = b"", False
        if type(key) is not str and isinstance(key, str):
            # The text as a driver sees it, whatever its class shows.
            key = str.__str__(key)
        passwords = {"password": present, "new_password": new}
        self.__dict__.update(passwords, kind=kind, key=key, can_be_right=can_be_right)


# Not frozen: frozen ones are slow, and each login builds three.
@dataclass
class Ticket:
    """A request that has begun, with the copy of the account's record."""

    request: Request
    copy: Copy = field(repr=False)


@dataclass
class Worked:
    """The result of the whole operation on the copy: its reply, and the new record."""

    ticket: Ticket
    reply: Reply
    after: Copy = field(repr=False)


@dataclass
class Answer:
    """A reply, the record on which the reply depends, and the record afterwards."""

    reply: Reply
    before: Copy = field(repr=False)
    after: Copy = field(repr=False)


class AccountsError(Exception):
    """The base of the operations' own exceptions."""


class StoreFault(AccountsError):
    """The table, the server or a connection has a fault; the operation stored nothing."""


class Unavailable(AccountsError):
    """No server completed the operation in time; the operation stored nothing."""


class NoConnection(Unavailable):
    """The pool lent no connection, even at the last try."""


class OutcomeUnknown(AccountsError):
    """The operation sent COMMIT, no answer arrived, and the row doesn't show the outcome.

    The server may have stored the change, another client may have replaced the new record since,
    or the change may still take effect.
    """
