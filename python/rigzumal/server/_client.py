"""The lines to the server, its answers, and the client for threads."""

from __future__ import annotations

import base64
import enum
import os
import socket
import time
from dataclasses import dataclass
from typing import TYPE_CHECKING, Final, Generic, Optional, TypeVar, Union

from rigzumal._hidden import hidden
from rigzumal._library import Secret, bytes_of

LOGIN_SOCKET: Final = "/run/rigzumal/users/login.sock"
"""The default socket, of a book called users."""

# In bytes; the longest name is an e-mail address.
LONGEST_PASSWORD, LONGEST_NAME, LONGEST_ANSWER = 256, 254, 65536

Replied = TypeVar("Replied")
Listed = TypeVar("Listed")


class Reply(enum.Enum):
    """The book's answer to an operation.

    A reply has no truth value, since NO would count as true: compare it, as in
    `reply is Reply.YES`.
    """

    # tools/protocol.py writes these lines
    YES = "yes"
    EXPIRED = "expired"
    NO = "no"
    WRONG = "wrong"
    ABSENT = "absent"
    NO_ACCOUNT = "noaccount"
    REPLACED = "replaced"
    UPGRADED = "upgraded"
    REMOVED = "removed"
    KEPT = "kept"
    OK = "ok"
    ENROLLED = "enrolled"
    DISABLED = "disabled"
    DELETED = "deleted"
    RENAMED = "renamed"
    LOCKED = "locked"
    UNLOCKED = "unlocked"
    EXISTS = "exists"
    NONE = "none"
    SHORT = "short"
    SAME = "same"
    # up to here.

    # Hidden from mypy, whose `truthy-bool` then names each place without a comparison.
    if not TYPE_CHECKING:

        def __bool__(self) -> bool:
            raise TypeError("an answer is neither true nor false: compare it with Reply.YES")


class ServerError(Exception):
    """The base class of the clients' own exceptions."""


class Unavailable(ServerError):
    """No valid answer arrived in time: a requested change may or may not be stored."""


class Later(ServerError):
    """Too many tries at this name failed, so this try was too early and had no effect."""


class Denied(ServerError):
    """The socket's clients may not ask for this operation."""


class Refused(ServerError):
    """The server or the client refused the line, by a number and a word of docs/ERRORS.md.

    The refused line changed no account.

    Attributes:
        number: the number of the refusal, such as 3.
        word: its word, such as "name".
    """

    def __init__(self, number: int, word: str) -> None:
        super().__init__(f"{number} {word}")
        self.number, self.word = number, word


@dataclass(frozen=True, repr=False)
class Question:
    """An operation, its names and passwords.

    Attributes:
        no_name: the reply if no book allows the name; without it, the client raises `Refused`.
        wrong: the reply if no record can have the first password; without it, the client raises
            a ValueError.
    """

    operation: str
    names: tuple[str, ...]
    passwords: tuple[Secret, ...] = ()
    no_name: Optional[Reply] = None
    wrong: Optional[Reply] = None

    def known_reply(self) -> Optional[Reply]:
        """Returns the reply, if the client can decide it without asking the server."""
        if self.no_name is not None and not all(map(may_be_name, self.names)):
            return self.no_name
        if self.wrong is not None and not may_be_password(self.passwords[0]):
            return self.wrong
        return None

    def line(self, tag: bytes) -> bytes:
        """Returns the request's line.

        Raises:
            TypeError: a password is neither bytes nor text.
            ValueError: a password has over 256 bytes, or UTF-8 can't encode it.
            Refused: no book allows a name (3 name).
        """
        if not all(map(may_be_name, self.names)):
            raise Refused(3, "name")
        fields = [tag, *(it.encode() for it in (self.operation, *self.names))]
        for password in map(bytes_of, self.passwords):
            if len(password) > LONGEST_PASSWORD:
                raise ValueError(f"the password has over {LONGEST_PASSWORD} bytes")
            fields.append(base64.b64encode(password).rstrip(b"=") or b"-")
        return b" ".join(fields) + b"\n"

    def reply(self, tag: bytes, line: bytes) -> Reply:
        """Returns the reply in a received line.

        Raises:
            ServerError: as in `answer_of`; also Unavailable for a text that isn't a reply.
        """
        try:
            return Reply(answer_of(tag, line))
        except ValueError:
            raise Unavailable("the answer isn't a reply") from None
        except Refused as refused:
            if refused.number != 3 or self.no_name is None:
                raise
            return self.no_name


def may_be_name(name: str) -> bool:
    """Whether a name is a single field of a line, and no longer than an address."""
    try:
        sent = name.encode()
    except UnicodeEncodeError:
        return False
    return 0 < len(sent) <= LONGEST_NAME and min(sent) > 0x20 and 0x7F not in sent


def may_be_password(password: Secret) -> bool:
    """Whether a record can have this password."""
    try:
        return len(bytes_of(password)) <= LONGEST_PASSWORD
    except ValueError:
        return False


def answer_of(tag: bytes, line: bytes) -> str:
    """Returns the answer in a line with this tag.

    Raises:
        ServerError: one of the classes above; also Unavailable for a line that isn't an answer.
    """
    found, _, said = line.partition(b" ")
    if found != tag or not line.endswith(b"\n") or not said[:-1].isascii():
        raise Unavailable("the server sent an invalid answer")
    text = said[:-1].decode()
    if text == "unavailable":
        raise Unavailable("the book has ended")
    if text == "later":
        raise Later("too many failed tries")
    if text == "denied":
        raise Denied("the socket doesn't allow this operation")
    kind, _, rest = text.partition(" ")
    number, _, word = rest.partition(" ")
    if kind == "bad" and number.isdigit():
        raise Refused(int(number), word)
    return text


class Calls(Generic[Replied, Listed]):
    """The calls of both clients; each client has its own way to ask the server."""

    def _reply(self, asked: Question) -> Replied:
        raise NotImplementedError

    def _listed(self, asked: Question) -> Listed:
        raise NotImplementedError

    @hidden
    def verify(self, name: str, password: Secret) -> Replied:
        """Checks the password. Returns YES, NO, ABSENT if the account has no record, or NO_ACCOUNT.

        The reply EXPIRED means that the password is right, but `change` must replace it before a
        login. A name or a password that no book allows, such as a name with a space, gets NO.
        """
        no = Reply.NO
        return self._reply(Question("verify", (name,), (password,), no, no))

    @hidden
    def change(self, name: str, password: Secret, new_password: Secret) -> Replied:
        """Replaces the password. Returns REPLACED, WRONG if the old one is wrong, ABSENT or
        NO_ACCOUNT.

        SHORT, also in `enrol` and `reset`, means that the new password has fewer characters than
        the server requires. SAME means that the user must change the password, but the new one is
        the old one.

        Raises:
            ValueError: the new password has over 256 bytes, or UTF-8 can't encode it.
        """
        both, replies = (password, new_password), (Reply.NO_ACCOUNT, Reply.WRONG)
        return self._reply(Question("change", (name,), both, *replies))

    def known(self, name: str) -> Replied:
        """Asks whether a user may log in. Returns YES, ABSENT for no record or a lock, or
        NO_ACCOUNT.

        The reply EXPIRED means that the user must change the password.
        """
        return self._reply(Question("known", (name,), no_name=Reply.NO_ACCOUNT))

    def account(self, name: str) -> Replied:
        """Adds an account without a record. Returns OK. Raises `Refused` (1 exists) if the name
        exists."""
        return self._reply(Question("account", (name,)))

    @hidden
    def enrol(self, name: str, password: Secret) -> Replied:
        """Sets a first password. Returns ENROLLED, EXISTS if the account has a record or a lock, or
        NO_ACCOUNT."""
        return self._reply(Question("enrol", (name,), (password,)))

    @hidden
    def reset(self, name: str, new_password: Secret) -> Replied:
        """Sets a password without the old one. Returns REPLACED, ENROLLED if the account had no
        record, or NO_ACCOUNT. A lock remains."""
        return self._reply(Question("reset", (name,), (new_password,)))

    def disable(self, name: str) -> Replied:
        """Removes the record, and keeps the name. Returns DISABLED, ABSENT or NO_ACCOUNT."""
        return self._reply(Question("disable", (name,)))

    def delete(self, name: str) -> Replied:
        """Removes the account with its record. Returns DELETED or NO_ACCOUNT."""
        return self._reply(Question("delete", (name,)))

    def rename(self, name: str, new_name: str) -> Replied:
        """Gives an account another name. Returns RENAMED, EXISTS if an account has that name, or
        NO_ACCOUNT."""
        return self._reply(Question("rename", (name, new_name)))

    def lock(self, name: str) -> Replied:
        """Makes every password wrong until `unlock`. Returns LOCKED or NO_ACCOUNT."""
        return self._reply(Question("lock", (name,)))

    def unlock(self, name: str) -> Replied:
        """Ends a lock. Returns UNLOCKED, NONE if the account wasn't locked, or NO_ACCOUNT."""
        return self._reply(Question("unlock", (name,)))

    def expire(self, name: str) -> Replied:
        """Requires a new password before the next login. Returns EXPIRED, ABSENT or NO_ACCOUNT."""
        return self._reply(Question("expire", (name,)))

    def names(self, first: str = "-", count: int = 100) -> Listed:
        """Returns up to `count` names (1 to 1000), in order, from `first` on."""
        return self._listed(Question("list", (first, str(count))))


class Client(Calls[Reply, list[str]]):
    """Queries a book through a socket of credkeep-server.

    Each call opens and closes its own connection. Many threads may therefore use one client at the
    same time, even after a fork.

    Args:
        path: the path of the socket.
        timeout: the time limit of a call, in seconds.

    Each call may raise `ServerError`. A call with a new password raises ValueError if the password
    has over 256 bytes.
    """

    def __init__(
        self, path: Union[str, "os.PathLike[str]"] = LOGIN_SOCKET, timeout: float = 10.0
    ) -> None:
        self._path, self._timeout = os.fspath(path), timeout

    def _reply(self, asked: Question) -> Reply:
        known = asked.known_reply()
        return asked.reply(b"1", self._line(asked)) if known is None else known

    def _listed(self, asked: Question) -> list[str]:
        return answer_of(b"1", self._line(asked)).split()[1:]

    def _line(self, asked: Question) -> bytes:
        """Returns the first received line, or the beginning of a longer one."""
        until = time.monotonic() + self._timeout
        sent, line = asked.line(b"1"), b""
        try:
            with socket.socket(socket.AF_UNIX) as connection:
                connection.settimeout(self._timeout)
                self._connect(connection, until)
                connection.sendall(sent)
                while b"\n" not in line and len(line) < LONGEST_ANSWER:
                    connection.settimeout(max(until - time.monotonic(), 0.001))
                    more = connection.recv(4096)
                    if not more:
                        break
                    line += more
        except OSError as fault:
            raise Unavailable(f"{self._path}: {fault.strerror or fault}") from None
        first, end, _ = line.partition(b"\n")
        return first + end

    def _connect(self, connection: socket.socket, until: float) -> None:
        """Connects, and waits if too many other clients are waiting for the server."""
        while True:
            try:
                return connection.connect(self._path)
            except BlockingIOError:
                if time.monotonic() >= until:
                    raise
                time.sleep(0.005)
