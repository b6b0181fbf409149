"""The result of a whole operation on the copy of a record, and the rules for its passwords."""

from __future__ import annotations

import copy as copying
import ctypes
import os
from collections.abc import Awaitable, Callable, Iterable
from dataclasses import dataclass
from typing import Any, Final, Optional, Union

from rigzumal import InvalidRecordError, PasswordHasher, ScryptHasher, _library
from rigzumal._library import Secret, StepInputs, pair, text_bytes, whole_number
from rigzumal._parts import Parts, encoded, parts
from rigzumal.accounts.types import LONGEST_PASSWORD, Copy, Kind, Reply, Request
from rigzumal.accounts.types import Ticket, Worked, bytes_of_password

Hasher = Union[PasswordHasher, ScryptHasher]

Foreign = Callable[[str, bytes], Union[Optional[bool], Awaitable[Optional[bool]]]]
"""Returns whether a password is right for a record of another scheme, as True or False.

None means that no password is right and that the hook hashed nothing, as for a locked
login. Rigzumal then computes a hash, so that the answer takes equally long. Any other answer
raises a TypeError. AsyncAccounts awaits a coroutine function, and calls any other function in
its executor.
"""

Prepare = Callable[[str], str]
"""Converts a password to the form for the hash, as `rigzumal.opaque_string` does.

The function raises ValueError for a password that no account may have.
"""

FOREIGN_HINT: Final = ": pass Accounts a `foreign` that checks records of other schemes"
DAMAGED_HINT: Final = ": reset this password, and check the length of the column"
_OURS: Final = ("$argon2", "$scrypt$")  # how records of our schemes begin
_TAG_SIZE: Final = 32
_KNOWN: Final = 64  # costs for which a judge remembers whether an upgrade replaces them
# The place of each is its number in the library for C.
_OPERATIONS: Final = {kind: number for number, kind in enumerate(Kind, 1)}
_REPLIES: Final = dict(enumerate(Reply, 1))
# The field of a request with the account's new password.
_NEW: Final = {
    Kind.ENROL: "password",
    Kind.CHANGE: "new_password",
    Kind.RESET: "new_password",
}


@dataclass(frozen=True)
class Passwords:
    """The rules of Accounts for passwords."""

    least_length: int = 1
    prepare: Optional[Prepare] = None

    def __post_init__(self) -> None:
        whole_number("least_length", self.least_length)
        if not 0 <= self.least_length <= LONGEST_PASSWORD:
            raise ValueError(f"least_length must be 0 to {LONGEST_PASSWORD}")
        if self.prepare is not None and not callable(self.prepare):
            kind = type(self.prepare).__name__
            raise TypeError(f"`prepare` must be a function, not a {kind}")

    def new(self, password: Secret) -> bytes:
        """Returns the bytes of a new password.

        Raises TypeError if the password is neither bytes nor text. Raises ValueError for a length
        out of bounds, for a text that UTF-8 can't encode, and if `prepare` refuses the password.
        """
        made = self._prepared(bytes_of_password(password))
        if len(made.decode(errors="replace")) < self.least_length:
            plural = "s" if self.least_length > 1 else ""
            least = f"{self.least_length} character{plural}"
            raise ValueError(f"a password has at least {least}")
        return made

    def of(self, request: Request) -> Request:
        """Returns the request with its passwords in the form for the hash, and raises the
        exceptions of `new`."""
        new = _NEW.get(request.kind)
        if new is None and self.prepare is None:
            return request
        changed: dict[str, Any] = {}
        if new is not None:
            changed[new] = self.new(getattr(request, new))
        is_present = request.kind not in (Kind.ENROL, Kind.RESET)
        if self.prepare is not None and is_present and request.can_be_right:
            try:
                changed["password"] = self._prepared(request.password)
            except ValueError:  # anybody may try any password, and gets an answer
                changed.update(password=b"", can_be_right=False)
        made = copying.copy(request)
        vars(made).update(changed)
        return made

    def _prepared(self, password: bytes) -> bytes:
        """Returns the bytes to hash; bytes that aren't UTF-8 stay unchanged."""
        if self.prepare is None:
            return password
        try:
            text = password.decode()
        except UnicodeDecodeError:
            return password
        made = self.prepare(text)
        if not isinstance(made, str):
            kind = type(made).__name__
            raise TypeError(f"`prepare` must return a str, not a {kind}")
        return bytes_of_password(made)


class Judge:
    """Carries out requests on copies of records. The hasher of Accounts creates new records.

    Attributes:
        sample: a record with the hasher's costs for which no password is right.
        foreign: the hook for texts of other schemes, or None.
    """

    def __init__(
        self,
        hasher: Hasher,
        foreign: Optional[Foreign] = None,
        upgrade_from: Iterable[str] = (),
    ) -> None:
        if not isinstance(hasher, (PasswordHasher, ScryptHasher)):
            kind = type(hasher)
            found = f"{kind.__module__}.{kind.__qualname__}".removeprefix("builtins.")
            raise TypeError(f"pass rigzumal's PasswordHasher or ScryptHasher, not {found}")
        if hasher.hash_len != _TAG_SIZE:
            raise ValueError(f"the hasher's tags must have {_TAG_SIZE} bytes: set its hash_len")
        if foreign is not None and not callable(foreign):
            kind = type(foreign).__name__
            raise TypeError(f"`foreign` must be a function, not a {kind}")
        self._hasher, self.foreign = hasher, foreign
        self._upgraded: dict[str, bool] = {}
        # b"" among older secrets means records without one.
        self._secrets = tuple(it or None for it in hasher._secrets())
        self._secret = self._secrets[0]
        self.sample = f"{self._setting()}${encoded(os.urandom(_TAG_SIZE))}"
        self._parts = parts(self.sample)
        if isinstance(upgrade_from, str):
            raise TypeError("upgrade_from is a list of costs, not a str")
        self._old = frozenset(map(_numbers_of, upgrade_from))
        if self._parts.costs in self._old:
            raise ValueError("upgrade_from has the hasher's own costs")

    def new_record(self, password: Secret) -> str:
        """Returns a new record of a password, and raises the exceptions of `bytes_of_password`."""
        return self._made(bytes_of_password(password))

    def question(self, ticket: Ticket) -> Optional[tuple[Foreign, str, bytes]]:
        """Returns the hook with its arguments, the record and the password, or None if no hook has
        to answer."""
        request, copy = ticket.request, ticket.copy
        if self.foreign is None or not isinstance(copy, str):
            return None
        is_judged = request.kind not in (Kind.ENROL, Kind.RESET)
        if not (is_judged and request.can_be_right) or _library.is_record(copy):
            return None
        return self.foreign, copy, request.password

    def work(self, ticket: Ticket, right: Optional[bool] = None) -> Worked:
        """Returns the result of the whole operation on the ticket's copy.

        `right` is the hook's answer to the ticket's question. A wrong password costs as many hashes
        as a right one: the time must not tell them apart. An account without a record costs as many
        as one with the sample, and so does an unknown name.
        """
        request, copy = ticket.request, ticket.copy
        reply, after = self._judged(ticket, right)
        if not isinstance(copy, str) and request.kind not in (Kind.ENROL, Kind.RESET):
            self._at_record(request, self.sample)
        return Worked(ticket, reply, after)

    def _judged(self, ticket: Ticket, right: Optional[bool]) -> tuple[Reply, Copy]:
        request, copy = ticket.request, ticket.copy
        if copy is not None and not isinstance(copy, str):
            return Reply.NO_ACCOUNT, copy
        if request.kind is Kind.RESET:
            reply = Reply.ENROLLED if copy is None else Reply.REPLACED
            return reply, self._made(request.new_password)
        if copy is None:
            return self._stepped(request, copy)
        if request.kind is Kind.ENROL:
            # This holds for any record: an enrolment doesn't read its text, but a step would.
            return Reply.EXISTS, copy
        try:
            return self._at_record(request, copy)
        except InvalidRecordError as fault:
            if _library.is_record(copy):
                raise
            refused = fault
        if self.foreign is None:
            hint = DAMAGED_HINT if copy.startswith(_OURS) else FOREIGN_HINT
            raise InvalidRecordError(refused.number, f"{refused}{hint}")
        if right is not None:
            return self._at_other(request, copy, right)
        self._at_record(request, self.sample)  # for a hook that hashed nothing
        return _wrong(request), copy

    def _at_record(self, request: Request, copy: str) -> tuple[Reply, Copy]:
        """Returns the result for a record of ours. A password that can't be right is hashed too."""
        secrets = self._secrets
        if None in secrets and copy.startswith("$scrypt$"):
            secrets = (None,)
        if secrets == (self._secret,):
            result = self._stepped(request, copy)
        else:
            result = self._rotated(request, copy, secrets)
        return result if request.can_be_right else (_wrong(request), copy)

    def _rotated(
        self, request: Request, copy: str, secrets: tuple[Optional[bytes], ...]
    ) -> tuple[Reply, Copy]:
        """Returns the result for a record of one of these secrets. Each password costs a hash for
        each secret, and an upgrade the hash of a new record, since only a right password tells
        which secret the record needs."""
        rights = [is_right(copy, request.password, it) for it in secrets]
        result = self._at_other(request, copy, any(rights))
        is_of_new = secrets[0] == self._secret and rights[0]
        if request.kind is Kind.UPGRADE and is_of_new and not self._is_upgraded(copy):
            return Reply.KEPT, copy
        return result

    def _stepped(self, request: Request, copy: Optional[str]) -> tuple[Reply, Copy]:
        """Returns the step's answer under the first secret, and the new record."""
        kind, password, secret = request.kind, request.password, self._secret
        if kind is Kind.UPGRADE and copy is not None and not self._is_upgraded(copy):
            is_kept = is_right(copy, password, secret)
            return (Reply.KEPT if is_kept else Reply.WRONG), copy
        if kind in (Kind.VERIFY, Kind.REMOVE):
            return step(kind, copy, password, b"", "", secret)
        new, setting = request.new_password, self._setting()
        return step(kind, copy, password, new, setting, secret)

    def _at_other(self, request: Request, copy: str, right: bool) -> tuple[Reply, Copy]:
        """Returns the result for a record that any upgrade replaces. A wrong password costs the
        hash of the new record too."""
        kind, made = request.kind, None
        if kind is Kind.CHANGE:
            made = self._made(request.new_password)
        elif kind is Kind.UPGRADE:
            made = self._made(request.password)
        if not right:
            return _wrong(request), copy
        if kind is Kind.VERIFY:
            return Reply.YES, copy
        if kind is Kind.REMOVE:
            return Reply.REMOVED, None
        return (Reply.REPLACED if kind is Kind.CHANGE else Reply.UPGRADED), made

    def _made(self, password: bytes) -> str:
        setting = self._setting()
        _, made = step(Kind.ENROL, None, password, b"", setting, self._secret)
        assert made is not None
        return made

    def _setting(self) -> str:
        salt = os.urandom(self._hasher.salt_len)
        return f"{self._hasher.costs}${encoded(salt)}"

    def _is_upgraded(self, record: str) -> bool:
        """Whether an upgrade replaces a record because of its costs."""
        costs = record.rsplit("$", 2)[0]
        found = self._upgraded.get(costs)
        if found is None:
            if len(self._upgraded) == _KNOWN:
                self._upgraded.clear()
            found = self._upgraded[costs] = self.goes_up(parts(record))
        return found

    def goes_up(self, found: Parts) -> bool:
        """Whether an upgrade replaces a record with these numbers.

        Without `upgrade_from` no chain of upgrades leads back: within one scheme, neither version,
        memory nor work decreases, and one of them increases. Two versions of a service with
        different costs therefore never replace each other's records in turn.
        """
        if found.costs in self._old:
            return True
        if found.scheme != self._parts.scheme:
            return False
        old, new = _dearness(found), _dearness(self._parts)
        return old != new and all(one <= two for one, two in zip(old, new))


def verdict_of(answer: object) -> Optional[bool]:
    """Returns the hook's answer, and raises TypeError for a pair, a string or a number."""
    if answer is None or isinstance(answer, bool):
        return answer
    kind = type(answer).__name__
    raise TypeError(f"`foreign` must return True, False or None, not a {kind}")


def _numbers_of(costs: str) -> tuple[str, int, int, int, int]:
    """Returns the numbers of costs, and raises InvalidRecordError for any other text, such as a
    record."""
    try:
        return parts(f"{costs}${'A' * 22}${encoded(bytes(_TAG_SIZE))}").costs
    except InvalidRecordError as fault:
        wanted = 'upgrade_from needs costs such as "$argon2i$v=19$m=65536,t=3,p=4"'
        raise InvalidRecordError(fault.number, f"{wanted} in each entry: {fault}") from None


def _wrong(request: Request) -> Reply:
    return Reply.NO if request.kind is Kind.VERIFY else Reply.WRONG


def _dearness(found: Parts) -> tuple[int, int, int]:
    """Returns version, memory and work, in units that don't matter within one scheme."""
    if found.scheme == "scrypt":
        memory = found.passes << found.memory
        return found.version, memory, memory * found.lanes
    return found.version, found.memory, found.memory * found.passes


def step(
    kind: Kind,
    copy: Optional[str],
    password: bytes,
    new_password: bytes = b"",
    setting: str = "",
    secret: Optional[bytes] = None,
) -> tuple[Reply, Optional[str]]:
    """Returns the reply of a whole operation on a record of ours, and the new record.

    Calls rigzumal_step_from, which has no reset, and without a secret runs the proved
    rigzumal_step. The setting of a new record is its costs with a fresh salt.
    """
    size = _library.TEXT_SIZE if setting else 0
    text = ctypes.create_string_buffer(size) if setting else None
    record = None if copy is None else text_bytes(copy)
    data = (*pair(password), *pair(new_password), setting.encode(), *pair(secret))
    inputs, answer = StepInputs(_OPERATIONS[kind], record, *data, 1), ctypes.c_uint32()
    fault = _library._library.rigzumal_step_from(text, size, answer, inputs)
    if fault != _library.OK:
        if copy is not None:
            _library.check_text(copy)  # raises the record's own fault
        _library.raise_fault(fault)
    reply = _REPLIES[answer.value]
    if not reply.makes_change:
        return reply, copy
    return reply, None if text is None else text.value.decode()


def is_right(record: str, password: Secret, secret: Optional[bytes] = None) -> bool:
    """Whether the password is right for a record."""
    fault = _library.check(record, password, secret)
    if fault == _library.MISMATCH:
        return False
    _library.raise_fault(fault, record)
    return True
