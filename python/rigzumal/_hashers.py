"""The hashers of passwords, with argon2-cffi's interface, and the functions `argon2` and
`scrypt`."""

from __future__ import annotations

import enum
import sys

from rigzumal import _library
from rigzumal._frozen import Frozen
from rigzumal._hidden import hidden, is_ours
from rigzumal._library import Secret, checked, in_range, pair, whole_number

TYPE_CHECKING = False
if TYPE_CHECKING:
    from collections.abc import Iterable
    from typing import Any, Final, Literal, Optional, Union

    from typing_extensions import TypeAlias

Bytes: TypeAlias = "Union[bytes, bytearray, memoryview]"
"""An object with bytes."""

_SCRYPT: Final = 3
_MOST: Final = 2**32 - 1
_MOST_MEMORY: Final = 2 * 1024 * 1024  # KiB
LOW_MEMORY: Final = 8192  # KiB; a caller who passes less probably means MiB
_has_warned = False

# The faults in rigzumal.h for a number out of its range.
_SALT: Final = 6
_TAG: Final = 7
_LANES: Final = 14
_COST: Final = 15
_PASSES: Final = 16
_SCRYPT_COST: Final = 19
_BLOCK_SIZE: Final = 20
_BLOCKS: Final = 21


class LowMemoryWarning(UserWarning):
    """A hasher has a memory_cost below 8 MiB. Perhaps the caller meant MiB, but the unit is KiB."""


def _warn_of(memory_cost: int) -> None:
    """Warns a caller that sets a low memory cost, once in each process."""
    global _has_warned
    if memory_cost >= LOW_MEMORY or _has_warned:
        return
    import warnings  # most processes don't need it

    level, frame = 1, sys._getframe()
    while is_ours(frame) and frame.f_back is not None:
        level, frame = level + 1, frame.f_back
    said = f"memory_cost={memory_cost} means {memory_cost} KiB, which is low: 64 MiB is 65536"
    warnings.warn(said, LowMemoryWarning, level)
    _has_warned = True


class Type(enum.IntEnum):
    """The kinds of Argon2 (RFC 9106). Use ID for passwords."""

    D = 0
    I = 1  # noqa: E741
    ID = 2


class _Hasher(Frozen):
    """The shared part of the hashers: new records, verification, and rehashing."""

    hash_len: int
    salt_len: int
    secret: Optional[bytes] = None
    secrets: tuple[bytes, ...] = ()
    threads: int = 1
    _LEAST_SALT: int

    _COSTS: str

    @property
    def costs(self) -> str:
        """The beginning of a new record, such as "$argon2id$v=19$m=65536,t=3,p=4"."""
        return self._COSTS.format_map(vars(self)).lower()

    def _scheme(self) -> tuple[int, ...]:
        """The scheme, the version and the three numbers, as in a record's parts."""
        raise NotImplementedError

    def _secrets(self) -> tuple[Optional[bytes], ...]:
        """The secret of new records, and those of older ones."""
        return self.secrets or (self.secret,)

    @hidden
    def hash(self, password: Secret, *, salt: Optional[Bytes] = None) -> str:
        """Returns a new record of the password.

        Args:
            password: the password, shorter than 2^32 bytes.
            salt: 8 to 48 bytes (for scrypt 1 to 48); by default getrandom(2) generates one.

        Raises:
            InvalidNumbersError: the salt or the password has a wrong size.
            OutOfMemoryError: the free memory was too small.
            NoRandomError: the system returned no random bytes.
            TypeError: the password is neither bytes nor str, or the salt isn't bytes.
            ValueError: UTF-8 can't encode the password.
        """
        chosen: Union[bytes, int] = self.salt_len
        if salt is not None:
            chosen = _library.data_of(salt)
            in_range("the salt's length", len(chosen), self._LEAST_SALT, 48, _SALT)
        given = (self.costs, chosen, self.hash_len, password)
        return _library.record(*given, self._secrets()[0], self.threads)

    @hidden
    def verify(self, hash: Secret, password: Secret) -> Literal[True]:
        """Returns True if the password is right.

        Raises:
            VerifyMismatchError: the record belongs to another password.
            InvalidRecordError: the text isn't a record; the exception names its first fault.
            OutOfMemoryError: the free memory was too small.
            TypeError, ValueError: as in `hash`.
        """
        if self._place(hash, password) is None:
            raise _library.VerifyMismatchError(_library.MISMATCH)
        return True

    def _place(self, hash: Secret, password: Secret) -> Optional[int]:
        """Returns the index of the secret with which the record was hashed, or None for a wrong
        password. The method tries each secret, so that the time doesn't tell a right password."""
        # An empty secret means none. With a secret, the library refuses a record of scrypt.
        faults = [
            _library.check(hash, password, secret or None, self.threads)
            for secret in self._secrets()
        ]
        if _library.OK in faults:
            return faults.index(_library.OK)
        of_one_secret = (_library.MISMATCH, _library.SCHEME)
        others = [it for it in faults if it not in of_one_secret]
        fault = others[0] if others else max(faults)  # MISMATCH if any secret reads the record
        if fault < _library.MEMORY and _is_record(password):
            said = "the second argument is a record, but the first isn't: pass the record first"
            raise _library.InvalidRecordError(fault, said)
        if fault != _library.MISMATCH:
            _library.raise_fault(fault, hash)
        return None

    @hidden
    def verify_and_rehash(self, hash: Secret, password: Secret) -> Optional[str]:
        """Checks the password, and returns a new record if the record is outdated, otherwise None.

        A wrong password costs as many hashes as a right one. The method raises the exceptions of
        `verify` and `hash`.
        """
        place = self._place(hash, password)
        is_old = self.check_needs_rehash(hash)
        # Only the right password tells which of several secrets the record needs.
        made = self.hash(password) if is_old or len(self._secrets()) > 1 else None
        if place is None:
            raise _library.VerifyMismatchError(_library.MISMATCH)
        return made if is_old or place > 0 else None

    def check_needs_rehash(self, hash: Secret) -> bool:
        """Whether the record has another scheme, version, cost or size than a new one.

        The record doesn't show its secret: only `verify_and_rehash` can determine which secret the
        record needs. Raises InvalidRecordError for a text that isn't a record.
        """
        parts = _library.parts(hash)
        found = (parts.scheme, parts.version, parts.memory, parts.passes, parts.lanes)
        sizes = (parts.salt_size, parts.tag_size)
        return found + sizes != self._scheme() + (self.salt_len, self.hash_len)


def _is_record(password: Secret) -> bool:
    """Whether a password is a record: other libraries have these two arguments in the other
    order."""
    return isinstance(password, (str, bytes)) and _library.is_record(password)


class PasswordHasher(_Hasher):
    """Hashes passwords into records by Argon2 (RFC 9106), version 0x13, and verifies them.

    Attributes:
        time_cost: passes, 1 to 2^32 - 1.
        memory_cost: in KiB, from 8 for each lane to 2097152.
        parallelism: lanes, 1 to 255.
        hash_len: the size of the tag in bytes, 4 to 64.
        salt_len: the size of a generated salt in bytes, 8 to 48.
        type: the kind of Argon2.
        secret: a pepper, which you keep apart from the records: RFC 9106's K. A hasher with a
            secret verifies only records with that secret, and none of scrypt. The secret must not
            be empty, so that an unset variable causes an error. No repr shows the secret.
        threads: the number of threads that may compute the lanes of one record, including the
            caller's; records don't show this number. Use 1 in a service, where other logins use the
            other processors. In a program that hashes one password at a time, pass the number of
            lanes. On four idle processors, a hash with 64 MiB and four lanes then takes a third of
            the time. The library starts at most one thread for each processor, and none below
            4 MiB.
        secrets: the new pepper and older ones, instead of `secret`, to rotate peppers. A new
            record uses the first, which is then `secret`. `verify` tries each, so any password
            costs a hash for each. `verify_and_rehash` costs one more, and replaces records with
            older peppers. b"" among the older ones means records without a pepper, also of scrypt.

    Raises:
        InvalidNumbersError: a number is out of range.
        TypeError: a number isn't an int, or a secret isn't bytes.
        ValueError: the kind doesn't exist, `secret` isn't the first of `secrets`, or `secrets` or
            the pepper of new records is empty.

    The constructor warns of a memory_cost below 8192 (8 MiB) with LowMemoryWarning, once in each
    process.
    """

    time_cost: int
    memory_cost: int
    parallelism: int
    type: Type
    _LEAST_SALT = 8
    _COSTS = "$argon2{type.name}$v=19$m={memory_cost},t={time_cost},p={parallelism}"

    @hidden
    def __init__(
        self,
        time_cost: int = 3,
        memory_cost: int = 65536,
        parallelism: int = 4,
        hash_len: int = 32,
        salt_len: int = 16,
        type: Type = Type.ID,
        secret: Optional[Bytes] = None,
        threads: int = 1,
        secrets: Optional[Iterable[Bytes]] = None,
    ) -> None:
        least = 8 * in_range("parallelism", parallelism, 1, 255, _LANES)
        if isinstance(type, str):
            raise TypeError("type must be Type.ID, Type.I or Type.D, not str")
        whole_number("type", type)
        one = None if secret is None else _library.data_of(secret)
        several = tuple(_library.data_of(it) for it in secrets or ())
        if several and one not in (None, several[0]):
            raise ValueError("pass secret or secrets, not both")
        if secrets is not None and not several:
            raise ValueError("secrets is empty: omit it if you have no pepper")
        if b"" in (one, *several[:1]):
            raise ValueError("the secret is empty: omit it if you have no pepper")
        self._set(
            time_cost=in_range("time_cost", time_cost, 1, _MOST, _PASSES),
            memory_cost=in_range("memory_cost", memory_cost, least, _MOST_MEMORY, _COST),
            parallelism=parallelism,
            hash_len=in_range("hash_len", hash_len, 4, 64, _TAG),
            salt_len=in_range("salt_len", salt_len, self._LEAST_SALT, 48, _SALT),
            type=Type(type),
            secret=several[0] if several else one,
            threads=in_range("threads", threads, 1, _MOST, _library.RANGE),
            secrets=several,
        )
        _warn_of(memory_cost)

    @hidden
    def replace(self, **changes: Any) -> PasswordHasher:
        """Returns a copy in which some attributes have other values."""
        if "secrets" in changes:
            changes = {"secret": None, **changes}
        return super().replace(**{"secrets": self.secrets or None, **changes})

    def _shown(self) -> dict[str, object]:
        hidden = ("secret", "secrets")
        return {name: it for name, it in vars(self).items() if name not in hidden}

    def _scheme(self) -> tuple[int, ...]:
        numbers = (self.memory_cost, self.time_cost, self.parallelism)
        return (int(self.type), 0x13, *numbers)


class ScryptHasher(_Hasher):
    """Hashes passwords into records by scrypt (RFC 7914), and verifies them.

    Attributes:
        log2_n: the exponent of the cost N, a power of two: 1 to 23, below 16 * r.
        block_size: r, 1 to 255. The table has 128 * r * N bytes, at most 2 GiB.
        parallelism: p, 1 to 255; the caller's thread does all of the work.
        hash_len: the size of the key in bytes, 4 to 64.
        salt_len: the size of a generated salt in bytes, 1 to 48.

    Raises:
        InvalidNumbersError: a number is out of range.
        TypeError: a number isn't an int.
    """

    log2_n: int
    block_size: int
    parallelism: int
    _LEAST_SALT = 1
    _COSTS = "$scrypt$ln={log2_n},r={block_size},p={parallelism}"

    def __init__(
        self,
        log2_n: int = 17,
        block_size: int = 8,
        parallelism: int = 1,
        hash_len: int = 32,
        salt_len: int = 16,
    ) -> None:
        in_range("block_size", block_size, 1, 255, _BLOCK_SIZE)
        # 2 GiB are 2^24 times 128 bytes.
        of_table = (2**24 // block_size).bit_length() - 1
        most = min(16 * block_size - 1, of_table)
        self._set(
            log2_n=in_range("log2_n", log2_n, 1, most, _SCRYPT_COST),
            block_size=block_size,
            parallelism=in_range("parallelism", parallelism, 1, 255, _BLOCKS),
            hash_len=in_range("hash_len", hash_len, 4, 64, _TAG),
            salt_len=in_range("salt_len", salt_len, self._LEAST_SALT, 48, _SALT),
        )

    def _scheme(self) -> tuple[int, ...]:
        return (_SCRYPT, 0, self.log2_n, self.block_size, self.parallelism)


@hidden
def argon2(
    password: Secret,
    salt: Bytes,
    *,
    time_cost: int,
    memory_cost: int,
    parallelism: int,
    hash_len: int = 32,
    type: Type = Type.ID,
    version: int = 0x13,
    secret: Secret = b"",
    associated: Bytes = b"",
    threads: int = 1,
) -> bytes:
    """Computes the Argon2 tag of hash_len bytes (RFC 9106), with memory_cost in KiB.

    At most `threads` threads compute the lanes: see PasswordHasher.

    Raises:
        InvalidNumbersError: a number is out of range.
        OverflowError: a number is negative, or 2^32 or more.
        OutOfMemoryError: the free memory was too small.
        TypeError: an input has a wrong type, or a number isn't an int.
    """
    whole_number("type", type)
    numbers = (type, version, memory_cost, time_cost, parallelism)
    costs = _library.Argon2Numbers(*map(checked, numbers))
    data = (*pair(_library.bytes_of(password)), *pair(_library.data_of(salt)))
    more = (*pair(_library.bytes_of(secret)), *pair(_library.data_of(associated)))
    inputs = _library.Inputs(*data, *more, checked(threads))
    call = _library._library.rigzumal_argon2_from
    return _library.made_bytes(hash_len, call, costs, inputs)


@hidden
def scrypt(
    password: Secret, salt: Bytes, *, log2_n: int, r: int, p: int, length: int = 32
) -> bytes:
    """Computes the scrypt key of `length` bytes (RFC 7914), with N = 2^log2_n.

    Raises:
        InvalidNumbersError: a number is out of range.
        OverflowError: a number is negative, or 2^32 or more.
        OutOfMemoryError: the free memory was too small.
        TypeError: an input has a wrong type, or a number isn't an int.
    """
    costs = _library.ScryptNumbers(*map(checked, (log2_n, r, p)))
    data = (*pair(_library.bytes_of(password)), *pair(_library.data_of(salt)))
    call = _library._library.rigzumal_scrypt
    return _library.made_bytes(length, call, costs, *data)
