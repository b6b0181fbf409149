"""The functions of argon2-cffi over raw bytes, and hashes with salts and tags of any length."""

from __future__ import annotations

import functools
from enum import Enum

import rigzumal
from rigzumal import _library
from rigzumal._hidden import hidden
from rigzumal._library import RigzumalError
from rigzumal._parts import decoded, encoded
from rigzumal.argon2_cffi.exceptions import HashingError, InvalidHashError
from rigzumal.argon2_cffi.exceptions import VerificationError, VerifyMismatchError

# These imports need more time than all else, so only type checkers import typing, and functions
# import re, dataclasses and hmac when they run.
TYPE_CHECKING = False
if TYPE_CHECKING:
    import re
    from typing import Any, Final, Literal, Optional, Union

__all__ = [
    "ARGON2_VERSION",
    "Type",
    "error_to_str",
    "hash_secret",
    "hash_secret_raw",
    "verify_secret",
]

ARGON2_VERSION = 19
"""The version of Argon2 (RFC 9106)."""

_NUMBER: Final = "(0|[1-9][0-9]{0,9})"
_BASE64: Final = "([A-Za-z0-9+/]*)"
_FORM: Final = (
    rf"\$argon2(d|i|id)(?:\$v={_NUMBER})?"
    rf"\$m={_NUMBER},t={_NUMBER},p={_NUMBER}\${_BASE64}\${_BASE64}"
)
_VERSIONS: Final = (0x10, 0x13)
_NO_VERSION: Final = 18  # argon2-cffi's number for a hash without a version, which is of 0x10
_MOST_LANES: Final = 255

# Faults of records that argon2-cffi reads, but perhaps not the library: a number, or the length of
# the salt, the tag or the text.
_OF_OURS: Final = (5, 6, 7, 9)

# libargon2's messages, from 0 down to -35.
_MESSAGES: Final = (
    "OK",
    "Output pointer is NULL",
    "Output is too short",
    "Output is too long",
    "Password is too short",
    "Password is too long",
    "Salt is too short",
    "Salt is too long",
    "Associated data is too short",
    "Associated data is too long",
    "Secret is too short",
    "Secret is too long",
    "Time cost is too small",
    "Time cost is too large",
    "Memory cost is too small",
    "Memory cost is too large",
    "Too few lanes",
    "Too many lanes",
    "Password pointer is NULL, but password length is not 0",
    "Salt pointer is NULL, but salt length is not 0",
    "Secret pointer is NULL, but secret length is not 0",
    "Associated data pointer is NULL, but ad length is not 0",
    "Memory allocation error",
    "The free memory callback is NULL",
    "The allocate memory callback is NULL",
    "Argon2_Context context is NULL",
    "There is no such version of Argon2",
    "Output pointer mismatch",
    "Not enough threads",
    "Too many threads",
    "Missing arguments",
    "Encoding failed",
    "Decoding failed",
    "Threading failure",
    "Some of encoded parameters are too long or too short",
    "The password does not match the supplied hash",
)

# The number in libargon2 that is nearest to a fault of rigzumal.h.
_NUMBERS: Final = {8: -22, 10: -35, 13: -26, 14: -17, 15: -15, 16: -12, 17: -3, 18: -5}


class Type(Enum):
    """The kinds of Argon2."""

    D = 0
    I = 1  # noqa: E741
    ID = 2


class _Fields:
    """The fields of Parameters, for `dataclasses.replace` and similar functions."""

    def __get__(self, instance: object, owner: type) -> dict[str, Any]:
        import dataclasses

        made = dataclasses.make_dataclass("Parameters", owner.__annotations__)
        found: dict[str, Any] = vars(made)["__dataclass_fields__"]
        return found


class Parameters:
    """The parameters of an Argon2 hash.

    Attributes:
        type: the kind.
        version: 19, or 16 for old hashes; 18 for old hashes without a version.
        salt_len: the size of the salt in bytes.
        hash_len: the size of the tag in bytes.
        time_cost: passes.
        memory_cost: in KiB.
        parallelism: lanes.
    """

    type: Type
    version: int
    salt_len: int
    hash_len: int
    time_cost: int
    memory_cost: int
    parallelism: int

    __dataclass_fields__ = _Fields()
    __match_args__ = (
        *("type", "version", "salt_len", "hash_len"),
        *("time_cost", "memory_cost", "parallelism"),
    )

    def __init__(
        self,
        type: Type,
        version: int,
        salt_len: int,
        hash_len: int,
        time_cost: int,
        memory_cost: int,
        parallelism: int,
    ) -> None:
        self.type, self.version = type, version
        self.salt_len, self.hash_len = salt_len, hash_len
        self.time_cost, self.memory_cost = time_cost, memory_cost
        self.parallelism = parallelism

    def __eq__(self, other: object) -> bool:
        if other.__class__ is not self.__class__:
            return NotImplemented
        return vars(self) == vars(other)

    def __repr__(self) -> str:
        shown = ", ".join(f"{name}={value!r}" for name, value in vars(self).items())
        return f"{type(self).__qualname__}({shown})"


class Encoded:
    """The parts of an encoded hash."""

    def __init__(self, parameters: Parameters, salt: bytes, tag: bytes) -> None:
        self.parameters, self.salt, self.tag = parameters, salt, tag

    def text(self) -> bytes:
        """Returns the encoded hash."""
        kind, version = self.parameters.type, self.parameters.version
        memory, passes = self.parameters.memory_cost, self.parameters.time_cost
        costs = f"m={memory},t={passes},p={self.parameters.parallelism}"
        front = f"$argon2{kind.name.lower()}$v={version}${costs}"
        return f"{front}${encoded(self.salt)}${encoded(self.tag)}".encode()

    @classmethod
    def read(cls, text: bytes) -> Optional[Encoded]:
        """Returns the parts of an encoded hash, whose costs may be out of range, or None."""
        found = _form().fullmatch(text.decode("latin1"))
        if found is None:
            return None
        kind, *numbers, salt, tag = found.groups()
        version, memory, time, lanes = (int(it or 0x10) for it in numbers)
        if max(version, memory, time, lanes) >= 2**32:
            return None
        try:
            data = decoded(salt), decoded(tag)
        except ValueError:
            return None
        sizes = len(data[0]), len(data[1])
        parameters = Parameters(Type[kind.upper()], version, *sizes, time, memory, lanes)
        return cls(parameters, *data)


def extract_parameters(hash: Union[str, bytes]) -> Parameters:
    """Returns the parameters of an encoded hash.

    Raises:
        InvalidHashError: the text isn't a hash of Argon2.
    """
    try:
        text = _library.bytes_of(hash)
    except ValueError:  # UTF-8 can't encode the text
        raise InvalidHashError from None
    read = Encoded.read(text)
    if read is None or read.parameters.version not in _VERSIONS:
        raise InvalidHashError(number=_fault_of(text))
    if b"$v=" not in text:
        read.parameters.version = _NO_VERSION
    return read.parameters


@functools.lru_cache(maxsize=None)
def _form() -> re.Pattern[str]:
    """Returns the regular expression of an encoded hash."""
    import re

    return re.compile(_FORM)


def _fault_of(text: bytes) -> int:
    """Returns the fault of a record that isn't a valid hash here."""
    try:
        _library.parts(text)
    except _library.InvalidRecordError as fault:
        return fault.number
    return _library.SCHEME


def error_to_str(error: int) -> str:
    """Returns libargon2's message for one of its numbers."""
    known = -len(_MESSAGES) < error <= 0
    return _MESSAGES[-error] if known else "Unknown error code"


def _first_fault(parameters: Parameters) -> Optional[int]:
    """Returns libargon2's number for the first parameter that is too small, in libargon2's order of
    checks, or None if all are large enough."""
    faults = (
        (parameters.hash_len < 4, -2),
        (parameters.salt_len < 8, -6),
        (parameters.memory_cost < max(8, 8 * parameters.parallelism), -14),
        (parameters.time_cost < 1, -12),
        (parameters.parallelism < 1, -16),
    )
    return next((number for is_fault, number in faults if is_fault), None)


def _tag(parameters: Parameters, secret: bytes, salt: bytes) -> bytes:
    """Computes the tag for these parameters, with up to one thread for each lane."""
    numbers: dict[str, Any] = {**vars(parameters), "type": rigzumal.Type(parameters.type.value)}
    del numbers["salt_len"]
    return rigzumal.argon2(secret, salt, threads=parameters.parallelism, **numbers)


@hidden
def hash_secret_raw(
    secret: bytes,
    salt: bytes,
    time_cost: int,
    memory_cost: int,
    parallelism: int,
    hash_len: int,
    type: Type,
    version: int = ARGON2_VERSION,
) -> bytes:
    """Computes the tag of hash_len bytes, with memory_cost in KiB and up to a thread for each lane.

    Raises:
        HashingError: a number or a size is out of range, or memory is short.
        TypeError: the secret or the salt isn't bytes.
    """
    secret, salt = _library.data_of(secret), _library.data_of(salt)
    costs = (time_cost, memory_cost, parallelism)
    parameters = Parameters(type, version, len(salt), hash_len, *costs)
    number = _first_fault(parameters)
    if number is not None:
        raise HashingError(error_to_str(number))
    try:
        return _tag(parameters, secret, salt)
    except RigzumalError as fault:
        said = error_to_str(_NUMBERS.get(fault.number, -31))
        raise HashingError(said, fault.number) from None


@hidden
def hash_secret(
    secret: bytes,
    salt: bytes,
    time_cost: int,
    memory_cost: int,
    parallelism: int,
    hash_len: int,
    type: Type,
    version: int = ARGON2_VERSION,
) -> bytes:
    """Returns the encoded hash with the tag of hash_secret_raw, and raises the same exceptions."""
    salt = _library.data_of(salt)
    costs = (time_cost, memory_cost, parallelism)
    tag = hash_secret_raw(secret, salt, *costs, hash_len, type, version)
    parameters = Parameters(type, version, len(salt), hash_len, *costs)
    return Encoded(parameters, salt, tag).text()


@hidden
def verify_secret(hash: bytes, secret: bytes, type: Type) -> Literal[True]:
    """Returns True if the encoded hash has this type and the secret is right, with up to a thread
    for each lane.

    Raises:
        VerifyMismatchError: the hash belongs to another secret.
        VerificationError: the text isn't a hash of this type, or memory is short.
    """
    hash, secret = _library.data_of(hash), _library.data_of(secret)
    if not hash.startswith(f"$argon2{type.name.lower()}$".encode()):
        raise VerificationError(error_to_str(-32))
    try:
        _library.raise_fault(_verdict(hash, secret))
    except VerificationError:
        raise
    except _library.VerifyMismatchError:
        raise VerifyMismatchError(error_to_str(-35)) from None
    except RigzumalError as fault:
        known = {_library.MEMORY: -22, _library.INPUT_SIZE: -5}
        said = error_to_str(known.get(fault.number, -32))
        raise VerificationError(said, fault.number) from None
    return True


def _verdict(hash: bytes, secret: bytes) -> int:
    """Returns the library's verdict, or our own for a salt of over 48 bytes or a tag of over 64,
    which the library refuses."""
    fault = _library.check(hash, secret, threads=_MOST_LANES)
    read = Encoded.read(hash) if fault in _OF_OURS else None
    if read is None:
        return fault
    number = _first_fault(read.parameters)
    if number is not None:
        raise VerificationError(error_to_str(number), fault)
    from hmac import compare_digest

    made = _tag(read.parameters, secret, read.salt)
    return _library.OK if compare_digest(made, read.tag) else _library.MISMATCH
