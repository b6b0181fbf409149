"""argon2-cffi's hasher."""

from __future__ import annotations

import operator
import os

from rigzumal._hidden import hidden
from rigzumal.argon2_cffi import exceptions, low_level, profiles
from rigzumal.argon2_cffi.low_level import Parameters, Type, extract_parameters

TYPE_CHECKING = False
if TYPE_CHECKING:
    from typing import Any, Final, Literal, Optional, Union

    from typing_extensions import TypeAlias

_Text: TypeAlias = "Union[str, bytes]"

_DEFAULT = profiles.RFC_9106_LOW_MEMORY
DEFAULT_RANDOM_SALT_LENGTH: Final = _DEFAULT.salt_len
DEFAULT_HASH_LENGTH: Final = _DEFAULT.hash_len
DEFAULT_TIME_COST: Final = _DEFAULT.time_cost
DEFAULT_MEMORY_COST: Final = _DEFAULT.memory_cost
DEFAULT_PARALLELISM: Final = _DEFAULT.parallelism

_TYPES: Final = {
    b"$argon2d$": Type.D,
    b"$argon2i$": Type.I,
    b"$argon2id": Type.ID,
}


def _bytes_of(text: _Text, encoding: str) -> bytes:
    """Encodes a text; an error names the position of a character that can't be encoded, but never
    the character."""
    if isinstance(text, bytes):
        return text
    try:
        return text.encode(encoding)
    except UnicodeEncodeError as raised:
        refused = raised
    places = (refused.start, refused.end)
    raise UnicodeEncodeError(refused.encoding, "*" * len(text), *places, refused.reason)


def _check_types(**given: tuple[object, type]) -> None:
    """Raises a TypeError that names the values with a wrong type."""
    wrong = [
        f"'{name}' must be a {kind.__name__} (got {type(value).__name__})"
        for name, (value, kind) in given.items()
        if not isinstance(value, kind)
    ]
    if wrong:
        raise TypeError(", ".join(wrong) + ".")


def _parameter(name: str) -> Any:
    """Builds a property that reads a hasher's parameter."""
    return property(operator.attrgetter(f"_parameters.{name}"))


class PasswordHasher:
    """Builds and verifies encoded hashes of Argon2.

    Args:
        time_cost: passes, 1 or more.
        memory_cost: in KiB, from 8 for each lane to 2097152.
        parallelism: lanes, 1 to 255, and the number of threads that may compute them.
        hash_len: the size of the tag in bytes, 4 or more.
        salt_len: the size of a generated salt in bytes, 8 or more.
        encoding: the encoding of passwords that are text.
        type: the kind of Argon2.

    Raises:
        TypeError: a value has a wrong type.
    """

    __slots__ = ["_parameters", "encoding"]

    _parameters: Parameters
    encoding: str

    time_cost: int = _parameter("time_cost")
    memory_cost: int = _parameter("memory_cost")
    parallelism: int = _parameter("parallelism")
    hash_len: int = _parameter("hash_len")
    salt_len: int = _parameter("salt_len")
    type: Type = _parameter("type")

    def __init__(
        self,
        time_cost: int = DEFAULT_TIME_COST,
        memory_cost: int = DEFAULT_MEMORY_COST,
        parallelism: int = DEFAULT_PARALLELISM,
        hash_len: int = DEFAULT_HASH_LENGTH,
        salt_len: int = DEFAULT_RANDOM_SALT_LENGTH,
        encoding: str = "utf-8",
        type: Type = Type.ID,
    ) -> None:
        _check_types(
            time_cost=(time_cost, int),
            memory_cost=(memory_cost, int),
            parallelism=(parallelism, int),
            hash_len=(hash_len, int),
            salt_len=(salt_len, int),
            encoding=(encoding, str),
            type=(type, Type),
        )
        self._parameters = Parameters(
            type, 19, salt_len, hash_len, time_cost, memory_cost, parallelism
        )
        self.encoding = encoding

    @classmethod
    def from_parameters(cls, params: Parameters) -> PasswordHasher:
        """Builds a hasher with these parameters, for version 0x13."""
        costs = params.time_cost, params.memory_cost, params.parallelism
        return cls(*costs, params.hash_len, params.salt_len, type=params.type)

    @hidden
    def hash(self, password: _Text, *, salt: Optional[bytes] = None) -> str:
        """Returns a new encoded hash, with a generated salt if the caller passes none.

        Raises:
            HashingError: a number or a size is out of range, or memory is short.
        """
        secret = _bytes_of(password, self.encoding)
        salt = os.urandom(self.salt_len) if salt is None else salt
        costs = (self.time_cost, self.memory_cost, self.parallelism, self.hash_len)
        return low_level.hash_secret(secret, salt, *costs, self.type).decode()

    @hidden
    def verify(self, hash: _Text, password: _Text) -> Literal[True]:
        """Returns True if the password is right for the hash.

        Raises:
            VerifyMismatchError: the hash belongs to another password.
            VerificationError: the verification failed for another reason.
            InvalidHashError: the hash begins with no kind of Argon2, is text outside of ASCII, or
                has a zero byte.
        """
        try:
            encoded = _bytes_of(hash, "ascii")
        except UnicodeEncodeError:
            raise exceptions.InvalidHashError from None
        kind = _TYPES.get(encoded[:9])
        if kind is None or b"\0" in encoded:
            raise exceptions.InvalidHashError
        secret = _bytes_of(password, self.encoding)
        return low_level.verify_secret(encoded, secret, kind)

    def check_needs_rehash(self, hash: _Text) -> bool:
        """Whether the hash's parameters differ from this hasher's.

        Raises:
            InvalidHashError: the text isn't a hash of Argon2.
        """
        return self._parameters != extract_parameters(hash)
