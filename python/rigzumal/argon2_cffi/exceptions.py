"""The exceptions of argon2-cffi: all but the last are also `rigzumal.RigzumalError`."""

from __future__ import annotations

import rigzumal
from rigzumal._library import MISMATCH

TYPE_CHECKING = False
if TYPE_CHECKING:
    from typing import Any


class _Said:
    """An exception with a message of libargon2, and the fault's number in rigzumal.h."""

    def __init__(self, message: str = "", number: int = 1) -> None:
        rigzumal.RigzumalError.__init__(self, number)  # type: ignore[arg-type]
        self.args = (message,) if message else ()
        self.number = number

    def __reduce__(self) -> tuple[Any, ...]:
        return type(self), (*self.args, self.number) if self.args else ()


class Argon2Error(_Said, rigzumal.RigzumalError):
    """The base class of the exceptions of hashing and verifying."""


class VerificationError(Argon2Error):
    """A verification failed."""


class VerifyMismatchError(VerificationError, rigzumal.VerifyMismatchError):
    """The hash belongs to another password."""

    def __init__(self, message: str = "", number: int = MISMATCH) -> None:
        super().__init__(message, number)


class HashingError(Argon2Error):
    """The library couldn't hash a password."""


class InvalidHashError(_Said, rigzumal.InvalidRecordError):
    """The text isn't a hash of Argon2."""


InvalidHash = InvalidHashError


class UnsupportedParametersError(ValueError):
    """Never raised, but kept for code that names it: every system runs every parameter here."""
