"""The calls of librigzumal.so, and their faults."""

from __future__ import annotations

import ctypes
import os

# typing takes longer to import than all else here, so only type checkers import it.
TYPE_CHECKING = False
if TYPE_CHECKING:
    from collections.abc import Callable
    from typing import Any, Final, Optional, Union

    from typing_extensions import TypeAlias

Secret: TypeAlias = "Union[bytes, str]"
"""A password, for example: bytes, or text, which the package encodes in UTF-8."""

TEXT_SIZE: Final = 513
OK: Final = 0
SCHEME: Final = 2
RANGE: Final = 5
MEMORY: Final = 8
MISMATCH: Final = 10
INPUT_SIZE: Final = 18
NO_RANDOM: Final = 26


class RigzumalError(Exception):
    """A refusal by the library.

    Attributes:
        number: the fault's number, as in rigzumal.h.
        word: the fault's name in one word, such as "salt".
    """

    def __init__(self, number: int, said: str = "") -> None:
        super().__init__(said or _library.rigzumal_strerror(number).decode())
        self.number = number
        self.word: str = _library.rigzumal_word(number).decode()

    def __reduce__(self) -> tuple[Any, ...]:
        return type(self), (self.number, str(self))


class VerifyMismatchError(RigzumalError):
    """The record belongs to another password."""


class OutOfMemoryError(RigzumalError, MemoryError):
    """The free memory was too small for the costs."""


class InvalidRecordError(RigzumalError, ValueError):
    """The text isn't a record, or isn't a setting; the exception names the first fault from the
    left."""


class InvalidNumbersError(RigzumalError, ValueError):
    """A number is out of range, such as a cost or a size."""


class NoRandomError(RigzumalError):
    """The system returned no random bytes for a salt."""


_EXCEPTIONS: Final[dict[int, type[RigzumalError]]] = {
    MISMATCH: VerifyMismatchError,
    MEMORY: OutOfMemoryError,
    NO_RANDOM: NoRandomError,
}


def raise_fault(number: int, text: Secret = b"") -> None:
    """Raises the exception for a fault's number and this record; the number 0 means no fault."""
    if number == OK:
        return
    kind = _EXCEPTIONS.get(number)
    if kind is None:
        kind = InvalidRecordError if number < MISMATCH else InvalidNumbersError
    raise kind(number, _range_of(text) if number == RANGE else "")


def _range_of(text: Secret) -> str:
    """Returns the field of a record whose number is out of range, and that range."""
    words = ctypes.create_string_buffer(TEXT_SIZE)
    is_range = _library.rigzumal_explain(words, TEXT_SIZE, text_bytes(text)) == RANGE
    return words.value.decode() if is_range else ""


def bytes_of(secret: Secret) -> bytes:
    """Returns the bytes of a secret, or of another input that may be text.

    Raises TypeError for any type except bytes and text, and ValueError for a text that UTF-8 can't
    encode. No exception shows the secret.
    """
    if isinstance(secret, bytes):
        return secret
    if not isinstance(secret, str):
        return data_of(secret, "bytes or str")
    try:
        return secret.encode()
    except UnicodeEncodeError:
        pass
    raise ValueError("the text can't be encoded in UTF-8")


def data_of(data: object, wanted: str = "bytes") -> bytes:
    """Returns the bytes of a salt, for example. Raises TypeError for text and for objects without
    bytes."""
    if isinstance(data, bytes):
        return data
    try:
        return bytes(memoryview(data))  # type: ignore[arg-type]
    except TypeError:
        pass
    raise TypeError(f"expected {wanted}, not {type(data).__name__}")


def text_bytes(text: Secret) -> bytes:
    """Returns the bytes of a record or a setting, as a C string: no record has a zero byte."""
    found = bytes_of(text)
    if b"\0" in found:
        raise InvalidRecordError(1)
    return found


def _numbers(*names: str) -> list[tuple[str, Any]]:
    """Returns the numeric fields of a structure."""
    return [(name, ctypes.c_uint32) for name in names]


def _data(*names: str) -> list[tuple[str, Any]]:
    """Returns the data fields of a structure: a pointer and a size for each."""
    kinds = (("", ctypes.c_char_p), ("_size", ctypes.c_size_t))
    return [(name + end, kind) for name in names for end, kind in kinds]


class Argon2Numbers(ctypes.Structure):
    """struct rigzumal_argon2."""

    _fields_ = _numbers("kind", "version", "memory", "passes", "lanes")


class ScryptNumbers(ctypes.Structure):
    """struct rigzumal_scrypt."""

    _fields_ = _numbers("ln", "r", "p")


class RecordNumbers(ctypes.Structure):
    """struct rigzumal_parts."""

    _fields_ = _numbers(
        *("scheme", "version", "memory", "passes", "lanes", "salt_size", "tag_size")
    )


class Inputs(ctypes.Structure):
    """struct rigzumal_inputs."""

    _fields_ = _data("password", "salt", "secret", "associated") + _numbers("threads")


class StepInputs(ctypes.Structure):
    """struct rigzumal_step_inputs."""

    _fields_ = [
        *_numbers("operation"),
        ("copy", ctypes.c_char_p),
        *_data("password", "new_password"),
        ("setting", ctypes.c_char_p),
        *_data("secret"),
        *_numbers("threads"),
    ]


NAME: Final = "librigzumal.so.1"


def _path() -> str:
    """Returns the library's path: the file that RIGZUMAL_LIBRARY names.

    If the variable is unset or empty, the path is that of the first library found: in the package,
    in make's output, in the folder lib of the package's prefix, or in the system.
    """
    named = os.environ.get("RIGZUMAL_LIBRARY")
    if named:
        return named
    here = os.path.dirname(os.path.realpath(__file__))
    made = os.path.join(os.path.dirname(os.path.dirname(here)), "c", "out")
    # lib/python3.11/site-packages/rigzumal, or the like
    prefixed = os.path.normpath(os.path.join(here, "..", "..", ".."))
    for folder in (here, made, prefixed):
        path = os.path.join(folder, NAME)
        if os.path.exists(path):
            return path
    return NAME


def _load() -> Any:
    try:
        library = ctypes.CDLL(_path())
    except OSError as refused:
        hint = "build it with `make -C c`, or set RIGZUMAL_LIBRARY to its path"
        raise ImportError(f"{NAME} can't be loaded: {hint}: {refused}") from None
    text, size, to = ctypes.c_char_p, ctypes.c_size_t, ctypes.POINTER
    room, inputs = [text, size], to(Inputs)
    library.rigzumal_version.restype = text
    library.rigzumal_strerror.restype = library.rigzumal_word.restype = text
    library.rigzumal_trim.restype = library.rigzumal_keep.restype = size
    library.rigzumal_keep.argtypes = [size]
    library.rigzumal_explain.argtypes = [*room, text]
    library.rigzumal_record_from.argtypes = [*room, size, text, inputs]
    library.rigzumal_check_from.argtypes = [text, inputs]
    library.rigzumal_step_from.argtypes = [*room, to(ctypes.c_uint32), to(StepInputs)]
    library.rigzumal_record_fault.argtypes = [text]
    library.rigzumal_parts.argtypes = [to(RecordNumbers), text]
    library.rigzumal_argon2_from.argtypes = [*room, to(Argon2Numbers), inputs]
    library.rigzumal_scrypt.argtypes = [*room, to(ScryptNumbers), *room * 2]
    return library


_library = _load()

record_fault: Callable[[bytes], int] = _library.rigzumal_record_fault
"""The call rigzumal_record_fault itself, for bytes without a zero byte."""


def version() -> str:
    """Calls rigzumal_version."""
    found: bytes = _library.rigzumal_version()
    return found.decode()


def trim() -> int:
    """Returns the memory that the library keeps for later hashes to the system, and reports its
    size in bytes.

    The library keeps the memory of simultaneous hashes, up to the bound of `keep`. A system that is
    short of memory reclaims the kept memory without this call. Use `trim` in a program that seldom
    hashes.
    """
    return int(_library.rigzumal_trim())


def keep(most: int) -> int:
    """Sets the bound on the kept memory, in bytes, and returns the previous bound.

    The library rounds the bound down to a multiple of 2 MiB, and releases the kept memory. The
    default is 64 MiB, or the value of the environment variable RIGZUMAL_KEEP. With 0 the library
    keeps no memory.
    """
    whole_number("most", most)
    if not 0 <= most < 2**63:
        raise OverflowError("most must be 0 to 2^63 - 1")
    return int(_library.rigzumal_keep(most))


def pair(data: Optional[bytes]) -> tuple[Optional[bytes], int]:
    """Returns a pointer and its size, for the calls; None becomes a null pointer."""
    return data, len(data or b"")


def record(
    costs: str,
    salt: Union[bytes, int],
    tag_size: int,
    password: Secret,
    secret: Optional[bytes] = None,
    threads: int = 1,
) -> str:
    """Calls rigzumal_record_from; the salt is bytes, or the size of a salt that the library
    generates."""
    text = ctypes.create_string_buffer(TEXT_SIZE)
    given = (text, TEXT_SIZE, checked(tag_size), text_bytes(costs))
    drawn = (None, checked(salt)) if isinstance(salt, int) else pair(salt)
    data = (*pair(bytes_of(password)), *drawn, *pair(secret), None, 0)
    raise_fault(_library.rigzumal_record_from(*given, Inputs(*data, checked(threads))))
    return text.value.decode()


def check(
    text: Secret,
    password: Secret,
    secret: Optional[bytes] = None,
    threads: int = 1,
) -> int:
    """Calls rigzumal_check_from."""
    known = bytes_of(password)
    inputs = Inputs(known, len(known), threads=checked(threads))
    if secret is not None:
        inputs.secret, inputs.secret_size = secret, len(secret)
    return int(_library.rigzumal_check_from(text_bytes(text), inputs))


def parts(text: Secret) -> RecordNumbers:
    """Calls rigzumal_parts on a record, and refuses costs, which have no tag."""
    found = RecordNumbers()
    raise_fault(_library.rigzumal_parts(found, text_bytes(text)), text)
    if found.tag_size == 0:
        raise InvalidRecordError(1)
    return found


def is_record(text: Secret) -> bool:
    """Whether a text is a record of Argon2 or scrypt."""
    found = bytes_of(text)
    return b"\0" not in found and record_fault(found) == OK


def check_text(text: Secret) -> None:
    """Calls rigzumal_record_fault, and raises InvalidRecordError if the text isn't a record."""
    raise_fault(record_fault(text_bytes(text)), text)


def in_range(name: str, number: int, least: int, most: int, fault: int) -> int:
    """Returns the number, and raises InvalidNumbersError with this fault if it is out of range."""
    whole_number(name, number)
    if not least <= number <= most:
        said = f"{name} must be {least} to {most}, not {number}"
        raise InvalidNumbersError(fault, said)
    return number


def whole_number(name: str, number: object) -> None:
    """Raises a TypeError that names the number if the value isn't an int."""
    if not isinstance(number, int) or isinstance(number, bool):
        raise TypeError(f"{name} must be an int, not {type(number).__name__}")


def checked(number: int) -> int:
    """Returns a number that ctypes doesn't truncate. Raises TypeError or OverflowError for any
    other value."""
    whole_number("the number", number)
    if not 0 <= number < 2**32:
        raise OverflowError("the number must be 0 to 2^32 - 1")
    return number


def made_bytes(size: int, call: Any, *given: Any) -> bytes:
    """Returns the bytes that a call writes into a buffer of this size."""
    room = ctypes.create_string_buffer(checked(size))
    raise_fault(call(room, size, *given))
    return room.raw
