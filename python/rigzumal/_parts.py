"""Reads the numbers of a record without its password, and encodes base64 without padding."""

from __future__ import annotations

from binascii import a2b_base64, b2a_base64

from rigzumal import _library
from rigzumal._frozen import Frozen
from rigzumal._library import Secret

_SCHEMES = ("argon2d", "argon2i", "argon2id", "scrypt")


class Parts(Frozen):
    """The numbers of a record.

    Attributes:
        scheme: "argon2d", "argon2i", "argon2id" or "scrypt".
        version: 0x13 or 0x10 for Argon2; 0 for scrypt.
        memory: KiB for Argon2; log2 of N for scrypt.
        passes: the passes of Argon2; the block size r for scrypt.
        lanes: the lanes of Argon2; the parallelism p for scrypt.
        salt_size: the size of the salt in bytes.
        tag_size: the size of the tag in bytes.
    """

    scheme: str
    version: int
    memory: int
    passes: int
    lanes: int
    salt_size: int
    tag_size: int

    @property
    def costs(self) -> tuple[str, int, int, int, int]:
        """The scheme, the version and the three numbers."""
        return self.scheme, self.version, self.memory, self.passes, self.lanes


def parts(record: Secret) -> Parts:
    """Reads the numbers of a record, for example to decide about a rehash.

    Raises:
        InvalidRecordError: the text isn't a record; the exception names its first fault.
    """
    found = _library.parts(record)
    scheme, *numbers = (getattr(found, name) for name, *_ in found._fields_)
    return Parts(_SCHEMES[scheme], *numbers)


def encoded(data: bytes) -> str:
    """Returns the base64 of some bytes."""
    return b2a_base64(data, newline=False).rstrip(b"=").decode()


def decoded(letters: str) -> bytes:
    """Returns the bytes of a base64 text, and raises ValueError for any other text."""
    data = a2b_base64(letters + "=" * (-len(letters) % 4))
    if encoded(data) != letters:
        raise ValueError("a salt or a tag is not base64")
    return data


# The beginnings of records of other programs: $2b$.., or Django's pbkdf2_sha256$... The package
# shows nothing else of the text, which may be a password.
_OTHERS = r"\$([A-Za-z0-9-]{1,20})\$" r"|((?:pbkdf2|bcrypt|argon2|scrypt|md5|sha1)[a-z0-9_]{0,9})\$"


def scheme_of_another(record: str) -> str:
    """Returns the scheme that another program's record shows, or "" if it shows none."""
    import re

    found = re.match(_OTHERS, record)
    name = found and (found[1] or found[2])
    if not name or name in _SCHEMES and record.startswith("$"):
        return ""
    return name


def none_of_ours(record: str) -> str:
    """Returns the scheme of another program's record, in words for people."""
    scheme = scheme_of_another(record)
    return f"the record's scheme is {scheme}" if scheme else ""
