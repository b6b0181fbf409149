"""Password hashers for Django's own strings, over the proved library.

The hashers read and write the strings of Django's own hashers with the same names. The costs are
class attributes, as in Django's hashers: write a subclass for other costs. A subclass may wrap old
hashes as Django's page "Password management" shows, with its own `algorithm` and `encode`.
"""

# mypy: allow-subclassing-any

from __future__ import annotations

import copy
import hmac
import math
import re
from typing import Any, Optional, Union

from django.contrib.auth import hashers
from django.contrib.auth.hashers import BasePasswordHasher

import rigzumal
from rigzumal._hidden import hidden_below
from rigzumal._parts import decoded, encoded
from rigzumal.django.apps import require_app

Password = Union[str, bytes]

_DJANGOS_SCRYPT = getattr(hashers, "ScryptPasswordHasher", None)
_SALT_LETTERS = 62  # the letters from which Django builds a salt
_KEY_SIZE = 64  # bytes of a scrypt key, as Django's own hasher writes it

_TAG_OF_CFFI = 16
"""The bytes of a tag of argon2-cffi before 21.2. A record with such a tag stays. Otherwise a server
with our hasher and one with Django's would rehash each other's records in turn."""

_NUMBER = r"[1-9]\d{0,9}"


def _tag(record: str) -> bytes:
    """Returns the tag at the end of a record; scrypt's tag is padded."""
    return decoded(record.rpartition("$")[2].rstrip("="))


class _RecordHasher(BasePasswordHasher):
    """The common part of both hashers, which reads, compares and shows strings, and detects old
    ones."""

    _scheme: str
    _form: re.Pattern[str]  # of a record after its algorithm
    _numbers: tuple[str, ...]  # the names of the numbers in a record and in its hasher

    def __init__(self) -> None:
        require_app()

    def decode(self, encoded: str) -> dict[str, Any]:
        """Returns the parts of a record. Raises a ValueError for any other text, and doesn't show
        the text."""
        name, _, rest = encoded.partition("$")
        found = self._form.fullmatch(rest)
        if name != self.algorithm or not found:
            raise ValueError(f"the text is not a record of {self._scheme}")
        parts: dict[str, Any] = {"algorithm": name, **found.groupdict()}
        for number in self._numbers:
            parts[number] = int(parts[number])
        _tag(parts["hash"])
        return parts

    def _made(self, password: Password, parts: dict[str, Any]) -> bytes:
        """Computes the tag of the password with a record's own numbers and salt."""
        raise NotImplementedError

    @hidden_below
    def verify(self, password: Password, encoded: str) -> bool:
        """Returns whether the password is right for the record. Raises OutOfMemoryError if memory
        runs out.

        For a damaged record, or for numbers that the library refuses, every password is wrong, and
        costs a hash like any other.
        """
        try:
            parts = self.decode(encoded)
            made = self._made(password, parts)
        # OverflowError: a number of 2^32 or more.
        except (ValueError, OverflowError):
            self.encode(b"", self.salt())
            return False
        return hmac.compare_digest(made, _tag(parts["hash"]))

    def safe_summary(self, encoded: str) -> dict[str, Any]:
        """Returns the parts of a record that Django may show, or the fault of a damaged record."""
        try:
            parts = self.decode(encoded)
        except ValueError as fault:
            return {"algorithm": self.algorithm, "broken record": str(fault)}
        for secret in ("salt", "hash"):  # at the end, in Django's order
            text = parts.pop(secret)
            parts[secret] = text[:6] + "*" * len(text[6:])
        return {name.replace("_", " "): value for name, value in parts.items()}

    def must_update(self, encoded: str) -> bool:
        """Whether the record's numbers differ from those of a new one."""
        try:
            return self._is_old(self.decode(encoded))
        except ValueError:
            return True

    def _is_old(self, parts: dict[str, Any]) -> bool:
        return any(parts[it] != getattr(self, it) for it in self._numbers)

    def harden_runtime(self, password: Password, encoded: str) -> None:
        """Does nothing, like the method of Django's own Argon2 and scrypt hashers."""


def _check_salt(salt: str) -> None:
    if not salt or "$" in salt:
        raise ValueError("a salt has at least one character, and no $")


class Argon2PasswordHasher(_RecordHasher):
    """The hasher of strings argon2$argon2id$v=19$m=102400,t=2,p=8$SALT$TAG: a word, followed by a
    record.

    Attributes:
        time_cost: passes.
        memory_cost: in KiB, from 8 for each lane to 2097152.
        parallelism: lanes, 1 to 255; a login computes all of them on its own thread.
        hash_len: the size of the tag in bytes; existing records with 16 or more stay.
    """

    algorithm = "argon2"
    time_cost = 2
    memory_cost = 102400
    parallelism = 8
    hash_len = 32
    _scheme = "Argon2"
    _numbers = ("memory_cost", "time_cost", "parallelism")
    _form = re.compile(
        r"(?P<variety>argon2(?:id|i|d))\$"
        r"(?:v=(?P<version>16|19)\$)?"
        rf"m=(?P<memory_cost>{_NUMBER}),t=(?P<time_cost>{_NUMBER}),p=(?P<parallelism>{_NUMBER})\$"
        r"(?P<salt>[A-Za-z0-9+/]+)\$"
        r"(?P<hash>[A-Za-z0-9+/]+)",
        re.ASCII,
    )

    @hidden_below
    def encode(self, password: Password, salt: str) -> str:
        """Returns a new record of the password, by Argon2id, version 0x13."""
        _check_salt(salt)
        numbers = {it: getattr(self, it) for it in (*self._numbers, "hash_len")}
        tag = rigzumal.argon2(password, salt.encode(), **numbers)
        costs = f"m={self.memory_cost},t={self.time_cost},p={self.parallelism}"
        letters = encoded(salt.encode()), encoded(tag)
        return "$".join((self.algorithm, "argon2id", "v=19", costs, *letters))

    def decode(self, encoded: str) -> dict[str, Any]:
        """Returns the parts of a record. Raises a ValueError for any other text, and doesn't show
        the text."""
        parts = super().decode(encoded)
        parts["version"] = int(parts["version"] or 16)
        parts["salt"] = decoded(parts["salt"]).decode("latin1")
        return parts

    def _made(self, password: Password, parts: dict[str, Any]) -> bytes:
        numbers = {it: parts[it] for it in self._numbers}
        numbers["hash_len"] = len(_tag(parts["hash"]))
        is_new = (parts["variety"], parts["version"]) == ("argon2id", 19)
        if is_new and parts["salt"].isascii() and "$" not in parts["salt"]:
            # Calls `encode`, in which a subclass may wrap an old hash.
            of_record = copy.copy(self)
            for name, number in numbers.items():
                setattr(of_record, name, number)
            return _tag(of_record.encode(password, parts["salt"]))
        return rigzumal.argon2(
            password,
            parts["salt"].encode("latin1"),
            **numbers,
            type=rigzumal.Type[parts["variety"].replace("argon2", "").upper()],
            version=parts["version"],
        )

    def _is_old(self, parts: dict[str, Any]) -> bool:
        bits = len(parts["salt"]) * math.log2(_SALT_LETTERS)
        return (
            super()._is_old(parts)
            or (parts["variety"], parts["version"]) != ("argon2id", 19)
            or len(_tag(parts["hash"])) < min(self.hash_len, _TAG_OF_CFFI)
            or bits < self.salt_entropy
        )


class ScryptPasswordHasher(_RecordHasher):
    """The hasher of strings scrypt$N$SALT$r$p$KEY, as in Django 4.0 and later. This hasher works
    from Django 3.2 on.

    Attributes:
        work_factor: N, a power of two.
        block_size: r, 1 to 255.
        parallelism: p, 1 to 255. The default is that of the installed Django, whose records would
            otherwise count as old. If that Django has no scrypt, the default is 5.
    """

    algorithm = "scrypt"
    work_factor = 2**14
    block_size = 8
    parallelism: int = getattr(_DJANGOS_SCRYPT, "parallelism", 5)
    _scheme = "scrypt"
    _numbers = ("work_factor", "block_size", "parallelism")
    _form = re.compile(
        rf"(?P<work_factor>{_NUMBER})\$"
        r"(?P<salt>[^$]+)\$"
        rf"(?P<block_size>{_NUMBER})\$"
        rf"(?P<parallelism>{_NUMBER})\$"
        r"(?P<hash>[A-Za-z0-9+/]+={0,2})",
        re.ASCII,
    )

    @hidden_below
    def encode(
        self,
        password: Password,
        salt: str,
        n: Optional[int] = None,
        r: Optional[int] = None,
        p: Optional[int] = None,
    ) -> str:
        """Returns a new record of the password."""
        _check_salt(salt)
        n = n or self.work_factor
        r = r or self.block_size
        p = p or self.parallelism
        parts = {"work_factor": n, "block_size": r, "parallelism": p, "salt": salt}
        key = encoded(self._key(password, parts, _KEY_SIZE))
        return f"{self.algorithm}${n}${salt}${r}${p}${key}=="

    def _made(self, password: Password, parts: dict[str, Any]) -> bytes:
        length = len(_tag(parts["hash"]))
        if length != _KEY_SIZE:
            return self._key(password, parts, length)
        # Calls `encode`, in which a subclass may wrap an old hash.
        numbers = (parts["work_factor"], parts["block_size"], parts["parallelism"])
        return _tag(self.encode(password, parts["salt"], *numbers))

    def _key(self, password: Password, parts: dict[str, Any], length: int) -> bytes:
        work_factor = parts["work_factor"]
        if work_factor & (work_factor - 1):
            raise ValueError("the work factor isn't a power of two")
        return rigzumal.scrypt(
            password,
            parts["salt"].encode(),
            log2_n=work_factor.bit_length() - 1,
            r=parts["block_size"],
            p=parts["parallelism"],
            length=length,
        )
