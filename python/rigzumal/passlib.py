"""The passlib handlers argon2 and scrypt, over the proved library.

>>> import rigzumal.passlib
>>> rigzumal.passlib.register()
>>> from passlib.context import CryptContext
>>> context = CryptContext(["argon2", "scrypt"], argon2__memory_cost=65536)

The settings and the strings are those of passlib: each handler reads the strings of passlib's
handler with the same name, and passlib's handler reads ours. `max_threads` is the number of threads
that may compute the lanes of an Argon2 record: by default one for each lane, as in passlib. In a
service with many simultaneous logins, set `argon2__max_threads=1`.
"""

# mypy: allow-subclassing-any

from __future__ import annotations

from typing import Any, Union

from passlib.handlers import argon2 as _argon2
from passlib.handlers import scrypt as _scrypt
from passlib.registry import register_crypt_handler
from passlib.utils import handlers

import rigzumal

__all__ = ["argon2", "register", "scrypt"]

_BACKEND = "rigzumal"
_TYPES = {"id": rigzumal.Type.ID, "i": rigzumal.Type.I, "d": rigzumal.Type.D}


class _OneBackend:
    """passlib's calls for handlers with backends; this handler has a single backend."""

    backends = (_BACKEND,)

    @classmethod
    def get_backend(cls) -> str:
        """Returns the name of the single backend."""
        return _BACKEND

    @classmethod
    def has_backend(cls, name: str = "any") -> bool:
        """Whether a backend has this name."""
        return name in ("any", "default", _BACKEND)

    @classmethod
    def set_backend(cls, name: str = "any", dryrun: bool = False) -> str:
        """Chooses the single backend.

        Raises:
            MissingBackendError: the name belongs to another backend.
        """
        if not cls.has_backend(name):
            raise handlers.exc.MissingBackendError(f"no such backend: {name!r}")
        return _BACKEND


class argon2(_OneBackend, _argon2._Argon2Common):
    """passlib's argon2, with all of its settings, including `data`."""

    name = "argon2"
    version = max_version = 0x13
    default_rounds = 3
    memory_cost = 65536
    parallelism = 4
    checksum_size = 32
    default_salt_size = 16
    _backend_type_map = _TYPES

    @classmethod
    def from_string(cls, hash: Union[str, bytes]) -> Any:
        """Returns the parts of a record.

        Raises:
            ValueError: the text isn't a record, or isn't valid base64, for which passlib raises a
                TypeError.
        """
        try:
            return super().from_string(hash)
        except TypeError:
            if not isinstance(hash, (str, bytes)):
                raise
        raise handlers.exc.MalformedHashError(cls)

    def _calc_checksum(self, secret: Union[str, bytes]) -> bytes:
        return rigzumal.argon2(
            secret,
            self.salt,
            time_cost=self.rounds,
            memory_cost=self.memory_cost,
            parallelism=self.parallelism,
            hash_len=self.checksum_size,
            type=self._get_backend_type(self.type),
            version=self.version,
            associated=self.data or b"",
            threads=self.parallelism if self.max_threads < 1 else self.max_threads,
        )


class scrypt(_OneBackend, _scrypt.scrypt):
    """passlib's scrypt, for its own strings and those of $7$."""

    name = "scrypt"

    def _calc_checksum(self, secret: Union[str, bytes]) -> bytes:
        return rigzumal.scrypt(
            secret,
            self.salt,
            log2_n=self.rounds,
            r=self.block_size,
            p=self.parallelism,
            length=self.checksum_size,
        )


def register() -> None:
    """Replaces passlib's own handlers by these two, for contexts that you create afterwards.

    Later imports of `passlib.hash.argon2` also get the new handler. If passlib's own handlers were
    loaded before, passlib logs a warning about them.
    """
    handler: Any
    for handler in (argon2, scrypt):
        register_crypt_handler(handler, force=True)
