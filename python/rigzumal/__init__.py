"""Argon2 and scrypt for passwords, over the proved library librigzumal.so.

>>> from rigzumal import PasswordHasher
>>> hasher = PasswordHasher(memory_cost=256, time_cost=2, parallelism=1)
>>> record = hasher.hash("correct horse")
>>> hasher.verify(record, "correct horse")
True

`python3 -m rigzumal` is a command with the same hashes. The package never prints or keeps a
password.
"""

import sys

if sys.version_info < (3, 9):  # before the modules that older versions can't even parse
    raise ImportError("rigzumal needs Python 3.9 or later; this is " + sys.version.split()[0])

from rigzumal._hashers import LowMemoryWarning, PasswordHasher, ScryptHasher, Type, argon2, scrypt
from rigzumal._library import InvalidNumbersError, InvalidRecordError, NoRandomError
from rigzumal._library import OutOfMemoryError, RigzumalError, VerifyMismatchError
from rigzumal._library import keep, trim, version
from rigzumal._opaque import opaque_string
from rigzumal._parts import Parts, parts

__version__ = version()

__all__ = [
    "InvalidNumbersError",
    "InvalidRecordError",
    "LowMemoryWarning",
    "NoRandomError",
    "OutOfMemoryError",
    "Parts",
    "PasswordHasher",
    "RigzumalError",
    "ScryptHasher",
    "Type",
    "VerifyMismatchError",
    "argon2",
    "keep",
    "opaque_string",
    "parts",
    "scrypt",
    "trim",
    "version",
]
