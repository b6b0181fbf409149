"""The interface of argon2-cffi, over the proved library.

>>> from rigzumal import argon2_cffi as argon2
>>> hasher = argon2.PasswordHasher.from_parameters(argon2.profiles.CHEAPEST)
>>> hasher.verify(hasher.hash("correct horse"), "correct horse")
True

Differences: this module has no `core`, no `ffi` and none of the functions that argon2-cffi calls
legacy. The module refuses a bool as a number, and all versions except 16 and 19. As in argon2-cffi,
`parallelism` is also the number of threads. However, the library starts at most one thread for each
processor, and none below 4 MiB. HashingError, VerificationError and InvalidHashError are also
`rigzumal.RigzumalError`.
"""

from rigzumal.argon2_cffi import exceptions, low_level, profiles
from rigzumal.argon2_cffi._password_hasher import DEFAULT_HASH_LENGTH, DEFAULT_MEMORY_COST
from rigzumal.argon2_cffi._password_hasher import DEFAULT_PARALLELISM, DEFAULT_TIME_COST
from rigzumal.argon2_cffi._password_hasher import DEFAULT_RANDOM_SALT_LENGTH, PasswordHasher
from rigzumal.argon2_cffi.low_level import Parameters, Type, extract_parameters

__all__ = [
    "DEFAULT_HASH_LENGTH",
    "DEFAULT_MEMORY_COST",
    "DEFAULT_PARALLELISM",
    "DEFAULT_RANDOM_SALT_LENGTH",
    "DEFAULT_TIME_COST",
    "Parameters",
    "PasswordHasher",
    "Type",
    "exceptions",
    "extract_parameters",
    "low_level",
    "profiles",
]
