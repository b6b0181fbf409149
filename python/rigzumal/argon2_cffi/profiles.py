"""argon2-cffi's profiles."""

from rigzumal.argon2_cffi.low_level import Parameters, Type

RFC_9106_HIGH_MEMORY = Parameters(Type.ID, 19, 16, 32, 1, 2097152, 4)
"""RFC 9106's first recommendation: 2 GiB."""

RFC_9106_LOW_MEMORY = Parameters(Type.ID, 19, 16, 32, 3, 65536, 4)
"""RFC 9106's second recommendation: 64 MiB."""

PRE_21_2 = Parameters(Type.ID, 19, 16, 16, 2, 102400, 8)
"""The defaults of argon2-cffi before version 21.2."""

CHEAPEST = Parameters(Type.ID, 19, 8, 4, 1, 8, 1)
"""For tests alone."""


def get_default_parameters() -> Parameters:
    """Returns the defaults of PasswordHasher."""
    return RFC_9106_LOW_MEMORY
