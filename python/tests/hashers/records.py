"""The shared parts of the hashers' tests: the package's place, records of other programs, quick
hashers, counts of the library's calls, and runs of separate Pythons. Each test imports this module
first, so that the test and its processes find the package."""

import base64
import os
import pathlib
import sys
from unittest import mock

HERE = pathlib.Path(__file__).resolve().parent
sys.path = [str(HERE.parents[1]), str(HERE.parents[2]), *sys.path]
os.environ["PYTHONPATH"] = f"{HERE.parents[1]}:{os.environ.get('PYTHONPATH', '')}".rstrip(":")

import rigzumal
from rigzumal import PasswordHasher
from tests.helpers import run

# Of the reference library's own tests, and one of passlib.
ARGON2 = "$argon2id$v=19$m=256,t=2,p=1$c29tZXNhbHQ$nf65EOgLrQMR/uIPnA4rEsF5h7TKyQwu9U1bMCHGi/4"
OLD = "$argon2i$m=256,t=2,p=1$c29tZXNhbHQ$/U3YPXYsSb3q9XxHvc0MLxur+GP960kN9j7emXX8zwY"
SMALL = PasswordHasher(time_cost=2, memory_cost=256, parallelism=1)
LEAST_COSTS = {"time_cost": 1, "memory_cost": 8, "parallelism": 1}
LEAST = PasswordHasher(**LEAST_COSTS)


def python(*words, given="", status=0, at=HERE, **env):
    """The output of this Python on both streams, if it ends with the status."""
    return run(sys.executable, *words, given=given, status=status, at=at, env=env)


def unpadded(data):
    """Base64, as a record has it."""
    return base64.b64encode(data).decode().rstrip("=")


def verdict(hasher, record, password):
    try:
        return hasher.verify(record, password)
    except rigzumal.VerifyMismatchError:
        return False


def noted_library():
    """The library with calls that are recorded as by a mock, for a `with`."""
    noted = mock.Mock(wraps=rigzumal._library._library)
    return mock.patch.object(rigzumal._library, "_library", noted)
