"""Runs argon2-cffi's own tests, with its names over Rigzumal.

    python3 argon2_cffi_own.py FOLDER-OF-ARGON2-CFFI'S-SOURCE

The tests need pytest and hypothesis. Their source is in the orig tarball of Debian's package
python-argon2, which `apt-get source` downloads.
"""

import pathlib
import sys
import types
from unittest import mock

import pytest

from rigzumal import argon2_cffi

# The tests that fail, and the reasons. A name stands for all tests whose names begin with it.
EXPECTED = {
    "test_legacy.py::": "the functions that argon2-cffi calls legacy aren't there",
    "test_low_level.py::TestVerify::test_wrong_arg_type": "a TypeError whose text isn't cffi's",
    "test_low_level.py::test_core": "there is no `core` and no `ffi`",
    "test_packaging.py::": "what was deprecated, as `__uri__`, isn't there",
    "test_password_hasher.py::TestEnsureBytes::": "a private function of argon2-cffi",
    "test_password_hasher.py::TestPasswordHasher::test_params_on_wasm": "nothing is WebAssembly",
    "test_utils.py::TestCheckTypes::": "a private function of argon2-cffi",
    "test_utils.py::test_decoded_str_len": "a private function of argon2-cffi",
}


# The numbers of argon2.h from which hypothesis draws.
LEAST = {"PWD_LENGTH": 0, "TIME": 1, "LANES": 1, "OUTLEN": 4, "SALT_LENGTH": 8}
NUMBERS = types.SimpleNamespace(**{f"ARGON2_MIN_{name}": it for name, it in LEAST.items()})


class Expected:
    """Makes pytest expect these failures, with their reasons."""

    def pytest_collection_modifyitems(self, items):
        for item in items:
            for name, why in EXPECTED.items():
                if name in item.nodeid:
                    item.add_marker(pytest.mark.xfail(reason=why))


def stand_in():
    """Lets the tests import Rigzumal's names as argon2-cffi's."""
    sys.modules["argon2"] = argon2_cffi
    for name in ("exceptions", "low_level", "profiles"):
        sys.modules[f"argon2.{name}"] = getattr(argon2_cffi, name)
    for name in ("_utils", "_password_hasher"):
        sys.modules[f"argon2.{name}"] = mock.MagicMock()
    for name in ("hash_password", "hash_password_raw", "verify_password"):
        setattr(argon2_cffi, name, None)
    argon2_cffi.low_level.core = argon2_cffi.low_level.ffi = None
    argon2_cffi.low_level.lib = NUMBERS


def main():
    stand_in()
    folder = str(pathlib.Path(sys.argv[1]) / "tests")
    words = [folder, "-q", "-rxX", "-p", "no:cacheprovider", *sys.argv[2:]]
    return pytest.main(words, plugins=[Expected()])


if __name__ == "__main__":
    sys.exit(main())
