#!/usr/bin/env python3
"""Measures the memory of hashes, which no contract bounds.

    python3 tools/peak_memory.py

The script runs tests with external vectors in the program that `rt test` or `rt ci` built last
(crates/hash_tests/out/hash_tests_tests), each in a separate process. A shim before the C library's
allocator adds up the memory that is requested and not yet freed. The maximum must be at most
SOME_KIB more than the memory that the parameters of the largest hash require. In tests of hashes
that reuse kept memory, all requests together must be at most the memory of one hash and SOME_KIB.
The script prints a line for each test; the last line is `N passed, M failed`. The script needs only
the toolchain, whose compiler builds the shim.
"""

import sys

from refuse_memory import tests_of
from tests.helpers import counts
from tree import report

# scrypt's memory of N = 2^14 and r = 8 in KiB.
TABLE = 128 * 8 * 2**14 // 1024
# The end of the test's name, the shim's word, and the memory of the largest hash in KiB. The last
# two tests compute several hashes of one memory, in kept memory.
TESTS = [
    ("::large_vectors", "PEAK", 65536),
    ("::scrypt_vectors", "PEAK", TABLE),
    ("::memory_taken_once", "ASKED", 256),
    ("::table_taken_once", "ASKED", TABLE),
]
HOW = {"PEAK": "at once", "ASKED": "in all"}

# The pieces of scrypt, the tests' own texts and the allocator's rounding.
SOME_KIB = 64


def looked_at(ending, word, kib):
    """Measures a test. Returns a line for a test that uses too much or too little memory."""
    [test] = tests_of("hash_tests", ending)
    done, counted = counts(test)
    found = counted.get(word, 0)
    said = f"{kib} KiB expected, {found / 1024:.0f} KiB {HOW[word]}"
    print(f"hash_tests {test[1]}: {said}", flush=True)
    is_well = done.status == 0 and 1024 * kib <= found <= 1024 * (kib + SOME_KIB)
    return None if is_well else f"hash_tests {test[1]}: FAILED"


if __name__ == "__main__":
    sys.exit(report([looked_at(*it) for it in TESTS]))
