#!/usr/bin/env python3
"""Repeats the tests of a crate, and refuses the first request for memory, then the second, and so
on.

    python3 tools/refuse_memory.py [CRATE [WORD]]

The script runs the tests with the word in their names, `::refused` by default, in the program that
`rt test` or `rt ci` built last (crates/CRATE/out/CRATE_tests). Without a crate, the script runs
those of all test crates. Each test runs with its Nth memory request refused, for each N of a run
that refuses none. A line for each test has the number of refused requests, and the numbers at which
the test failed; the last line is `N passed, M failed`. `rt try --test --fail-alloc N` refuses
memory for a single N, and builds each time. The script needs only the toolchain, whose compiler
builds the shim that refuses memory.
"""

import pathlib
import subprocess
import sys

from tree import CRATES, TOP, report

sys.path.insert(0, str(TOP))
from tests.helpers import Ended, ended, requests_of, without_request  # noqa: E402
from tests.samples import attempts  # noqa: E402


def sweep(test):
    """Returns the number of refused requests, and the numbers at which the test failed; the last
    run refuses nothing."""

    def attempt(nth):
        try:
            return without_request(nth, test)
        except subprocess.TimeoutExpired:
            return Ended(-1)

    ends = dict(attempts(attempt, requests_of(test)))
    failed = [nth for nth, done in ends.items() if done.status]
    return len(ends), failed + [len(ends) + 1] * (ended(test).status != 0)


def tests_of(crate, word):
    """Returns the tests of a crate with the word in their names, each as a command."""
    program = CRATES / crate / "out" / f"{crate}_tests"
    if not program.exists():
        sys.exit(f"{program} doesn't exist: run rt test in its crate, or rt ci")
    listed = subprocess.run(
        [program, "--list"], capture_output=True, text=True, check=True
    ).stdout.splitlines()
    found = [line.split(": ")[0] for line in listed if line.endswith(": test") and word in line]
    if not found:
        sys.exit(f"no test of {crate} has {word} in its name")
    return [[str(program), test] for test in found]


def main():
    if len(sys.argv) > 3:
        sys.exit(__doc__)
    crates = [pathlib.Path(it).name for it in sys.argv[1:2]] or sorted(
        it.name for it in CRATES.glob("*_tests")
    )
    word = sys.argv[2] if len(sys.argv) > 2 else "::refused"
    tests, found = [(crate, it) for crate in crates for it in tests_of(crate, word)], []
    for crate, test in tests:
        requests, failed = sweep(test)
        found.append(failed and f"{crate} {test[1]}: FAILED at {failed}")
        print(f"{crate} {test[1]}: {requests} requests refused in turn", flush=True)
    sys.exit(report(found))


if __name__ == "__main__":
    main()
