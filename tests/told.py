"""Runs the tests of a module by unittest, and writes the outcome of each to a file, for
tools/run_tests.py.

    python3 tests/told.py TOLD MODULE [PART PARTS] [--first]

MODULE is a file below the present folder. If PARTS processes share its tests, the PARTth process
runs each PARTSth test. With --first no test runs after a failed one. A line of the file TOLD is a
word, a test's name and, for a skip, its reason, separated by tabs. The words are `begun`, `passed`,
`failed` and `skipped`. The last line is `all` and the module: it shows that the process ran to its
end.
"""

from __future__ import annotations

import importlib
import inspect
import os
import sys
import unittest
from collections.abc import Iterator
from typing import Any


def name_of(test: Any) -> str:
    """A test's name; for a subtest its test's name, since a test is counted once."""
    return str(getattr(test, "test_case", test).id())


def write(word: str, name: str, reason: str = "") -> None:
    with open(sys.argv[1], "a") as file:
        file.write("\t".join((word, name, " ".join(reason.split()))) + "\n")


class Told(unittest.TextTestResult):
    """unittest's own output, and a line in the file for each test that begins and ends."""

    def __init__(self, *given: Any, **named: Any) -> None:
        super().__init__(*given, **named)
        self.others: set[str] = set()  # the subtests that don't pass

    def startTest(self, test: Any) -> None:
        super().startTest(test)
        write("begun", name_of(test))

    def stopTest(self, test: Any) -> None:
        super().stopTest(test)
        if name_of(test) not in self.others:
            write("passed", name_of(test))

    def fail(self, test: Any) -> None:
        self.others.add(name_of(test))
        write("failed", name_of(test))

    def addSkip(self, test: Any, reason: str) -> None:
        super().addSkip(test, reason)
        self.others.add(name_of(test))
        write("skipped", name_of(test), reason)

    def addError(self, test: Any, err: Any) -> None:
        super().addError(test, err)
        self.fail(test)

    def addFailure(self, test: Any, err: Any) -> None:
        super().addFailure(test, err)
        self.fail(test)

    def addSubTest(self, test: Any, subtest: Any, err: Any) -> None:
        super().addSubTest(test, subtest, err)
        if err is not None:
            self.fail(test)

    def addUnexpectedSuccess(self, test: Any) -> None:
        super().addUnexpectedSuccess(test)
        self.fail(test)

    def addExpectedFailure(self, test: Any, err: Any) -> None:
        super().addExpectedFailure(test, err)
        self.fail(test)  # what isn't so is no test


def tests_in(suite: Any) -> Iterator[unittest.TestCase]:
    for test in suite:
        yield from tests_in(test) if isinstance(test, unittest.TestSuite) else [test]


def is_never_run(test: unittest.TestCase) -> bool:
    """Whether a test's body doesn't run where unittest calls it."""
    body = inspect.unwrap(getattr(test, test._testMethodName))
    is_awaited = isinstance(test, unittest.IsolatedAsyncioTestCase)
    is_other = inspect.isgeneratorfunction(body) or inspect.isasyncgenfunction(body)
    return is_other or inspect.iscoroutinefunction(body) and not is_awaited


def outside(module: Any) -> Iterator[str]:
    """The functions of a module that have a test's name and aren't in a test case."""
    own = {
        name: it
        for name, it in vars(module).items()
        if getattr(it, "__module__", "") == module.__name__
    }
    cases = [it for it in vars(module).values() if isinstance(it, type)]
    cases = [it for it in cases if issubclass(it, unittest.TestCase)]
    for name, thing in own.items():
        if inspect.isfunction(thing) and name.startswith("test_"):
            yield f"{module.__name__}.{name}"
        elif isinstance(thing, type) and not any(issubclass(case, thing) for case in cases):
            tests = (word for word in vars(thing) if word.startswith("test_"))
            yield from (f"{module.__name__}.{name}.{word}" for word in tests)


def main() -> int | str:
    _, module, *part = (it for it in sys.argv[1:] if it != "--first")
    sys.path[0] = os.getcwd()
    try:
        found = importlib.import_module(module[: -len(".py")].replace("/", "."))
    except unittest.SkipTest as skip:
        if not part or part[0] == "1":  # the others have the same module
            write("skipped", module, str(skip))
        write("all", module)
        return 0
    tests = [*tests_in(unittest.defaultTestLoader.loadTestsFromModule(found))]
    if not tests:
        return f"{module}: no test is in it"
    lost = [*outside(found), *(it.id() for it in tests if is_never_run(it))]
    if lost:
        return f"{module}: nothing runs {', '.join(lost)}"
    if part:
        tests = tests[int(part[0]) - 1 :: int(part[1])]
    if not tests:
        return f"{module}: no test is in part {part[0]}"
    is_first = "--first" in sys.argv
    runner = unittest.TextTestRunner(resultclass=Told, verbosity=2, failfast=is_first)
    done = runner.run(unittest.TestSuite(tests))
    write("all", module)
    return 0 if done.wasSuccessful() else 1


if __name__ == "__main__":
    sys.exit(main())
