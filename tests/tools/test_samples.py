"""tests/samples.py: a sample is never empty, and the seeds choose all rows between them; and the
patience of tests/helpers.py."""

import os
import subprocess
import sys
import unittest
from collections.abc import Iterator
from contextlib import contextmanager
from unittest import mock

from tests import helpers, samples
from tests.helpers import TOP, each

ASKED = "from tests.samples import sample; print(*sample(range(100)))"


@contextmanager
def given(**variables: str) -> Iterator[None]:
    """Only these variables choose the samples."""
    with mock.patch.dict(os.environ, variables):
        for name in {"RIGZUMAL_SEED", "RIGZUMAL_WHOLE"} - {*variables}:
            os.environ.pop(name, None)
        yield


def asked(**variables: str) -> subprocess.CompletedProcess[str]:
    """The sample of another process with these variables."""
    with given(**variables):
        words = [sys.executable, "-c", ASKED]
        return subprocess.run(words, cwd=TOP, capture_output=True, text=True, check=True)


class Samples(unittest.TestCase):
    def test_sizes(self) -> None:
        """A seventh, rounded up or down, and one row at least."""
        for count in range(1, 100):
            for seed in (*range(14), 123_456, 999_999):
                with self.subTest(count=count, seed=seed), given(RIGZUMAL_SEED=str(seed)):
                    found = samples.sample(range(count))
                    self.assertIn(len(found), {count // 7 or 1, -(-count // 7)})
                    self.assertLess(set(found), {*range(count + 1)})

    @each(*range(1, 30))
    def test_all_seeds(self, count: int) -> None:
        """Seven seeds in a row choose each row."""
        found = set[int]()
        for seed in range(7):
            with given(RIGZUMAL_SEED=str(seed)):
                found |= {*samples.sample(range(count))}
        self.assertEqual(found, {*range(count)})

    def test_nothing(self) -> None:
        """Nobody takes a sample of nothing, in a whole run neither."""
        for whole in ("", "1"):
            with given(RIGZUMAL_WHOLE=whole), self.assertRaises(AssertionError):
                samples.sample([])

    @each(("1", True), ("yes", True), ("0", False), ("", False))
    def test_whole(self, value: str, is_whole: bool) -> None:
        with given(RIGZUMAL_WHOLE=value, RIGZUMAL_SEED="2"):
            self.assertEqual(len(samples.sample(range(100))), 100 if is_whole else 14)

    def test_a_printed_seed(self) -> None:
        """A process without a seed prints the one that repeats its sample."""
        done = asked()
        _, _, seed = done.stderr.strip().partition("RIGZUMAL_SEED=")
        again = asked(RIGZUMAL_SEED=seed)
        self.assertEqual((again.stdout, again.stderr), (done.stdout, ""))
        self.assertEqual(len(done.stdout.split()), 100 // 7 + (int(seed) % 7 < 100 % 7))

    def test_attempts(self) -> None:
        """Each row comes with its own result; one without a result is left out."""
        found = samples.attempts(lambda row: row * row if row % 3 else None, range(100))
        self.assertEqual([*found], [(row, row * row) for row in range(100) if row % 3])


class Patience(unittest.TestCase):
    def test_load(self) -> None:
        """A test waits as long as the present load asks for, and not that of an earlier moment."""
        processors = len(os.sched_getaffinity(0))
        for load, factor in ((0.0, 1), (1.9, 1), (3.2, 3), (1.0, 1)):
            with mock.patch("os.getloadavg", lambda: (load * processors, 0.0, 0.0)):
                self.assertEqual((helpers.busy(), helpers.longest()), (factor, 120 * factor))
