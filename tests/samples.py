"""Samples of what is long and alike, such as the refusals of each system call of a run in turn: a
normal run of the tests takes a seventh, and `make test` all.

RIGZUMAL_SEED, a number, chooses the seventh; the numbers 0 to 6 choose all between them. Where it
isn't set, tools/run_tests.py, or a test that runs by itself, draws a number and prints it. With
RIGZUMAL_WHOLE=1 nothing is left out.
"""

from __future__ import annotations

import os
import random
import sys
from collections.abc import Callable, Iterable, Iterator, Sequence
from concurrent.futures import ThreadPoolExecutor
from typing import TypeVar

OF = 7  # one row of so many is in a sample

Row = TypeVar("Row")
Found = TypeVar("Found")


def is_whole() -> bool:
    return os.environ.get("RIGZUMAL_WHOLE", "0") not in ("", "0")


def draw() -> None:
    """Draws the number that chooses the samples, unless the variable has one."""
    if not os.environ.get("RIGZUMAL_SEED"):
        os.environ["RIGZUMAL_SEED"] = str(random.randrange(1_000_000))


def seed() -> int:
    """Returns the number that chooses the samples. The first call draws and prints the number where
    the variable has none; processes that the tests start later have the same."""
    if not os.environ.get("RIGZUMAL_SEED"):
        draw()
        print(told(), file=sys.stderr, flush=True)
    return int(os.environ["RIGZUMAL_SEED"])


def told() -> str:
    """Returns the line that says how to repeat the samples of this run."""
    return "samples: all" if is_whole() else f"samples: a seventh, by RIGZUMAL_SEED={seed()}"


def sample(rows: Sequence[Row]) -> Sequence[Row]:
    """Returns every seventh of these rows, and one at least; in a whole run all of them."""
    assert rows, "a sample of nothing tests nothing"
    return rows if is_whole() else rows[seed() % min(OF, len(rows)) :: OF]


def attempts(
    attempt: Callable[[Row], Found | None], rows: Iterable[Row]
) -> Iterator[tuple[Row, Found]]:
    """Yields each row with the result of its attempt, several of which run at once; a row whose
    attempt has no result is left out."""
    rows = [*rows]
    with ThreadPoolExecutor(os.cpu_count() or 1) as pool:
        for row, found in zip(rows, pool.map(attempt, rows)):
            if found is not None:
                yield row, found
