"""Counts failed tries at users of an old file who aren't in the book: the book counts those at its
own accounts. The rules are those of the book. Requests for such a user run one at a time, so no two
tries at one name run at the same time.
"""

import math
import time
from dataclasses import dataclass

from .book import LONGEST_WAIT

FORGOTTEN = 86400.0  # seconds
COUNTED_BEYOND = 10  # failures to count beyond the limit: the wait is then the longest


@dataclass(frozen=True)
class Failed:
    """The number of consecutive failures."""

    count: int
    last: float  # the moment of the last failure


class Tries:
    """The limits on tries for each of these users."""

    def __init__(self, limit: int) -> None:
        self.limit = limit or math.inf  # failed tries before the next one must wait
        self.failed = dict[bytes, Failed]()

    def count(self, name: bytes) -> int:
        """Returns the number of consecutive failures, which a day without a failure resets."""
        failed = self.failed.get(name)
        return failed.count if failed and time.monotonic() < failed.last + FORGOTTEN else 0

    def rest(self, name: bytes) -> int:
        """Returns the remaining seconds before the next try."""
        count = self.count(name)
        if count < self.limit:
            return 0
        wait = min(2.0 ** (count - self.limit), LONGEST_WAIT)
        return max(0, math.ceil(wait - (time.monotonic() - self.failed[name].last)))

    def fail(self, name: bytes) -> None:
        count = min(self.count(name) + 1, self.limit + COUNTED_BEYOND)
        self.failed[name] = Failed(int(count), time.monotonic())

    def forgive(self, name: bytes) -> None:
        self.failed.pop(name, None)
