"""Finds the highest costs for which a hash fits a given time on this machine."""

from __future__ import annotations

import os
import time
from collections.abc import Iterator
from typing import Final, NamedTuple, Optional

from rigzumal._hashers import PasswordHasher

# KiB: Argon2's least for a lane, and OWASP's least with two passes and with one.
LEAST_MEMORY: Final = 8
LEAST_SAFE_MEMORY: Final = 19456
_OF_ONE_PASS: Final = 47104


class Measured(NamedTuple):
    """Costs, and the best time of a hash with them, in milliseconds."""

    hasher: PasswordHasher
    milliseconds: float


def measured(hasher: PasswordHasher, turns: int = 5) -> Measured:
    """Measures the best time of several hashes, after a first one that doesn't count."""
    times = []
    for _ in range(turns + 1):
        begun = time.perf_counter()
        hasher.hash("a password to be timed")
        times.append((time.perf_counter() - begun) * 1000)
    return Measured(hasher, min(times[1:]))


def is_safe(hasher: PasswordHasher) -> bool:
    """Whether the costs are at least OWASP's minimum for passwords; RFC 9106's costs are."""
    memory, passes = hasher.memory_cost, hasher.time_cost
    return memory >= _OF_ONE_PASS or memory >= LEAST_SAFE_MEMORY and passes >= 2


def trials(
    target: float, memory: int, lanes: int, threads: int = 1, below: bool = False
) -> Iterator[Measured]:
    """Measures and yields costs; the last ones are the result.

    As RFC 9106, section 4, advises, the trials use all of the memory (KiB), and then as many passes
    as the target (milliseconds) allows. If a single pass takes too long, the trials use less
    memory, down to OWASP's minimum, or to Argon2's if the caller allows costs below OWASP's.
    """
    least = max(LEAST_MEMORY * lanes, 0 if below else LEAST_SAFE_MEMORY)
    found = measured(PasswordHasher(1, memory, lanes, threads=threads))
    yield found
    while found.milliseconds > target and memory > least:
        share = min(0.95, target / found.milliseconds)
        memory = max(least, int(memory * share))
        found = measured(found.hasher.replace(memory_cost=memory))
        yield found
    while True:
        passes = int(found.hasher.time_cost * target / found.milliseconds)
        if passes <= found.hasher.time_cost:
            break
        more = measured(found.hasher.replace(time_cost=passes))
        yield more
        if more.milliseconds > target:
            yield found
            break
        found = more
    if not below and not is_safe(found.hasher):
        yield measured(found.hasher.replace(time_cost=2, memory_cost=least))


def why_busy() -> Optional[str]:
    """Returns a warning if other processes may be using the processors, otherwise None."""
    load, processors = os.getloadavg()[0], os.cpu_count() or 1
    if load <= processors / 2:
        return None
    return f"the machine is busy (a load of {load:.1f} on {processors} processors)"
