"""Keeps a list of the running hooks, which shows whether an operation runs within a hook.

While an `also` runs, its operation holds the lock of the row. Another operation on the same table
could wait for that row, and no server detects this deadlock. In addition, PerThread's only
connection is in use.
"""

from __future__ import annotations

import contextvars
from typing import Any, Final


class Also:
    """A running `also` of a caller, with the table and the pool of its operation.

    Attributes:
        is_over: whether the hook has ended: a task that it created keeps its context for ever.
    """

    def __init__(self, pool: Any, table: str) -> None:
        self.pool, self.table, self.is_over = pool, table, False


RUNNING: Final = contextvars.ContextVar[tuple[Also, ...]]("rigzumal.accounts.also", default=())
"""The hooks within which the caller runs, the innermost last."""


def runs_over(pool: Any) -> bool:
    """Whether the caller is within an `also` of an operation over this pool."""
    return any(it.pool == pool for it in RUNNING.get() if not it.is_over)


def runs_on(pool: Any, table: str) -> bool:
    """Whether the caller is within an `also` of an operation on this table in the pool's
    database."""
    found = (it for it in RUNNING.get() if not it.is_over)
    return any((it.pool, it.table) == (pool, table) for it in found)
