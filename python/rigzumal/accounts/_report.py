"""Groups a table's records, for the shell command's report, by the effect of a login on
them."""

from __future__ import annotations

import enum
from collections import Counter
from collections.abc import Callable, Iterable, Iterator
from typing import Any, NamedTuple, Optional

from rigzumal import _library
from rigzumal._parts import Parts, parts, scheme_of_another


class State(enum.Enum):
    """The effect of a login on a record."""

    CURRENT = "current"
    REHASH = "rehash"  # a right password replaces the record by one with the hasher's costs
    FOREIGN = "foreign"  # the record is of another scheme, and the service's hook judges it
    UNREADABLE = "unreadable"  # the record is of no known scheme: nobody logs in without a hook
    ABSENT = "absent"  # the account has no record


class Group(NamedTuple):
    """Records of the same scheme, costs and state."""

    state: State
    scheme: str
    costs: str


def group_of(record: Optional[str], is_old: Callable[[Parts], bool]) -> Group:
    """Returns the group of a record."""
    if record is None:
        return Group(State.ABSENT, "", "")
    costs = costs_of(record)
    if costs is None:
        scheme = scheme_of_another(record)
        return Group(State.FOREIGN if scheme else State.UNREADABLE, scheme, "")
    _, scheme, numbers = costs.split("$", 2)
    state = State.REHASH if is_old(parts(record)) else State.CURRENT
    return Group(state, scheme, numbers.replace("$", " "))


def costs_of(record: str) -> Optional[str]:
    """Returns costs such as "$argon2id$v=19$m=65536,t=3,p=4", or None for any other text."""
    return record.rsplit("$", 2)[0] if _library.is_record(record) else None


def report(
    rows: Iterable[tuple[Any, Optional[str]]], is_old: Callable[[Parts], bool]
) -> list[tuple[Group, int]]:
    """Returns each group with its count, by state, and the most frequent first."""
    counts = Counter(group_of(record, is_old) for _, record in rows)
    order = list(State)
    return sorted(
        counts.items(),
        key=lambda item: (order.index(item[0].state), -item[1], item[0][1:]),
    )


def as_prometheus(counts: Iterable[tuple[Group, int]]) -> Iterator[str]:
    """Yields the lines of Prometheus' text format."""
    name = "rigzumal_accounts"
    yield f"# HELP {name} Accounts by the state, the scheme and the costs of their records."
    yield f"# TYPE {name} gauge"
    for group, count in counts:
        labels = f'state="{group.state.value}",scheme="{group.scheme}"'
        yield f'{name}{{{labels},costs="{group.costs}"}} {count}'
