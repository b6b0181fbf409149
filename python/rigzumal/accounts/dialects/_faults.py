"""The findings of `examine`: faults of a table, a server or a connection."""

from __future__ import annotations

import enum
import functools
from dataclasses import dataclass
from typing import Final


class Severity(enum.Enum):
    """An error loses acknowledged changes, gives wrong answers or refuses a valid operation; a
    warning reports a smaller risk."""

    ERROR = "error"
    WARNING = "warning"


@dataclass(frozen=True)
class Fault:
    """A finding of `examine`."""

    severity: Severity
    code: str  # its name in a few words, such as "key-not-unique"
    text: str  # for people

    @property
    def is_error(self) -> bool:
        return self.severity is Severity.ERROR

    def __str__(self) -> str:
        return self.text


error: Final = functools.partial(Fault, Severity.ERROR)
warning: Final = functools.partial(Fault, Severity.WARNING)
not_durable: Final = functools.partial(error, "not-durable")
FOLDED: Final = (
    (warning, "in case", "RIGZUMAL"),
    (error, "by blanks at the end", "rigzumal "),
    (warning, "by accents", "rigzum\u00e1l"),
)
"""The ways in which a column may confuse a name with `rigzumal`."""


@dataclass(frozen=True)
class Findings:
    """The findings in an engine's catalogue and settings."""

    faults: list[Fault]
    is_usable: bool = True  # a trial is possible there, and a ROLLBACK undoes it
    # These are no faults if a COMMIT that writes confirms each answer.
    unless_confirmed: tuple[Fault, ...] = ()
