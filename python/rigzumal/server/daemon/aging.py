"""A user's line in an old file: the record, the dates of shadow(5), and Dovecot's extra fields."""

import re
import time
from dataclasses import dataclass
from typing import NamedTuple, Optional

SECONDS_A_DAY = 86400
SHADOW = 9  # fields of a line of shadow(5); a line may lack the last ones
OLD_SHADOW = 5  # fields up to the last change, the least and the most days of a password
NUMBER = re.compile(rb"[0-9]{0,9}")  # the C library refuses a sign too
# The beginnings of Dovecot's extra fields that bar a user everywhere, or outside of some networks.
BARS = (b"nologin", b"noauthenticate", b"allow_")


def today() -> int:
    """Returns the days since 1970, as shadow(5) counts them."""
    return int(time.time()) // SECONDS_A_DAY


class Days(NamedTuple):
    """The numbers in a line of shadow(5), in the same order; -1 is an empty field."""

    changed: int = -1
    least: int = -1
    most: int = -1
    warned: int = -1
    inactive: int = -1
    end: int = -1

    def age(self, day: int) -> int:
        return day - self.changed if self.changed <= day else -1

    def has_ended(self, day: int) -> bool:
        return self.end != -1 and day >= self.end

    def is_too_old(self, day: int) -> bool:
        """Whether the password is so old that its user can't even change it."""
        is_bounded = self.changed != 0 and self.most != -1 and self.inactive != -1
        bound = max(self.most, self.inactive, self.most + self.inactive)
        return is_bounded and self.age(day) > bound

    def must_change(self, day: int) -> bool:
        return self.changed == 0 or self.most != -1 and self.age(day) > self.most


@dataclass(frozen=True)
class Line:
    """A user's line: the record, and the fields after the record."""

    record: bytes = b""
    others: tuple[bytes, ...] = ()

    def days(self) -> Optional[Days]:
        """Returns the dates of a line of shadow(5), or None if one of them isn't a number. Other
        lines have no dates."""
        fields = self.others[: len(Days())]
        count = 2 + len(self.others)  # with the name and the record
        are_numbers = all(map(NUMBER.fullmatch, fields))
        if count == SHADOW and not are_numbers and not self.is_of_dovecot():
            return None
        if not are_numbers or not OLD_SHADOW <= count <= SHADOW:
            return Days()
        return Days(*(int(field) if field else -1 for field in fields))

    def is_of_dovecot(self) -> bool:
        """Whether the line is Dovecot's, as its home folder or an extra field shows: such a line
        may also have nine fields."""
        home, extra = self.others[3], self.others[5]
        return b"/" in home or b"=" in extra

    def bar(self, day: int) -> str:
        """Returns the reason that bars the user, even after the move, or an empty text."""
        days = self.days()
        if days and days.has_ended(day):
            return "the account has expired"
        for field in self.others:
            for item in field.split(b" "):
                if item.startswith(BARS):
                    return re.sub(b"[^a-z_].*", b"", item, flags=re.DOTALL).decode()
        return ""

    def why_shut(self, day: int) -> str:
        """Returns the reason that bars the line's user, or "" if some password may be right."""
        if why := self.bar(day):
            return why
        days = self.days()
        if days is None:
            return "a date that isn't a number"
        return "the password has expired" if days.is_too_old(day) else ""

    def must_change(self, day: int) -> bool:
        """Whether the user must change a right password before the login, by pam_unix's rules."""
        days = self.days()
        return days is not None and days.must_change(day)
