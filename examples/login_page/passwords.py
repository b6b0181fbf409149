"""The rules for names and passwords."""

from __future__ import annotations

import re
import unicodedata
from collections.abc import Mapping

from django.contrib.auth.password_validation import CommonPasswordValidator

SHORTEST, LONGEST = 8, 256  # least characters, and most bytes in UTF-8
NAME = re.compile("[A-Za-z0-9._-]{1,32}")
COMMON = CommonPasswordValidator().passwords  # the 20,000 passwords that attackers try first


def name_of(form: Mapping[str, str]) -> str:
    """The name that was typed; "" if nobody can have it."""
    name = form.get("name", "").strip()
    return name.lower() if NAME.fullmatch(name) else ""


def password_of(form: Mapping[str, str], field: str) -> str:
    """The typed password; an impossible one counts as empty, and is wrong."""
    password = opaque(form.get(field, ""))
    return password if len(password.encode()) <= LONGEST else ""


def opaque(typed: str) -> str:
    """RFC 8265's form of a password: the same from every keyboard, and with every kind of space."""
    spaced = "".join(" " if unicodedata.category(it) == "Zs" else it for it in typed)
    return unicodedata.normalize("NFC", spaced)


def faults(form: Mapping[str, str], name: str) -> dict[str, str]:
    """The error of a new password that was typed twice, by its field."""
    new, again = (opaque(form.get(field, "")) for field in ("new", "again"))
    size, plain = len(new.encode()), new.strip().lower()
    if size > LONGEST:
        return {"new": f"This is too long: {size} bytes, and {LONGEST} are possible. A plain"
                " letter is one byte, and an emoji is four or more."}  # fmt: skip
    if len(new) < SHORTEST:
        return {"new": f"A password has at least {SHORTEST} characters."}
    if len(set(plain)) < 3 or plain in COMMON or plain == name:
        return {"new": "This password is among the first that attackers guess."}
    if new != again:
        return {"again": "The two passwords are not the same."}
    return {}
