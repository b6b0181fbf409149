"""The variables of the environment: the program checks each value first, and refuses a wrong one by
its name."""

from __future__ import annotations

import os
import pathlib
import sqlite3

HERE = pathlib.Path(__file__).resolve().parent
POSTGRES = ("postgres://", "postgresql://")


def number(name: str, default: int, least: int, most: int) -> int:
    """A whole number of this range."""
    text = os.environ.get(name) or str(default)
    if not (text.isascii() and text.isdigit() and least <= int(text) <= most):
        raise SystemExit(f"{name} has to be a number from {least} to {most}, not {text!r}")
    return int(text)


def database() -> str:
    """An address of PostgreSQL, or a file of SQLite, whose folder must exist unless it is our own.
    An address may contain a password, so no error shows an address."""
    place = os.environ.get("DATABASE")
    if not place:
        return str(HERE / "data" / "login_page.db")
    if place.startswith(POSTGRES):
        return place
    if "://" in place or place.startswith("postgres"):
        raise SystemExit("DATABASE has to be a file of SQLite, or postgresql://user@host/name")
    folder = pathlib.Path(place).absolute().parent
    if not folder.is_dir():
        raise SystemExit(f"DATABASE: the folder {folder} isn't there")
    return place


def refused(name: str, fault: Exception) -> SystemExit:
    """A value with which the page can't start. A driver's text about an address may show its
    password, for instance if the password has a slash; the text about a failed connection
    doesn't."""
    is_shown = isinstance(fault, (OSError, ImportError, sqlite3.Error))
    if is_shown or str(fault).startswith("connection failed"):
        return SystemExit(f"{name}: {fault}".strip())
    return SystemExit(f"{name}: {type(fault).__name__}")
