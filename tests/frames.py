"""The parts of an exception that a reporter of errors keeps: its text, and the variables of its
frames. This module also lists the files that a call enters."""

from __future__ import annotations

import ctypes
import functools
import pathlib
import sys
from collections.abc import Callable, Collection, Iterator, Mapping
from typing import Any

TOP = pathlib.Path(__file__).resolve().parent.parent
TESTS = tuple(str(TOP / it) for it in ("tests", "python/tests"))
# The names that Sentry's scrubber hides by default (sentry_sdk.scrubber.DEFAULT_DENYLIST).
HIDDEN = frozenset(
    [
        "password",
        "passwd",
        "secret",
        "api_key",
        "apikey",
        "auth",
        "credentials",
        "mysql_pwd",
        "privatekey",
        "private_key",
        "token",
        "session",
        "csrftoken",
        "sessionid",
        "x_csrftoken",
        "x_forwarded_for",
        "set_cookie",
        "cookie",
        "authorization",
        "proxy-authorization",
        "x_api_key",
        "aiohttp_session",
        "connect.sid",
        "csrf_token",
        "csrf",
        "_csrf",
        "_csrf_token",
        "PHPSESSID",
        "_session",
        "symfony",
        "user_session",
        "_xsrf",
        "XSRF-TOKEN",
    ]
)


def shown(error: BaseException, *secrets: str) -> list[str]:
    """The places of the secrets in a report of an exception, and of those behind it. The tests' own
    variables don't count."""
    found = []
    for raised in _chain(error):
        if _has((str(raised), repr(raised), raised.args), secrets):
            found.append(f"the text of {type(raised).__name__}")
        trace = raised.__traceback__
        while trace is not None:
            code, variables = trace.tb_frame.f_code, trace.tb_frame.f_locals
            if not code.co_filename.startswith(TESTS):
                names = (it for it in variables if it not in HIDDEN)
                shows = (it for it in names if _has(variables[it], secrets))
                found += [f"{code.co_name}.{it}" for it in shows]
            trace = trace.tb_next
    return found


def _chain(error: BaseException) -> Iterator[BaseException]:
    """An exception, and those that it came of."""
    waiting, seen = [error], set()
    while waiting:
        raised = waiting.pop()
        if raised is not None and id(raised) not in seen:
            seen.add(id(raised))
            yield raised
            waiting += raised.__cause__, raised.__context__


def _has(value: Any, secrets: Collection[str]) -> bool:
    """Whether a value shows a secret: a container or a buffer in its parts, and any other value in
    its repr."""
    if isinstance(value, (bytes, bytearray, memoryview)):
        value = bytes(value).decode("latin1")
    if isinstance(value, str):
        return any(it in value for it in secrets)
    if isinstance(value, (Mapping, list, tuple, set, frozenset)):
        return any(_has(it, secrets) for it in _held(value))
    return _has(repr(value), secrets) or any(_has(it, secrets) for it in _held(value))


def _held(value: Any) -> Iterator[Any]:
    """The parts of a container, or of a structure or a buffer of C."""
    if isinstance(value, Mapping):
        for name, held in value.items():
            if name not in HIDDEN:
                yield from (name, held)
    elif isinstance(value, (list, tuple, set, frozenset)):
        yield from value
    elif isinstance(value, functools.partial):
        yield from (value.args, value.keywords)
    elif isinstance(value, ctypes.Structure):
        names = [name for name, *_ in value._fields_]
        yield from (getattr(value, name) for name in names if name not in HIDDEN)
    elif isinstance(value, ctypes.Array):
        yield bytes(value)
    elif isinstance(value, ctypes._SimpleCData):
        yield value.value
    elif isinstance(value, ctypes._Pointer) and value:
        yield value.contents


def files_entered(folder: pathlib.Path, act: Callable[[], object]) -> list[str]:
    """The files below a folder whose functions are called meanwhile, each once, by their names from
    the top of the tree."""
    found = dict[str, None]()

    def note(frame: Any, event: str, _: object) -> None:
        path = pathlib.Path(frame.f_code.co_filename)
        if event == "call" and folder in path.parents:
            found.setdefault(str(path.relative_to(TOP)))

    sys.setprofile(note)
    try:
        act()
    finally:
        sys.setprofile(None)
    return [*found]
