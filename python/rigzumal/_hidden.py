"""Keeps passwords out of error reports.

Sentry, cgitb, rich and Django's debug page show the variables of each frame that an exception has
passed, except those with certain names. Public calls of the hashers, accounts, Django modules
and clients of the server therefore clear these frames before an exception leaves them, if they
receive a password or a pepper.
"""

from __future__ import annotations

import functools
import sys

TYPE_CHECKING = False
if TYPE_CHECKING:
    from collections.abc import Callable
    from types import FrameType
    from typing import Any, Optional, TypeVar

    Function = TypeVar("Function", bound=Callable[..., Any])


# CO_GENERATOR, CO_COROUTINE, CO_ITERABLE_COROUTINE and CO_ASYNC_GENERATOR of inspect, which takes
# long to import.
_GENERATORS = 0x20 | 0x80 | 0x100 | 0x200


def hidden(function: Function) -> Function:
    """Wraps a function so that its exceptions carry no variables of this package's frames. The
    frames of a caller's hooks keep their variables."""
    return _hiding(function, hide)


def hidden_below(function: Function) -> Function:
    """Wraps a function so that its exceptions carry no variables of any frame below it, except
    those of a caller's generators."""
    return _hiding(function, _hide_all)


def hidden_in_django(function: Function) -> Function:
    """Wraps a function that receives no password, but whose frames below may have one: its
    exceptions carry no variables of this package's frames and of Django's. The frames of a caller's
    signal handlers keep their variables."""
    return _hiding(function, _hide_in_django)


def _hiding(function: Function, hides: Callable[..., None]) -> Function:
    @functools.wraps(function)
    def call(*args: Any, **kwargs: Any) -> Any:
        handled = sys.exc_info()[1]  # by the caller, who owns the exception
        try:
            return function(*args, **kwargs)
        except BaseException as raised:
            del args, kwargs
            hides(raised, handled)
            raise

    return call  # type: ignore[return-value]


def hide(raised: BaseException, handled: Optional[BaseException] = None) -> None:
    """Clears this package's frames in the tracebacks of an exception and of its causes."""
    _empty(raised, handled, is_ours)


def _hide_all(raised: BaseException, handled: Optional[BaseException]) -> None:
    # Before Python 3.13, clear() closes a generator that goes on after the exception. No generator
    # of these packages does so.
    packages = ("rigzumal", "django", "asgiref")
    _empty(raised, handled, lambda it: not _is_generators(it) or _package(it) in packages)


def _hide_in_django(raised: BaseException, handled: Optional[BaseException]) -> None:
    _empty(raised, handled, lambda frame: _package(frame) in ("rigzumal", "django"))


def is_ours(frame: FrameType) -> bool:
    return _package(frame) == "rigzumal"


def _package(frame: FrameType) -> str:
    return str(frame.f_globals.get("__name__")).partition(".")[0]


def _is_generators(frame: FrameType) -> bool:
    """Whether the frame is of a generator or a coroutine."""
    return bool(frame.f_code.co_flags & _GENERATORS)


def _empty(
    raised: BaseException,
    handled: Optional[BaseException],
    is_hidden: Callable[[FrameType], bool],
) -> None:
    waiting: list[Optional[BaseException]] = [raised]
    seen = [None, handled]
    while waiting:
        error = waiting.pop()
        if any(error is it for it in seen):
            continue
        assert error is not None
        seen.append(error)
        waiting += error.__cause__, error.__context__
        trace = error.__traceback__
        while trace is not None:
            if is_hidden(trace.tb_frame):
                try:
                    trace.tb_frame.clear()
                except RuntimeError:  # the frame of `hidden` still runs, and has no password
                    pass
            trace = trace.tb_next
