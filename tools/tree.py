"""The tools' common knowledge of the tree and the toolchain, and their reports.

If rt is missing, `python3 tools/tree.py run the gate` says why and exits with status 1.
"""

from __future__ import annotations

import functools
import os
import pathlib
import re
import shutil
import subprocess
import sys
import threading
import time
from collections.abc import Callable, Sequence

TOP = pathlib.Path(__file__).resolve().parent.parent
CRATES = TOP / "crates"
# The toolchain's command, or the one that the variable RT names instead.
RT = os.environ.get("RT", "rt")
NO_RT = """\
{rt} isn't there: only the Rattle toolchain, which isn't published, can {what}.
Without it `make` links everything from c/proved, and `make check` tests the results."""


def has_rt() -> bool:
    return shutil.which(RT) is not None


def need_rt(what: str) -> None:
    """Ends a tool with a message of three lines if the toolchain, which this step needs, is
    missing."""
    if not has_rt():
        raise SystemExit(NO_RT.format(rt=RT, what=what))


def told_by_rt(*words: str) -> str:
    """Returns the output of a command of rt."""
    return subprocess.run([RT, *words], capture_output=True, text=True, check=True).stdout


@functools.cache
def kit() -> pathlib.Path:
    """Returns the folder of the toolchain, whose first page rt names."""
    return pathlib.Path(told_by_rt("doc").strip()).parent


@functools.cache
def listed() -> dict[str, tuple[str, list[str]]]:
    """Returns each crate in crates.txt, with the rest of its line after the colon."""
    lines = [it.split("#")[0].partition(":") for it in source(TOP / "crates.txt").splitlines()]
    return {head.split()[0]: (head, rest.split()) for head, _, rest in lines if head.strip()}


def below(name: str) -> list[str]:
    """Returns the crates of the tree that a crate uses."""
    return [it for it in listed()[name][1] if it in listed()]


def all_below(name: str) -> list[str]:
    """Returns the crates below a crate, lowest first."""
    return [*dict.fromkeys(low for it in below(name) for low in [*all_below(it), it])]


def is_test_or_example(name: str) -> bool:
    """Whether a crate contains tests of other crates, or is an example."""
    return re.match(r"(test|example|hello)_|\w+_tests$", name) is not None


@functools.cache
def source(path: pathlib.Path) -> str:
    return path.read_text() if path.is_file() else ""


def has_test(crate: str, test: str) -> bool:
    """Whether a crate has a test of this name."""
    form = re.compile(rf"#\[test\](\s*#\[[^\n]*\])*\s*fn {re.escape(test)}\b")
    return any(form.search(source(it)) for it in (CRATES / crate / "src").glob("**/*.rt"))


def tell_each(seconds: float, tell: Callable[[], None]) -> None:
    """Prints a report at this interval, in parallel with the program's work."""

    def work() -> None:
        while True:
            time.sleep(seconds)
            tell()

    threading.Thread(target=work, daemon=True).start()


def report(found: Sequence[str | None], left_out: Sequence[str] = ()) -> int:
    """Prints the faults and the omissions, and the count of each. Returns the program's status.
    None means a right claim."""
    failures = [it for it in found if it]
    counts = f"{len(found) - len(failures)} passed, {len(failures)} failed"
    counts += f", {len(left_out)} left out" if left_out else ""
    print("\n".join([*failures, *left_out, counts]))
    return 1 if failures or not found else 0


if __name__ == "__main__":  # for scripts in another language
    need_rt(" ".join(sys.argv[1:]))
