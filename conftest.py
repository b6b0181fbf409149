"""The rules of tools/run_tests.py, for pytest: `pytest PATH -k WORD`, `-x`, `--lf` and so on run
some of the tests, which are plain unittest, as strictly as a run of all.

A skip has to name what the machine lacks, and each part of a test counts. make links the programs
and the libraries before the first module. The run ends what its tests started and left. But a
hanging test has no limit of its own here, and one that calls os._exit ends the run, with its
status.
"""

from __future__ import annotations

import atexit
import functools
import os
import pathlib
import re
import signal
import sys
from collections.abc import Iterator
from typing import Any, Optional

import pytest
from _pytest.unittest import TestCaseFunction

TOP = pathlib.Path(__file__).resolve().parent
sys.path[:0] = [str(TOP), str(TOP / "tools")]
import run_tests  # noqa: E402
from jobs import FOLDERS, Folder  # noqa: E402
from tests import needs, told  # noqa: E402


def folder_of(path: pathlib.Path) -> Optional[Folder]:
    return next((it for it in FOLDERS if TOP / it.path == path.parent), None)


def place_of(folder: Folder) -> pathlib.Path:
    """Returns the folder in which run_tests runs the modules of another."""
    return TOP if folder.is_package else TOP / folder.path


def pytest_configure(config: Any) -> None:
    config.addinivalue_line("markers", "long: too long for every run: `-m long` runs it")
    # A shell in the background has its jobs ignore a signal, and then the tests' programs would.
    signal.signal(signal.SIGINT, signal.default_int_handler)
    for number in (signal.SIGTERM, signal.SIGHUP):
        signal.signal(number, lambda number, _: pytest.exit(f"signal {number}", 128 + number))
    # After all else at the end: a server that tests share ends itself.
    atexit.register(run_tests.end_all, run_tests.RUN)
    marks = os.environ.get(run_tests.MARK, "")
    os.environ[run_tests.MARK] = f"{marks}{run_tests.RUN};"


@functools.cache
def build() -> None:
    if fault := run_tests.fault_of_build():
        pytest.exit(fault, 1)


@functools.lru_cache(1)  # for each change of the folder
def enter(at: pathlib.Path) -> None:
    """Has modules run where run_tests runs them, and find the modules beside them: those of other
    folders may have the same names."""
    for name, module in [*sys.modules.items()]:
        file = pathlib.Path(getattr(module, "__file__", None) or "/")
        is_one = "." not in name and not hasattr(module, "__path__")
        if is_one and TOP in file.parents and file.parent not in (TOP, TOP / "tools"):
            del sys.modules[name]
    sys.path.insert(0, str(at))
    os.chdir(at)


def pytest_collection_modifyitems(items: list[Any]) -> None:
    for item in items:
        folder = folder_of(item.path)
        if folder and item.path.stem.removeprefix("test_") in folder.long:
            item.add_marker("long")
        if folder and folder.options:  # a warning is an error
            item.add_marker(pytest.mark.filterwarnings("error", "ignore:memory_cost="))


@functools.cache
def outside(module: Any) -> list[str]:
    return [*told.outside(module)]


def pytest_runtest_setup(item: Any) -> None:
    if folder := folder_of(item.path):
        enter(place_of(folder))


@pytest.hookimpl(tryfirst=True)
def pytest_runtest_call(item: Any) -> None:
    lost = outside(item.module)
    if item.cls and told.is_never_run(item.cls(item.name)):
        lost = [item.name]
    if lost:
        pytest.fail(f"nothing runs {', '.join(lost)}", pytrace=False)


def add_subtest(self: Any, case: Any, subtest: Any, fault: Any) -> None:
    """Notes a part of a test that failed, before any skip of another part, and has the rest run."""
    if fault is not None:
        self.addFailure(case, fault)
        self._excinfo.insert(0, self._excinfo.pop())


TestCaseFunction.addSubTest, TestCaseFunction.failfast = add_subtest, False


def judge_skip(report: Any, *reasons: str) -> None:
    """Has a test fail that is skipped though the machine lacks nothing of what the test needs."""
    for told_reason in reasons:
        reason = re.sub(r"^(unittest\.case\.SkipTest|Skipped): ", "", told_reason)
        if not needs.excuse(reason):
            report.outcome = "failed"
            report.longrepr = f"skipped, though this machine lacks nothing of that: {reason}"


@pytest.hookimpl(hookwrapper=True)
def pytest_runtest_makereport(item: Any, call: Any) -> Iterator[None]:
    report = (yield).get_result()
    rest = getattr(item, "_excinfo", None) or []
    others = [str(it.value) for it in rest if it.errisinstance(pytest.skip.Exception)]
    if call.when == "call":  # pytest would tell the other parts as errors behind the test
        report.sections += [("another part", str(it.getrepr(style="short"))) for it in rest]
        rest.clear()
    if hasattr(report, "wasxfail"):
        del report.wasxfail
        report.outcome, report.longrepr = "failed", "an expected failure is no test"
    elif report.skipped:
        judge_skip(report, report.longrepr[2], *others)


@pytest.hookimpl(hookwrapper=True)
def pytest_make_collect_report(collector: Any) -> Iterator[None]:
    folder = folder_of(collector.path) if isinstance(collector, pytest.Module) else None
    if folder:
        enter(place_of(folder))
        build()
    report = (yield).get_result()
    if report.skipped:
        judge_skip(report, report.longrepr[2])


@pytest.hookimpl(trylast=True)
def pytest_sessionfinish(session: Any, exitstatus: int) -> None:
    """Skips alone are no success."""
    told = session.config.pluginmanager.get_plugin("terminalreporter")
    if exitstatus == 0 and not session.config.option.collectonly and "passed" not in told.stats:
        session.exitstatus = 1
