#!/usr/bin/env python3
"""Runs the tests over what `make` links, three jobs at once for two processors.

    python3 tools/run_tests.py [--quick | --slow | --long] [--note] [--first] [WORD..]

The script first runs `make`, and then the jobs of tools/jobs.py that have one of the words in their
names. Each test module is a separate process, and so are some tools. The script prints the output
of failed jobs. Every half minute a line lists the running jobs. A test may skip itself only if
tests/needs.py finds that the thing it names is missing, and if the table there has the program that
it names. Tests of long series take samples (tests/samples.py): the first line, and one after a
failure, has their seed. The last line is `tests: N passed, M failed, K skipped`, and the status is
1 if any test failed. A signal ends the run and everything that its jobs started; the last line is
then `tests: interrupted`.

--quick runs only the modules that take less than 25 seconds by tools/job_seconds.json, and
--slow only the others; --long runs the modules that every other run omits. --note stores the time
of each job in that file, so that the longest jobs begin first. --first begins no job after a failed
one, and no test of a module after a failed one.
"""

from __future__ import annotations

import argparse
import collections
import concurrent.futures
import contextlib
import json
import os
import pathlib
import signal
import subprocess
import sys
import tempfile
import threading
import time
import traceback
from collections.abc import Sequence
from typing import Any

from jobs import QUICK, SECONDS, Job, jobs, seconds
from tree import TOP, tell_each

sys.path.insert(0, str(TOP))
from tests import helpers, needs, samples  # noqa: E402

EVERY = 30
# A mark in the environment of each process that a job started. The run finds the process by this
# mark, whatever its parent.
MARK = "RIGZUMAL_JOB"
# The mark of a whole run, and the signals that end the run.
RUN = f"run-{os.getpid()}"
SIGNALS = (signal.SIGINT, signal.SIGTERM, signal.SIGHUP)
INTERRUPTED = threading.Event()
BUILD = ["make", "-s"]


def limit() -> int:
    """Returns the seconds after which the run ends a job that begins now."""
    return int(os.environ.get("JOB_LIMIT", 10 * helpers.longest()))


def jobs_at_once() -> int:
    """Returns the number of jobs that run at once: more than processors, since many jobs wait more
    than they compute."""
    return max(2, len(os.sched_getaffinity(0)) * 3 // 2)


def end_all(mark: str) -> None:
    """Kills every process with this mark."""
    for place in pathlib.Path("/proc").glob("[0-9]*/environ"):
        with contextlib.suppress(OSError):
            if f"{mark};".encode() in place.read_bytes():
                os.kill(int(place.parent.name), signal.SIGKILL)


def interrupt(number: int, _: Any) -> None:
    """Ends the run with all processes of its jobs, and drops their further output."""
    INTERRUPTED.set()
    os.write(sys.stdout.fileno(), b"tests: interrupted\n")
    os.dup2(os.open(os.devnull, os.O_WRONLY), sys.stdout.fileno())
    end_all(RUN)
    end_all(RUN)  # again: a process may have started another meanwhile
    os._exit(128 + number)


class Done:
    """The outcome of a job: its tests by their words, its output, and its time."""

    def __init__(self, job: Job, words: Sequence[str] = ()) -> None:
        self.job = job
        self.words = words if job.is_told else ()
        self.tests: dict[str, str] = {}
        self.output = ""
        self.is_whole = not job.is_told
        self.seconds = self.processor = 0.0
        if job.lacks:
            self.note("skipped", job.name, f"needs {job.lacks}")
            return
        try:
            self.run_in_room()
            self.judge()
        except Exception:  # such as one of a line in `told` that isn't of told.py
            self.output += traceback.format_exc()
            self.tests[job.name] = "failed"

    def run_in_room(self) -> None:
        """Runs the job, and notes its output and the outcomes of its tests."""
        with tempfile.TemporaryDirectory(prefix="rigzumal-job-") as room:
            told, printed = pathlib.Path(room, "told"), pathlib.Path(room, "printed")
            self.run(told, printed)
            self.output += printed.read_text(errors="replace")
            if told.exists():
                for line in told.read_text(errors="replace").splitlines():
                    self.note(*line.split("\t"))

    def run(self, told: pathlib.Path, printed: pathlib.Path) -> None:
        """Runs the job to its end, or ends it with everything that it started."""
        mark, began = f"{os.getpid()}-{told}", time.monotonic()
        command = [it.format(told=told) for it in (*self.job.command, *self.words)]
        with open(printed, "wb") as output:
            process = subprocess.Popen(
                [sys.executable, *command],
                cwd=self.job.at,
                env={**os.environ, MARK: f"{os.environ.get(MARK, '')}{RUN};{mark};"},
                stdin=subprocess.DEVNULL,
                stdout=output,
                stderr=subprocess.STDOUT,
                start_new_session=True,
            )
        timer = threading.Timer(limit(), end_all, [mark])
        timer.start()
        _, status, used = os.wait4(process.pid, 0)
        timer.cancel()
        end_all(mark)
        self.seconds = time.monotonic() - began
        self.processor = used.ru_utime + used.ru_stime
        self.status = process.returncode = os.waitstatus_to_exitcode(status)

    def note(self, word: str, name: str, reason: str) -> None:
        """Notes the outcome in a line of the test, and never forgets a failure."""
        if word == "all":
            self.is_whole = True
            return
        if word == "skipped" and not needs.excuse(reason):
            self.output += f"{name}: skipped, though this machine lacks nothing of that: {reason}\n"
            word, reason = "failed", ""
        if self.tests.get(name) != "failed":
            self.tests[name] = f"{word} {reason}".strip()

    def judge(self) -> None:
        """Judges the outcomes: a test that has begun must end, and a module must report all its
        tests. A job that isn't a test module is itself one test."""
        for name, word in self.tests.items():
            if word == "begun":
                self.output += f"{name}: has not ended after {self.seconds:.0f} s\n"
                self.tests[name] = "failed"
        is_well = self.status == 0 and self.is_whole
        if not self.job.is_told or not is_well and "failed" not in self.tests.values():
            self.tests[self.job.name] = "passed" if is_well else "failed"

    def failed(self) -> list[str]:
        return [name for name, word in self.tests.items() if word == "failed"]


def fault_of_build() -> str:
    """Builds the programs and the libraries, and returns the output of a failed build, or
    nothing."""
    pipes: dict[str, Any] = {"stdout": subprocess.PIPE, "stderr": subprocess.STDOUT}
    pipes |= {"stdin": subprocess.DEVNULL, "errors": "replace"}
    try:
        done = subprocess.run(BUILD, cwd=TOP, **pipes)
    except OSError as fault:  # make is missing
        return f"{' '.join(BUILD)}: {fault}"
    return f"{done.stdout}\n{' '.join(BUILD)}: status {done.returncode}" if done.returncode else ""


class Progress:
    """Prints the running jobs every half minute, and stores the outcomes of those that have
    ended."""

    def __init__(self, count: int, is_first: bool = False) -> None:
        self.count, self.done = count, list[Done]()
        self.is_first = is_first  # whether the run ends at the first failure
        self.running: dict[str, float] = {}
        tell_each(EVERY, self.tell)

    def tell(self) -> None:
        longest = ", ".join(sorted({**self.running}, key=self.running.__getitem__)[:4])
        print(f"tests: {len(self.done)} of {self.count} jobs; at work: {longest}", flush=True)

    def run_beside(self, chosen: list[Job]) -> None:
        """Runs jobs in parallel, except that those which write into the same folders run one after
        another."""
        packing = [it for it in chosen if it.is_packing]
        queues = [packing, *([it] for it in chosen if not it.is_packing)]
        with concurrent.futures.ThreadPoolExecutor(jobs_at_once()) as pool:
            list(pool.map(self.run, queues))

    def run(self, queue: list[Job]) -> None:
        """Runs jobs one after another."""
        for job in queue:
            if INTERRUPTED.is_set():
                return
            if self.is_first and any(it.failed() for it in self.done):
                return
            self.running[job.name] = time.monotonic()
            done = Done(job, ["--first"] if self.is_first else [])
            del self.running[job.name]
            self.done.append(done)
            if done.failed():
                print(f"{done.output}\n{job.name}: FAILED, {done.seconds:.0f} s", flush=True)

    def note(self) -> None:
        """Stores the time of each job, as a quiet machine would need it."""
        load = helpers.busy()
        took = {it.job.name: round(max(it.processor, it.seconds / load)) for it in self.done}
        known = seconds() | took
        SECONDS.write_text(json.dumps(known, indent=1, sort_keys=True) + "\n")

    def tell_folders(self) -> None:
        """Prints a line for each folder: its tests, and their time."""
        for folder in sorted({it.job.folder for it in self.done}):
            of_it = [it for it in self.done if it.job.folder == folder]
            tests, used = sum(len(it.tests) for it in of_it), sum(it.processor for it in of_it)
            print(f"{folder}: {tests} tests, {used:.0f} processor seconds")

    def end(self) -> int:
        """Prints the skipped tests, the failures, and the last line. Returns the status of the
        program."""
        words = [word for done in self.done for word in done.tests.values()]
        skips = collections.Counter(it for it in words if it.startswith("skipped"))
        for reason, count in sorted(skips.items()):
            print(f"{reason}: {count}")
        failed = [f"{done.job.name}: {name}" for done in self.done for name in done.failed()]
        if failed:
            print(samples.told())
        for name in failed:
            print(f"FAILED: {name}")
        passed = words.count("passed")
        print(f"tests: {passed} passed, {len(failed)} failed, {sum(skips.values())} skipped")
        return 1 if failed or not passed else 0


def chosen_jobs(asked: argparse.Namespace) -> tuple[list[Job], list[Job]]:
    """Returns the jobs of a run, and those that it leaves out because they are long."""
    every, known = jobs(asked.words, asked.long), seconds()
    slow = [it for it in every if known.get(it.name, 0) >= QUICK]
    quick = [it for it in every if it not in slow]
    return (quick, slow) if asked.quick else (slow if asked.slow else every, [])


def tell_left_out(left_out: list[Job]) -> None:
    """Prints what a longer run adds to a quick one."""
    took = sum(seconds().get(it.name, QUICK) for it in left_out)
    minutes = took / len(os.sched_getaffinity(0)) / 60
    print(
        f"tests: {len(left_out)} longer modules are left out: tools/run_tests.py --slow runs them "
        f"in about {minutes:.0f} minutes, and --long runs those of kills and empty machines"
    )


def main() -> int:
    reader = argparse.ArgumentParser(usage=(__doc__ or "").split("\n\n")[1].strip())
    length = reader.add_mutually_exclusive_group()
    length.add_argument("--quick", action="store_true")
    length.add_argument("--slow", action="store_true")
    length.add_argument("--long", action="store_true")
    reader.add_argument("--note", action="store_true")
    reader.add_argument("--first", action="store_true")
    reader.add_argument("words", nargs="*")
    asked = reader.parse_args()
    for number in SIGNALS:
        signal.signal(number, interrupt)
    chosen, left_out = chosen_jobs(asked)
    if helpers.IS_NATIVE and (fault := fault_of_build()):
        print(f"{fault}\nFAILED: {' '.join(BUILD)}\ntests: 0 passed, 1 failed, 0 skipped")
        return 1
    samples.draw()
    print(samples.told(), flush=True)
    progress = Progress(len(chosen), asked.first)
    progress.run_beside(chosen)
    if asked.note:
        progress.note()
    progress.tell_folders()
    if left_out:
        tell_left_out(left_out)
    return progress.end()


if __name__ == "__main__":
    sys.exit(main())
