#!/usr/bin/env python3
"""Changes a file in one place at a time, runs tests, and prints each change that no test refuses.

    python3 tools/mutate.py FILE [--sample N] [--seed S] [--jobs N] [--limit SECONDS]
                                 [--build COMMAND] --tests COMMAND..
    python3 tools/mutate.py --plants [WORD..]

FILE is in Python, C or Rust. The tests run at the top of copies of the repository, which include
the contents of its `out` folders, but only the programs of crates:

    python3 tools/mutate.py python/rigzumal/_parts.py --tests \\
        /usr/bin/python3 -m unittest discover -s python/tests/hashers -k library
    python3 tools/mutate.py c/src/base64.c --sample 40 --tests make -s -C c test

Without --sample the script tries all changes. First the tests must pass in each copy, with nothing
changed. The time limit of a mutant is five times their time, but at least ten seconds, unless
--limit sets another. A mutant survives if its run ends in time with status 0. A mutant that Python
can't compile, or that --build refuses (for C `make` and for Rust `cargo test --no-run` in the
nearest folder with a Makefile or Cargo.toml), doesn't count as refused. Make sure that COMMAND runs
any tests: unittest of Python 3.11 exits with status 0 if -k matches none, and then all mutants
survive.

With --plants the changes are those of tools/plants.edits, or those of files with a WORD in their
names: a mistake in each folder that we ship. A maintainer tries them before a release, once the
gate has built everything. tools/run_tests.py has to refuse each, by the jobs that its block names.

The status is 1 if the tests fail with nothing changed, or if they don't refuse a mistake of ours.
"""

from __future__ import annotations

import argparse
import collections
import concurrent.futures
import contextlib
import os
import pathlib
import queue
import random
import shlex
import shutil
import signal
import subprocess
import sys
import tempfile
import time
from collections.abc import Iterator
from typing import NamedTuple, Optional

from edits import Edit, blocks_in
from mutants import LANGUAGES, mutants_of
from tree import TOP

PLANTS = TOP / "tools/plants.edits"
RUN_TESTS = [sys.executable, "tools/run_tests.py"]


class Mistake(NamedTuple):
    """A file with a mistake, and the commands that build it and refuse it."""

    name: str
    file: pathlib.Path
    text: bytes
    build: list[str]
    tests: list[str]


def output(folder: pathlib.Path, *command: object) -> str:
    done = subprocess.run([*map(str, command)], cwd=folder, stdout=subprocess.PIPE, check=True)
    return os.fsdecode(done.stdout)


def built(top: pathlib.Path) -> Iterator[pathlib.Path]:
    """Yields the folders of built files and, of crates, the programs, without the large proofs."""
    for folder in (*top.glob("out"), *top.glob("*/out"), *top.glob("*/*/out")):
        if folder.parent.parent.name != "crates":
            yield folder
    for crate in top.glob("crates/*"):
        yield from (it for it in crate.glob(f"out/{crate.name}*") if it.is_file())


class Copy:
    """A copy of the repository in a separate folder."""

    def __init__(self, top: pathlib.Path, room: pathlib.Path) -> None:
        self.top = room
        room.mkdir(mode=0o755)
        listed = output(top, "git", "ls-files", "-zco", "--exclude-standard").split("\0")
        files = [name for name in listed if name and os.path.lexists(top / name)]
        files += [str(it.relative_to(top)) for it in built(top)]
        output(top, "cp", "-a", "--parents", "-t", room, *files)
        for words in (("init", "-q"), ("add", "-A")):  # tests ask git for the files of the tree
            output(room, "git", *words)

    def passes(self, command: list[str], limit: Optional[float]) -> bool:
        """Runs a command, ends its process group, and returns whether it ended in time with status
        0."""
        none = subprocess.DEVNULL
        given = {"stdin": none, "stdout": none, "stderr": none, "start_new_session": True}
        env = {**os.environ, "PYTHONDONTWRITEBYTECODE": "1"}
        with subprocess.Popen(command, cwd=self.top, env=env, **given) as running:
            try:
                return running.wait(limit) == 0
            except subprocess.TimeoutExpired:
                return False
            finally:
                with contextlib.suppress(ProcessLookupError):
                    os.killpg(running.pid, signal.SIGKILL)

    def verdict(self, mistake: Mistake, limit: Optional[float]) -> str:
        """Returns the outcome of a mistake, and leaves the file as it was."""
        path = self.top / mistake.file
        text = path.read_bytes()
        path.write_bytes(mistake.text)
        shutil.rmtree(path.parent / "__pycache__", ignore_errors=True)
        try:
            if mistake.build and not self.passes(mistake.build, limit):
                return "not compiled"
            return "survived" if self.passes(mistake.tests, limit) else "refused"
        finally:
            path.write_bytes(text)


def builder(top: pathlib.Path, file: pathlib.Path) -> list[str]:
    """Returns the command that compiles a file."""
    if file.suffix == ".py":
        code = f"compile(open({str(file)!r}, 'rb').read(), 'mutant', 'exec')"
        return [sys.executable, "-c", code]
    for folder in file.parents:
        if file.suffix == ".rs" and (top / folder / "Cargo.toml").is_file():
            words = "cargo test --no-run --offline --manifest-path".split()
            return [*words, str(folder / "Cargo.toml")]
        if file.suffix != ".rs" and (top / folder / "Makefile").is_file():
            return ["make", "-s", "-C", str(folder)]
    sys.exit(f"{file} has no Makefile or Cargo.toml above it: name a command by --build")


def mutations(top: pathlib.Path, file: pathlib.Path, asked: argparse.Namespace) -> list[Mistake]:
    """Returns the changes of a file, as many as are asked for."""
    source, found = (top / file).read_bytes(), mutants_of(top / file)
    count = min(asked.sample or len(found), len(found))
    build, mistakes = asked.build or builder(top, file), []
    for start, end, operator, new in sorted(random.Random(asked.seed).sample(found, count)):
        line, old = source[:start].count(b"\n") + 1, source[start:end].decode()
        change = " -> ".join(" ".join(it.split())[:80] for it in (old, new))
        text = source[:start] + new.encode() + source[end:]
        name = f"{file}:{line}: {operator}: {change}"
        mistakes.append(Mistake(name, file, text, build, asked.tests))
    return mistakes


def plants(words: list[str]) -> list[Mistake]:
    """Returns our own mistakes, each in the only file that it changes."""
    found = []
    for plant in map(Edit, blocks_in(PLANTS)):
        file = pathlib.Path(plant.changes[0].file)
        if any(word in str(file) for word in words or [""]):
            changed = plant.planted({str(file): (TOP / file).read_text()})
            if changed is None:
                sys.exit(f"{file} hasn't the text of {plant.name} exactly once")
            tests = [*RUN_TESTS, "--first", plant.of]
            found.append(Mistake(plant.name, file, changed[str(file)].encode(), [], tests))
    return found


def verdicts(
    top: pathlib.Path, mistakes: list[Mistake], tests: list[str], asked: argparse.Namespace
) -> Iterator[tuple[Mistake, str]]:
    """Yields each mistake with its outcome, in their order; first the tests have to pass in each
    copy with nothing changed."""
    with contextlib.ExitStack() as stack:
        room = pathlib.Path(stack.enter_context(tempfile.TemporaryDirectory(prefix="mutate-")))
        room.chmod(0o755)
        count = min(asked.jobs, len(mistakes))
        pool = stack.enter_context(concurrent.futures.ThreadPoolExecutor(asked.jobs))
        copies, began = [Copy(top, room / str(it)) for it in range(count)], time.monotonic()
        if not all(pool.map(lambda copy: copy.passes(tests, asked.limit), copies)):
            sys.exit("the tests fail with nothing changed")
        took = time.monotonic() - began
        print(f"the tests pass with nothing changed, in {took:.0f} s", flush=True)
        limit = asked.limit or (max(10, 5 * took) if asked.file else None)
        free: queue.Queue[Copy] = queue.Queue()
        for copy in copies:
            free.put(copy)

        def tried(mistake: Mistake) -> tuple[Mistake, str]:
            copy = free.get()
            try:
                return mistake, copy.verdict(mistake, limit)
            finally:
                free.put(copy)

        yield from pool.map(tried, mistakes)


def asked_by(words: list[str]) -> argparse.Namespace:
    reader = argparse.ArgumentParser(usage=(__doc__ or "").split("\n\n")[1].strip())
    reader.add_argument("file", type=pathlib.Path, nargs="?")
    reader.add_argument("--plants", nargs="*", metavar="WORD")
    reader.add_argument("--sample", type=int, metavar="N")
    reader.add_argument("--seed", type=int, default=1, metavar="S")
    reader.add_argument("--jobs", type=int, default=os.cpu_count(), metavar="N")
    reader.add_argument("--limit", type=float, metavar="SECONDS")
    reader.add_argument("--build", type=shlex.split, metavar="COMMAND")
    reader.add_argument("--tests", nargs=argparse.REMAINDER, metavar="COMMAND")
    asked = reader.parse_args(words)
    if (asked.plants is None) != bool(asked.file and asked.tests):
        reader.error("name a file and --tests, or --plants")
    if asked.file and asked.file.suffix not in LANGUAGES:
        reader.error(f"{asked.file} isn't in Python, C or Rust")
    return asked


def main() -> int:
    asked = asked_by(sys.argv[1:])
    if asked.file:
        path = asked.file.resolve()
        top = pathlib.Path(output(path.parent, "git", "rev-parse", "--show-toplevel").rstrip("\n"))
        mistakes, tests = mutations(top, path.relative_to(top), asked), asked.tests
    else:
        top, mistakes, asked.jobs = TOP, plants(asked.plants), 1  # the jobs share the processors
        tests = [*RUN_TESTS, *sorted({it.tests[-1] for it in mistakes})]
    if not mistakes:
        sys.exit("nothing to change")
    counts = collections.Counter[str]()
    for mistake, verdict in verdicts(top, mistakes, tests, asked):
        counts[verdict] += 1
        if asked.file is None:
            print(f"{mistake.name}: {verdict}", flush=True)
        elif verdict == "survived":
            print(mistake.name, flush=True)
    told = [f"{counts[it]} {it}" for it in ("refused", "survived", "not compiled")]
    print(f"{len(mistakes)} tried:", ", ".join(told))
    return int(asked.file is None and counts["refused"] < len(mistakes))


if __name__ == "__main__":
    sys.exit(main())
