"""The tests of the tree, and the command for each folder, for tools/run_tests.py."""

from __future__ import annotations

import dataclasses
import json
import sys
from collections.abc import Collection, Iterator, Mapping
from pathlib import Path

from tree import TOP

SECONDS = TOP / "tools/job_seconds.json"
TOLD = TOP / "tests/told.py"


@dataclasses.dataclass(frozen=True)
class Folder:
    """A folder with test modules, each named by the part between `test_` and `.py`."""

    path: str
    # Whether its modules are in the package `tests`, instead of on the path of their own folder.
    is_package: bool = False
    # Options for Python, such as the one that makes a warning an error.
    options: tuple[str, ...] = ()
    # Long modules, with the number of processes that share their tests.
    parts: Mapping[str, int] = dataclasses.field(default_factory=dict)
    # Modules that write into the folders out/ of c/ and python/: no two of them run at once.
    packing: Collection[str] = ()
    # Modules that are too long for every run: `make test` runs them.
    long: Collection[str] = ()


# A warning is an error, except the warning of low costs, which the tests' hashers have.
WARNINGS = ("-W", "error", "-W", "ignore:memory_cost=")

FOLDERS = (
    Folder("tests/credbook", is_package=True),
    Folder(
        "tests/credkeep",
        is_package=True,
        parts={
            "refused_memory": 3,
            "refused_calls": 4,
            "tries": 2,
            "work": 2,
            "import": 2,
        },
        long=["large"],
    ),
    Folder(
        "tests/server",
        parts={"sites": 2, "logins": 2, "starts_and_ends": 2},
        long=["booted", "torture", "many_kills"],
    ),
    Folder("tests/tools", is_package=True),
    Folder("tests/packages", is_package=True, packing=["install"], long=["empty_root"]),
    Folder(
        "c/tests",
        packing=["package"],
        parts={"programs": 4, "secrets": 4, "calls": 2, "libargon2": 2},
        long=["older_builds"],
    ),
    Folder("c/pam/tests"),
    Folder("python/tests/hashers", options=WARNINGS),
    Folder("python/tests/package", options=WARNINGS, packing=["package"]),
    Folder("python/tests/accounts", parts={"engines": 4}),
    Folder("python/tests/frameworks", parts={"on_their_own": 3}),
    Folder("docs/tests", parts={"pages": 2}),
    Folder("rust/tests"),
)

# Programs of tools/ that are tests too, with their words and, if only `rt ci` builds it, the
# program that they run.
PROGRAMS = {
    "refuse_memory": ((), "crates/book_tests/out/book_tests_tests"),
    "peak_memory": ((), "crates/hash_tests/out/hash_tests_tests"),
    "readme": (("README.md",), ""),
}
# A module of fewer seconds is in the quick run.
QUICK = 25


@dataclasses.dataclass(frozen=True)
class Job:
    """The tests or the tool that run in one process."""

    name: str
    folder: str
    command: tuple[str, ...]
    at: Path
    is_packing: bool = False
    is_long: bool = False
    # The part that the machine lacks, so that the run skips the job.
    lacks: str = ""

    @property
    def is_told(self) -> bool:
        """Whether the job writes the outcome of each test into a file."""
        return str(TOLD) in self.command


def modules_of(folder: Folder) -> Iterator[Job]:
    """Yields the jobs of a folder: one for each module, or each part of it."""
    at = TOP if folder.is_package else TOP / folder.path
    for file in sorted((TOP / folder.path).glob("test_*.py")):
        word = file.stem.partition("_")[2]
        count = folder.parts.get(word, 1)
        for part in range(1, count + 1):
            shared = (str(part), str(count)) if count > 1 else ()
            yield Job(
                name=f"{folder.path}/{file.stem}" + (f":{part}" if shared else ""),
                folder=folder.path,
                command=(*folder.options, str(TOLD), "{told}", str(file.relative_to(at)), *shared),
                at=at,
                is_packing=word in folder.packing,
                is_long=word in folder.long,
            )


def programs() -> Iterator[Job]:
    for name, (words, built) in PROGRAMS.items():
        command = (str(TOP / f"tools/{name}.py"), *words)
        lacks = "" if not built or (TOP / built).exists() else f"the file {TOP / built}"
        yield Job(f"tools/{name}", "tools", command, TOP, lacks=lacks)


def seconds() -> dict[str, float]:
    """Returns the seconds of each job when the file was written, by its name."""
    known: dict[str, float] = json.loads(SECONDS.read_text()) if SECONDS.exists() else {}
    return known


def jobs(words: Collection[str] = (), is_long: bool = False) -> list[Job]:
    """Returns the jobs with one of these words in their names, either those of every run or the
    long ones. The longest jobs, and those of unknown length, come first."""
    every = [*programs(), *(job for folder in FOLDERS for job in modules_of(folder))]
    if words:
        every = [job for job in every if any(word in job.name for word in words)]
    known = seconds()
    return sorted(
        (job for job in every if job.is_long == is_long),
        key=lambda job: known.get(job.name, sys.maxsize),
        reverse=True,
    )
