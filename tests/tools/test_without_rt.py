"""The messages of the tree's commands without the toolchain, in a clean copy: each command that
needs rt looks for it first. tests/packages has the builds without rt."""

import os
import pathlib
import shutil
import subprocess
import sys

from tests import helpers
from tests.helpers import TOP, each, ended
from tests.needs import need_git

# The folders of programs, but for those with an rt; and this Python.
PATH = ":".join(
    it for it in os.environ["PATH"].split(":") if not (pathlib.Path(it) / "rt").exists()
)
RT = "rt isn't there: only the Rattle toolchain, which isn't published, can"
BESIDE = "Without it `make` links everything from c/proved"
LIBRARY = "librigzumal.so.1 can't be loaded: build it with `make -C c`"

# A command, its status, what its lines begin with.
NEEDING = [
    ("make proved", 2, [f"{RT} compile the proved code", BESIDE, "make: ***"]),
    ("python tools/wrong_bodies.py", 1, [f"{RT} try wrong bodies", BESIDE]),
    ("python tools/wrong_bodies.py cred_pool -- rt ci", 1, [f"{RT} try wrong bodies", BESIDE]),
    ("python tools/promises.py", 1, [f"{RT} tell which of its crates", BESIDE]),
    (
        "python tools/refuse_memory.py",
        1,
        ["{top}/crates/book_tests/out/book_tests_tests doesn't exist"],
    ),
    (
        "python tools/peak_memory.py",
        1,
        ["{top}/crates/hash_tests/out/hash_tests_tests doesn't exist"],
    ),
    ("python tools/tree.py run the gate", 1, [f"{RT} run the gate", BESIDE]),
    ("python bench/keep/run.py", 1, ["{top}/out/credkeep is not there"]),
    ("python bench/server/beside.py .", 1, ["{top}/out/credkeep is not there"]),
    ("python tools/statements.py", 0, ["docs/STATEMENTS.txt has the line of each promise"]),
    ("python tools/definitions_page.py", 0, ["docs/DEFINITIONS.md has the definitions"]),
]


class WithoutRt(helpers.Case):
    @classmethod
    def setUpClass(cls) -> None:
        """A copy of the committed files as they are now, as a clone has them."""
        need_git()
        cls.top = helpers.common_folder() / "a copy"
        git = ["git", "-c", f"safe.directory={TOP}", "ls-files", "-z"]
        names = subprocess.run(git, cwd=TOP, capture_output=True, text=True, check=True).stdout
        for name in filter(None, names.split("\0")):
            (cls.top / name).parent.mkdir(parents=True, exist_ok=True)
            shutil.copy(TOP / name, cls.top / name)
        subprocess.run(["git", "init", "-q"], cwd=cls.top, check=True)
        subprocess.run(["git", "add", "."], cwd=cls.top, check=True)

    def ended(self, command: str) -> helpers.Ended:
        """The end of a command in the copy, where `python` is this one."""
        words = [sys.executable if it == "python" else it for it in command.split()]
        env = {"PATH": PATH, "HOME": str(self.room()), "LANG": "C.UTF-8"}
        return ended(words, cwd=self.top, env=env)

    @each(*NEEDING)
    def test_needing(self, command: str, status: int, heads: list[str]) -> None:
        """A few lines report that rt is missing and isn't published, and which commands work
        without it."""
        done = self.ended(command)
        lines = [it for it in (done.written + done.faults).splitlines() if it]
        found = [line[: len(head)] for line, head in zip(lines, self.filled(heads))]
        self.assertEqual((done.status, len(lines), found), (status, len(heads), self.filled(heads)))

    def filled(self, heads: list[str]) -> list[str]:
        return [it.format(top=self.top) for it in heads]

    def test_pages(self) -> None:
        """The parts that need the toolchain are left out, and named; the rest is compared."""
        lines = self.ended("python tools/pages.py").written.splitlines()
        self.assertRegex(lines[-1], r"^\d{4} passed, \d+ failed, 2 left out$")
        left_out = [it for it in lines if it.startswith("omitted, since rt is missing: ")]
        self.assertEqual(len(left_out), 2)

    def test_gate(self) -> None:
        """The gate ends before it works, and without a traceback."""
        done = self.ended(".ci/run")
        self.assertEqual(done.status, 1)
        self.assertNotIn("Traceback", done.faults)

    @each("import rigzumal", "import runpy; runpy.run_module('rigzumal')")
    def test_package(self, code: str) -> None:
        """The package without its library says how it is built."""
        env = {"PATH": PATH, "PYTHONPATH": str(self.top / "python")}
        done = ended([sys.executable, "-c", code], cwd=self.room(), env=env)
        self.assertEqual(done.status, 1)
        self.assertIn(f"\nImportError: {LIBRARY}", done.faults)
