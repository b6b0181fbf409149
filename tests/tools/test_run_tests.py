"""tools/run_tests.py: its counts, its failures, and the processes that it ends."""

import functools
import os
import pathlib
import re
import shutil
import signal
import subprocess
import sys
import unittest
from unittest import mock

from tests import helpers, needs
from tests.helpers import TOP, Case, Ended, each, ended, write_files

sys.path.insert(0, str(TOP / "tools"))
import jobs  # noqa: E402

HEAD = "import os, subprocess, sys, time, unittest, warnings\nclass Tests(unittest.TestCase):\n"
# A module of tests by its place in a copy of the tree, and what it does.
MODULES = {
    "tests/tools/test_well.py": """
    def test_one(self): pass
    def test_two(self): pass
    def test_skipped(self): self.skipTest("needs the program no-such-program")
    def test_skipped_in_part(self):
        for name in "ab":
            with self.subTest(name):
                self.skipTest("needs the file /no/such/file")
""",
    "tests/credbook/test_false.py": """
    def test_fails(self): self.fail("as it should")
    def test_fails_in_part(self):
        for name in "ab":
            with self.subTest(name):
                self.assertEqual(name, "a")
    def test_error(self): raise OSError
    @unittest.expectedFailure
    def test_fails_as_expected(self): self.fail("as it should")
    def test_skipped_without_a_reason(self): self.skipTest("it is Monday")
    def test_skipped_for_what_is_there(self): self.skipTest("needs the program make")
    def test_skipped_for_an_unknown_program(self): self.skipTest("needs the program makke")
    def test_well(self): pass
""",
    "tests/credbook/test_dies.py": """
    def test_dies(self): os._exit(0)
""",
    "tests/credkeep/test_hangs.py": """
    def test_hangs(self):
        sleeper = subprocess.Popen(["sleep", "1000"], start_new_session=True)
        print("the sleeper is", sleeper.pid, flush=True)
        time.sleep(1000)
""",
    "tests/server/test_turns.py": """
    def test_beside_its_module(self): self.assertEqual(os.getcwd(), os.path.dirname(__file__))
""",
    "c/tests/test_calls.py": """
    def test_one(self): pass
    def test_two(self): pass
    def test_three(self): pass
""",
    "tests/credbook/test_never.py": """
    async def test_nobody_awaits(self): self.fail("never")
    def test_generator(self): yield self.fail("never")
    def test_well(self): pass
class Others:
    def test_of_no_case(self): pass
def test_function(): pass
""",
    "python/tests/hashers/test_values.py": """
    def test_warns(self): warnings.warn("that nobody hears")
""",
}
# A job that tells the processes that are at work for it, and doesn't end.
SLOW = """
    def test_sleeps(self):
        sleeper = subprocess.Popen(["sleep", "600"], start_new_session=True)
        with open("at_work.new", "w") as file: file.write(f"{os.getpid()} {sleeper.pid}")
        os.rename("at_work.new", "at_work")
        sleeper.wait()
"""
# A failed test that tells its sample.
SAMPLED = """
    def test_fails(self):
        from tests.samples import sample
        self.fail(f"chosen: {[*sample(range(1000, 1020))]}")
"""
# What stands in place of whole modules.
TEXTS = {
    "tests/packages/test_install.py": "import no_such_module\n",
    "docs/tests/test_pages.py": "import unittest\nraise unittest.SkipTest('needs a newer cargo')\n",
    "tests/credkeep/test_large.py": "raise SystemExit('a long one ran')\n",
    "Makefile": "all:\n\t@test ! -e broken || { echo this is broken; exit 1; }\n",
    "tools/job_seconds.json": """{
    "c/tests/test_calls:1": 25,
    "c/tests/test_calls:2": 26,
    "tests/tools/test_well": 24
}""",
}
# What is copied of the tree.
COPIED = {
    "tools": ("run_tests.py", "jobs.py", "tree.py"),
    "tests": ("told.py", "helpers.py", "needs.py", "samples.py"),
}
FAILED = {
    "tests/credbook/test_false": {
        "tests.credbook.test_false.Tests.test_error",
        "tests.credbook.test_false.Tests.test_fails",
        "tests.credbook.test_false.Tests.test_fails_as_expected",
        "tests.credbook.test_false.Tests.test_fails_in_part",
        "tests.credbook.test_false.Tests.test_skipped_for_an_unknown_program",
        "tests.credbook.test_false.Tests.test_skipped_for_what_is_there",
        "tests.credbook.test_false.Tests.test_skipped_without_a_reason",
    },
    "tests/credbook/test_dies": {"tests.credbook.test_dies.Tests.test_dies"},
    "tests/credbook/test_never": {"tests/credbook/test_never"},
    "tests/packages/test_install": {"tests/packages/test_install"},
    "python/tests/hashers/test_values": {"test_values.Tests.test_warns"},
}


def has_ended(process: str) -> bool:
    words = pathlib.Path("/proc", process, "cmdline")
    return not words.exists() or not words.read_bytes()


class RunTests(Case):
    def setUp(self) -> None:
        super().setUp()
        self.top = self.room()
        write_files(self.top, {name: HEAD + text for name, text in MODULES.items()} | TEXTS)
        for folder, names in COPIED.items():
            for name in names:
                shutil.copy(TOP / folder / name, self.top / folder)
        with open(self.top / "tests/needs.py", "a") as file:
            file.write('PROGRAMS.add("no-such-program")\n')
        for folder in (
            "tests",
            "tests/tools",
            "tests/credbook",
            "tests/credkeep",
            "tests/packages",
        ):
            (self.top / folder / "__init__.py").touch()

    def run_tests(self, *words: str, **more: str) -> Ended:
        command = [sys.executable, str(self.top / "tools/run_tests.py"), *words]
        return ended(command, env={**os.environ, **more})

    def test_what_comes_of_all(self) -> None:
        """Each test is counted once, and a skip needs a reason that holds."""
        done = self.run_tests("tests/tools", "book", "server", "c/", "python", "docs", "packages")
        self.assertEqual(done.faults, "")
        lines = done.written.splitlines()
        self.assertEqual(lines[-1], "tests: 7 passed, 11 failed, 3 skipped")
        found = re.findall(r"^FAILED: (\S+): (\S+)$", done.written, re.M)
        wanted = {(job, name) for job, names in FAILED.items() for name in names}
        self.assertEqual({*found}, wanted)
        for text in ("as it should", "of that: it is Monday", "test_dies: has not ended"):
            self.assertIn(text, done.written)
        never = ("Others.test_of_no_case", "test_function")
        never += ("Tests.test_generator", "Tests.test_nobody_awaits")
        lost = ", ".join(f"tests.credbook.test_never.{it}" for it in never)
        self.assertIn(f"nothing runs {lost}\n", done.written)
        self.assertEqual(done.status, 1)

    def test_what_hangs(self) -> None:
        """A hanging job is ended with all that it started, and its output is printed."""
        done = self.run_tests("hangs", JOB_LIMIT="30")
        self.assertEqual(done.written.splitlines()[-1], "tests: 0 passed, 1 failed, 0 skipped")
        self.assertRegex(done.written, r"the sleeper is \d+\n")
        sleeper = re.search(r"the sleeper is (\d+)", done.written)[1]
        # No words are left of one that has ended, whether it was waited for or not.
        words = pathlib.Path("/proc", sleeper, "cmdline")
        self.assertEqual(words.read_bytes() if words.exists() else b"", b"")

    @each(signal.SIGINT, signal.SIGTERM, signal.SIGHUP)
    def test_interrupted(self, number: int) -> None:
        """A signal ends a run at once, with all that a job has started."""
        write_files(self.top, {"tests/credbook/test_slow.py": HEAD + SLOW})
        run = subprocess.Popen(
            [sys.executable, str(self.top / "tools/run_tests.py"), "test_slow"],
            stdout=subprocess.PIPE,
            text=True,
        )
        at_work = self.top / "at_work"
        helpers.until(at_work.exists, "it is at work")
        run.send_signal(number)
        written, _ = run.communicate(timeout=helpers.longest())
        self.assertEqual(written.splitlines()[1:], ["tests: interrupted"])
        self.assertEqual(run.returncode, 128 + number)
        for process in at_work.read_text().split():
            helpers.until(functools.partial(has_ended, process), "it has ended")
        at_work.unlink()

    def test_first_failure(self) -> None:
        """With --first nothing begins after a failure: no test of its module, and no other job."""
        write_files(self.top, {"c/tests/test_package.py": "raise SystemExit('it began')\n"})
        for words in (["test_false"], ["test_install", "c/tests/test_package"]):
            done = self.run_tests("--first", *words)
            self.assertEqual(done.written.splitlines()[-1], "tests: 0 passed, 1 failed, 0 skipped")
            self.assertNotIn("it began", done.written)

    def test_samples(self) -> None:
        """A run prints the seed of its samples, and after a failure again; the seed repeats
        them."""
        write_files(self.top, {"tests/credbook/test_sampled.py": HEAD + SAMPLED})
        variables = {"RIGZUMAL_WHOLE": "", "RIGZUMAL_SEED": ""}
        first = self.run_tests("test_sampled", **variables).written
        seeds = re.findall(r"^samples: a seventh, by RIGZUMAL_SEED=(\d+)$", first, re.M)
        self.assertEqual(seeds, seeds[:1] * 2)
        again = self.run_tests("test_sampled", **{**variables, "RIGZUMAL_SEED": seeds[0]}).written
        chosen = re.compile(r"chosen: .*")
        self.assertEqual(chosen.findall(again), chosen.findall(first))
        whole = self.run_tests("test_sampled", **{**variables, "RIGZUMAL_WHOLE": "1"}).written
        self.assertIn(f"chosen: {[*range(1000, 1020)]}", whole)

    def test_what_passes(self) -> None:
        done = self.run_tests("c/tests", "tests/tools")
        self.assertEqual(done.written.splitlines()[-1], "tests: 5 passed, 0 failed, 2 skipped")
        self.assertEqual(done.status, 0)
        skipped = {"the program no-such-program: 1", "the file /no/such/file: 1"}
        self.assertEqual({*re.findall(r"^skipped needs (.*)$", done.written, re.M)}, skipped)

    def test_nothing_that_passes(self) -> None:
        """A word that no job has is no success, nor are skips alone."""
        for word in ("no-such-job", "docs/tests"):
            self.assertEqual(self.run_tests(word).status, 1)

    def test_tools_of_rt(self) -> None:
        """Tools that run what `rt ci` builds are skipped until it has built it, whether rt is
        there or not; those of what make links never are."""
        program = self.top / "crates/hash_tests/out/hash_tests_tests"
        done = self.run_tests("tools/peak", "tests/tools")
        self.assertIn(f"skipped needs the file {program}: 1\n", done.written)
        self.assertEqual(done.status, 0)
        write_files(self.top, {str(program.relative_to(self.top)): ""})
        done = self.run_tests("tools/peak", "tests/tools")
        self.assertIn("FAILED: tools/peak_memory: tools/peak_memory\n", done.written)
        done = self.run_tests("tools/readme")
        self.assertIn("FAILED: tools/readme: tools/readme\n", done.written)

    def test_long_ones(self) -> None:
        done = self.run_tests("--long", "credkeep")
        self.assertIn("a long one ran", done.written)
        self.assertEqual(done.status, 1)

    @each(
        ([], "5 passed, 0 failed, 2 skipped"),
        (["--quick"], "2 passed, 0 failed, 2 skipped"),
        (["--slow"], "3 passed, 0 failed, 0 skipped"),
    )
    def test_lengths(self, words: list[str], last: str) -> None:
        """A quick run has the modules of less than 25 seconds, and says what it leaves out."""
        lines = self.run_tests(*words, "c/tests", "tests/tools").written.splitlines()
        self.assertEqual(lines[-1], f"tests: {last}")
        said = [it for it in lines if "2 longer modules are left out: tools/run_tests.py" in it]
        self.assertEqual(len(said), words == ["--quick"])

    def test_what_is_not_built(self) -> None:
        """No job runs unless make links the programs and the libraries."""
        (self.top / "broken").touch()
        done = self.run_tests("c/tests", "tests/tools")
        self.assertIn("this is broken\n", done.written)
        last = ["FAILED: make -s", "tests: 0 passed, 1 failed, 0 skipped"]
        self.assertEqual((done.written.splitlines()[-2:], done.status), (last, 1))

    def test_where_make_is_missing(self) -> None:
        done = self.run_tests("c/tests", "tests/tools", PATH="/no/such/folder")
        self.assertIn("make -s: [Errno 2] No such file or directory: 'make'\n", done.written)
        self.assertEqual(done.status, 1)

    def test_a_build_of_other_letters(self) -> None:
        """A failed build is shown, whatever bytes it prints."""
        write_files(folder := self.room(), {"make": "#!/bin/sh\nprintf 'refus\\351\\n'; exit 2\n"})
        (folder / "make").chmod(0o755)
        done = self.run_tests("c/tests", PATH=f"{folder}:{os.environ['PATH']}")
        self.assertIn("refus\ufffd\n\nmake -s: status 2\n", done.written)
        self.assertEqual(done.status, 1)

    @each(b"no outcome", b"\xe9", b"passed\tone\ttoo many\twords")
    def test_other_lines_of_outcomes(self, line: bytes) -> None:
        """A job whose outcomes can't be read has failed, and the others run."""
        text = f"    def test_tells(self): open(sys.argv[1], 'ab').write({line!r} + b'\\n')\n"
        write_files(self.top, {"tests/credbook/test_tells.py": HEAD + text})
        done = self.run_tests("test_tells", "tests/tools")
        self.assertIn(
            "FAILED: tests/credbook/test_tells: tests/credbook/test_tells\n", done.written
        )
        self.assertEqual(done.written.splitlines()[-1], "tests: 2 passed, 1 failed, 2 skipped")


class Excuses(unittest.TestCase):
    @each(
        ("needs the program no-such-program", True),
        ("needs the program misspelt-program", False),
        ("needs the program make", False),
        ("needs the program make, and more", False),
        ("needs the program no-such-program, and more", False),
        ("needs the program no-such-program\n", False),
        ("needs the programs that nobody wrote", False),
        ("needs the program", False),
        ("needs Python's module no_such_module", True),
        ("needs Python's modules that nobody wrote", False),
        ("needs Python's module unittest", False),
        ("needs the file /no/such/*", True),
        ("needs the file /etc/pass*", False),
        ("needs the user no-such-user", True),
        ("needs the user nobody", False),
        ("needs the library no-such-library", True),
        ("needs the library c", False),
        ("needs the variable HOME", False),
        ("needs no variable HOME", True),
        ("needs a newer cargo", True),
        ("needs a newer cargo than this", False),
        ("needs another kind of handler: test of options", True),
        ("needs another kind of handlers", False),
        ("needs to be root of all", False),
        ("needs more time", False),
        ("the machine is busy", False),
        ("it needs the program no-such-program", False),
        ("", False),
    )
    def test_excuses(self, reason: str, ought: bool) -> None:
        known = mock.patch.dict(needs.PROGRAMS, {"no-such-program": "nobody wrote it"})
        with known, mock.patch.dict(os.environ, HOME="/"):
            self.assertEqual(needs.excuse(reason), ought)

    @each(
        ("a newer SQLAlchemy", "1.4.46", "2.0.1"),
        ("a PHP with Argon2", "2y", "2y argon2i argon2id"),
        ("a PHP with libargon2", "libc.so.6", "libargon2.so.1 => /usr/lib/libargon2.so.1"),
        ("a PHP with pdo_sqlite", "pdo_mysql", "pdo_mysql\npdo_sqlite"),
    )
    def test_what_a_program_tells(self, what: str, lacking: str, having: str) -> None:
        """A need that a program's output shows is an excuse only where it isn't there."""
        for text, ought in ((lacking, True), (having, False), ("", True)):
            with self.subTest(text=text), mock.patch.object(needs, "said_by", lambda *_: text):
                self.assertEqual(needs.excuse(f"needs {what}"), ought)

    @each(("always [madvise] never", False), ("always madvise [never]", True))
    def test_huge_pages(self, text: str, ought: bool) -> None:
        with mock.patch.object(needs, "HUGE_PAGES", mock.Mock(read_text=lambda: text)):
            self.assertEqual(needs.excuse("needs huge pages"), ought)

    @each(("cc", False), ("", False), ("musl-gcc", True))
    def test_other_libraries(self, compiler: str, ought: bool) -> None:
        """A library for musl is no excuse where it is for this machine's C library."""
        with mock.patch.dict(os.environ, CC=compiler), mock.patch.object(needs, "IS_NATIVE", True):
            for what in ("a glibc", "a processor and a C library of this machine"):
                self.assertEqual(needs.excuse(f"needs {what}"), ought)


class Jobs(unittest.TestCase):
    def test_every_module_is_in_one(self) -> None:
        """Each test_*.py of the tree is run by a job, of every run or a long one."""
        every = [*jobs.jobs(), *jobs.jobs(is_long=True)]
        known = {str(TOP / it.name.partition(":")[0]) for it in every}
        for path in TOP.rglob("test_*.py"):
            if "out" not in path.parts:
                self.assertIn(str(path.with_suffix("")), known)

    def test_tests_of_others_are_named(self) -> None:
        """A file with tests whose name isn't test_*.py is run, or used, by one beside it."""
        for path in TOP.rglob("*.py"):
            is_other = "out" not in path.parts and not path.name.startswith("test_")
            if is_other and re.search(r"^    (async )?def test_\w+\(self", path.read_text(), re.M):
                with self.subTest(path.relative_to(TOP)):
                    texts = [it.read_text() for it in path.parent.glob("test_*.py")]
                    form = re.compile(rf"\b{path.stem}\b")
                    self.assertTrue(any(form.search(it) for it in texts), "nothing runs it")

    def test_every_job_has_a_note(self) -> None:
        """A quick run takes a job without a note for a short one."""
        names = {it.name for it in jobs.jobs()}
        self.assertEqual(names - {*jobs.seconds()}, set(), "tools/run_tests.py --note WORD")

    def test_named_modules_are_there(self) -> None:
        for folder in jobs.FOLDERS:
            for word in (*folder.parts, *folder.packing, *folder.long):
                with self.subTest(folder.path, word=word):
                    self.assertTrue((TOP / folder.path / f"test_{word}.py").exists())
