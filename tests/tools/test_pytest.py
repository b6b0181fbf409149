"""conftest.py: what pytest makes of modules that tools/run_tests.py is tested with."""

import re
import shutil
import sys

from tests.helpers import TOP, Case, Ended, ended, need_module, until, write_files
from tests.tools.test_run_tests import COPIED, HEAD, MODULES, TEXTS, has_ended

# Not these: a test that never ends, one that ends the whole run, and a long module.
OTHERS = {"tests/credkeep/test_hangs.py", "tests/credbook/test_dies.py"}
OTHERS |= {"tests/credkeep/test_large.py"}
LONG = "    def test_long(self): pass\n"
# A test whose first part is skipped, and whose second fails.
PARTS = """    def test_parts(self):
        for name in "ab":
            with self.subTest(name):
                if name == "a": self.skipTest("needs the program no-such-program")
                self.fail(name)
"""
# Two modules that import one of the same name beside them, and one that leaves a process.
BESIDE = "    def test_beside(self):\n        import records; self.assertEqual(records.OF, '{}')\n"
LEAVES = """    def test_leaves(self):
        sleeper = subprocess.Popen(["sleep", "600"], start_new_session=True)
        with open("sleeper", "w") as file: file.write(str(sleeper.pid))
"""
PASSED = {f"tests/tools/test_well.py::Tests::test_{it}" for it in ("one", "two")}
PASSED |= {f"c/tests/test_calls.py::Tests::test_{it}" for it in ("one", "two", "three")}
PASSED |= {"tests/server/test_turns.py::Tests::test_beside_its_module"}
PASSED |= {"tests/credbook/test_false.py::Tests::test_well"}
FALSE = "error fails fails_as_expected fails_in_part skipped_for_an_unknown_program"
FALSE += " skipped_for_what_is_there skipped_without_a_reason"
FAILED = {f"tests/credbook/test_false.py::Tests::test_{it}" for it in FALSE.split()}
NEVER = {f"Tests::test_{it}" for it in ("generator", "nobody_awaits", "well")} | {"test_function"}
FAILED |= {f"tests/credbook/test_never.py::{it}" for it in NEVER}
FAILED |= {"python/tests/hashers/test_values.py::Tests::test_warns"}
FAILED |= {"tests/credbook/test_parts.py::Tests::test_parts"}


class Pytest(Case):
    def setUp(self) -> None:
        super().setUp()
        need_module("pytest")
        self.top = self.room()
        modules = {**MODULES, "tests/credbook/test_parts.py": PARTS}
        texts = {name: HEAD + text for name, text in modules.items()} | TEXTS
        self.write({name: text for name, text in texts.items() if name not in OTHERS})
        for folder, names in {**COPIED, ".": ("conftest.py", "pyproject.toml")}.items():
            (self.top / folder).mkdir(exist_ok=True)
            for name in names:
                shutil.copy(TOP / folder / name, self.top / folder)
        with open(self.top / "tests/needs.py", "a") as file:
            file.write('PROGRAMS.add("no-such-program")\n')
        for folder in (".", "tools", "credbook", "credkeep", "packages"):
            self.write({f"tests/{folder}/__init__.py": ""})

    def write(self, texts: dict[str, str]) -> None:
        write_files(self.top, texts)

    def run_pytest(self, *words: str) -> Ended:
        return ended([sys.executable, "-m", "pytest", "-q", "-rA", *words], cwd=self.top)

    def outcomes(self, done: Ended, word: str) -> set[str]:
        """The tests of this outcome, by their places."""
        return {*re.findall(rf"^{word} (\S+)", done.written, re.M)}

    def test_outcomes(self) -> None:
        """Each test passes or fails as with tools/run_tests.py, and a skip needs a reason that
        holds; the failed ones run again."""
        done = self.run_pytest("--continue-on-collection-errors")
        self.assertEqual(self.outcomes(done, "PASSED"), PASSED)
        self.assertEqual(self.outcomes(done, "FAILED"), FAILED)
        self.assertEqual(self.outcomes(done, "ERROR"), {"tests/packages/test_install.py"})
        self.assertEqual(len(re.findall(r"^SKIPPED", done.written, re.M)), 3)
        for text in ("lacks nothing of that: it is Monday", "AssertionError: 'b' != 'a'"):
            self.assertIn(text, done.written)
        self.assertEqual(done.status, 1)
        done = self.run_pytest("--lf", "tests/credbook")
        self.assertEqual(self.outcomes(done, "PASSED"), set())
        self.assertEqual({it for it in FAILED if "credbook" in it}, self.outcomes(done, "FAILED"))

    def test_chosen_tests(self) -> None:
        """A word chooses tests, and -x ends the run at the first failure."""
        done = self.run_pytest("tests/tools", "c/tests", "-k", "test_one")
        self.assertEqual(self.outcomes(done, "PASSED"), {it for it in PASSED if "_one" in it})
        self.assertEqual(done.status, 0)
        done = self.run_pytest("-x", "tests/credbook/test_false.py")
        self.assertEqual(len(self.outcomes(done, "FAILED")), 1)
        # skips alone are no success
        self.assertEqual(self.run_pytest("tests/tools", "-k", "skipped").status, 1)

    def test_long_modules(self) -> None:
        """A long module runs on demand."""
        self.write({"tests/credkeep/test_large.py": HEAD + LONG})
        self.assertEqual(self.run_pytest("tests/credkeep").status, 5)
        self.assertEqual(self.run_pytest("tests/credkeep", "-m", "long").status, 0)

    def test_modules_beside(self) -> None:
        """A module imports those of its own folder; what it leaves is ended with the run."""
        for folder in ("c/tests", "rust/tests"):
            self.write({f"{folder}/records.py": f"OF = '{folder}'\n"})
            self.write({f"{folder}/test_beside.py": HEAD + BESIDE.format(folder)})
        self.write({"tests/credbook/test_leaves.py": HEAD + LEAVES})
        done = self.run_pytest("-k", "beside or leaves", *("c", "rust", "tests/credbook"))
        self.assertEqual((len(self.outcomes(done, "PASSED")), done.status), (3, 0))
        sleeper = (self.top / "sleeper").read_text()
        until(lambda: has_ended(sleeper), "it has ended")

    def test_what_is_not_built(self) -> None:
        """Nothing runs unless make links the programs and the libraries."""
        (self.top / "broken").touch()
        done = self.run_pytest("c/tests")
        self.assertIn("this is broken", done.written + done.faults)
        self.assertEqual((self.outcomes(done, "PASSED"), done.status), (set(), 1))
