"""tools/affected.py: the costs of a change, by the files that it touches."""

import ast
import pathlib
import re
import subprocess
import sys
from unittest import mock

from tests.helpers import TOP, Case, each, need, run, write_files
from tests.needs import need_git

sys.path.insert(0, str(TOP / "tools"))
import affected  # noqa: E402
import jobs  # noqa: E402
import tree  # noqa: E402

SITES = ("test_sites:1", "test_sites:2", "test_logins:1", "test_web", "test_books")
OF_SERVERS = [f"tests/server/{it}" for it in SITES]
# The names of tests/server/machine.py that read docs/SERVERS.md.
OF_MACHINE = r"^from machine import .*\b(PAGE|install|on_page|commands_on_page)\b"
GIT = ("git", "-c", "user.name=x", "-c", "user.email=x@example.org")


def committed() -> list[str]:
    need_git()
    words = ("git", "-c", f"safe.directory={TOP}", "ls-files")
    return run(*words).splitlines()


def named_in(path: pathlib.Path) -> set[str]:
    """The pages, examples and parts of packages that a module of tests names in a string of their
    own, or by tests/server/machine.py; of a folder, one file."""
    text = path.read_text()
    constants = (it for it in ast.walk(ast.parse(text)) if isinstance(it, ast.Constant))
    words = {it.value for it in constants if isinstance(it.value, str)}
    found = {"docs/SERVERS.md"} if re.search(OF_MACHINE, text, re.M) else set[str]()
    for word in words:
        if re.match(r"(docs|examples|packaging)/\S+$", word):
            found |= {*[it for it in committed() if f"{it}/".startswith(f"{word}/")][:1]}
    return found


class Affected(Case):
    @each(
        # A module of tests alone, what a folder's modules share, and what all tests share
        ("c/tests/test_package.py", ["c/tests/test_package"]),
        ("tests/server/test_ask.py", ["tests/server/test_ask", "tests/server/test_ask_server"]),
        ("tests/credbook/books.py", ["tests/credbook/test_credbook"]),
        ("tests/needs.py", [it.name for it in jobs.jobs()]),
        # What ships
        ("bin/credkeep-ask", ["tests/server/test_ask", "tests/packages/test_install"]),
        ("c/pam/pam_rigzumal.c", ["c/pam/tests/test_answers", "tests/server/test_logins:1"]),
        ("c/src/step.c", ["c/tests/test_programs:1", "python/tests/hashers/test_hashers"]),
        ("python/rigzumal/passlib.py", ["python/tests/frameworks/test_passlib"]),
        ("docs/SERVING.md", ["docs/tests/test_pages:1", "tools/readme"]),
        ("docs/ERRORS.md", ["tests/server/test_protocol", "docs/tests/test_pages:1"]),
        ("docs/SERVERS.md", [*OF_SERVERS, "docs/tests/test_pages:1", "tools/readme"]),
        ("examples/postgres/store.py", ["python/tests/accounts/test_three_servers"]),
        ("packaging/pam-profile", ["tests/server/test_expired", "tests/packages/test_install"]),
        ("packaging/python3-rigzumal/postinst", ["python/tests/package/test_package"]),
        ("HANDLES", []),
        # A file that the tool doesn't know
        ("LICENSE", [it.name for it in jobs.jobs()]),
        # By the programs that stand on a crate
        ("crates/cred_book/src/lib.rt", ["tests/credbook/test_credbook", "rust/tests/test_crate"]),
        ("crates/cred_many/src/lib.rt", ["tests/credkeep/test_tagged"]),
        ("crates/cred_desk/src/lib.rt", ["tools/refuse_memory"]),
        ("crates/cred_many/README.md", []),
    )
    def test_tests(self, file: str, names: list[str]) -> None:
        """The jobs that look at a file are among those that are run, and of some files no other."""
        again = affected.proved_again(affected.changed_crates([file], "src|specs|proofs"))
        chosen = [it.name for it in affected.jobs_to_run([file], again)]
        self.assertEqual({*names} - {*chosen}, set())
        if not names or "/test_" in file:
            self.assertEqual({*names}, {*chosen})

    @each(
        ("crates/cred_many/specs/LineOperations.antt", ["cred_many", "credkeep"]),
        ("crates/cred_many/proofs/Lib.antt", ["cred_many", "credkeep"]),
        ("crates/crash_laws/src/lib.rt", ["crash_laws"]),
        ("crates/cred_many/README.md", []),
        ("crates/cred_many/wrong-bodies.edits", []),
        ("c/src/step.c", []),
    )
    def test_proofs(self, file: str, crates: list[str]) -> None:
        """A change costs the proofs of its crate and of the crates above, lowest first."""
        found = affected.changed_crates([file], "src|specs|proofs")
        self.assertEqual(affected.proved_again(found), crates)

    def test_every_file_is_read(self) -> None:
        """Each committed file has a row, each row has a file, and each word of a row a job."""
        files = committed()
        for file in files:
            with self.subTest(file=file):
                self.assertTrue(affected.row_of(file))
        for place, words in affected.READERS.items():
            with self.subTest(place=place):
                self.assertTrue(any(it.startswith(place) for it in files))
                self.assertEqual([it for it in words if not jobs.jobs([it])], [])
        for crate, words in affected.OF_CRATES.items():
            with self.subTest(crate=crate):
                self.assertIn(crate, tree.listed())
                self.assertEqual([it for it in words if not jobs.jobs([it])], [])

    @each(*(it.path for it in jobs.FOLDERS if it.path != "tests/tools"))
    def test_named_files(self, folder: str) -> None:
        """A page, an example or a part of the packages affects the tests that name it."""
        for module in {it.name.partition(":")[0] for it in jobs.jobs() if it.folder == folder}:
            for file in named_in(TOP / f"{module}.py"):
                with self.subTest(module, file=file):
                    words = affected.jobs_of(file)
                    self.assertTrue(any(word in module for word in words))

    @each("", "c/tests", "test_ask", "tests/tools/test_mutate", "frameworks")
    def test_words(self, word: str) -> None:
        """The words that are printed choose the same jobs."""
        chosen = jobs.jobs([word])
        again = jobs.jobs(affected.words_for(chosen).split())
        self.assertEqual({it.name for it in again}, {it.name for it in chosen})

    def test_report(self) -> None:
        """A line for each part, with its minutes and its command."""
        lines = affected.report(["crates/crash_laws/src/laws.rt", "rust/src/ffi.rs"])
        proofs, bodies, tests, pages, layout = lines
        minutes = r", (about \d+ min|under a minute)"
        self.assertRegex(proofs, rf"^proofs: crash_laws{minutes}: rt ci crash_laws$")
        command = "python3 tools/wrong_bodies.py crash_laws"
        self.assertRegex(bodies, rf"^wrong bodies: \d+{minutes}: {command}$")
        command = "/usr/bin/python3 tools/run_tests.py rust/tests"
        self.assertRegex(tests, rf"^tests: 1 of \d+ jobs{minutes}: {command}$")
        self.assertEqual(pages, "pages: python3 tools/pages.py")
        self.assertEqual(layout, "layout, names and types: make lint")
        self.assertEqual([*affected.report([])], [])

    def test_sample(self) -> None:
        """CONTRIBUTING's sample is the report of two files, but for counts and minutes, and without
        the number of all jobs."""
        page = (TOP / "CONTRIBUTING.md").read_text()
        (sample,) = re.findall(r"^```text\n(proofs: .*?)^```$", page, re.M | re.S)
        files = ["crates/crash_laws/src/laws.rt", "units/credkeep-server@.service"]
        report = re.sub(r" of \d+ jobs", " of .. jobs", "\n".join(affected.report(files)))
        told, ought = (
            re.sub(r"about \d+ min|under a minute|\d+(?=,| of)", "N", it) for it in (sample, report)
        )
        self.assertEqual(told, ought + "\n")

    @each((480, 100, "about 2 min"), (240, 400, "about 7 min"), (100, 20, "under a minute"))
    def test_minutes(self, sum_: float, longest: float, said: str) -> None:
        """Parts share the processors, and one part stays on one."""
        with mock.patch("os.sched_getaffinity", lambda _: range(4)):
            self.assertEqual(affected.elapsed({"a": sum_ / 2, "b": sum_ / 2}, longest), said)

    def test_changed_files(self) -> None:
        """Changed files: those of later commits, those not committed yet, and both names of a moved
        file. What neither git nor the tool knows isn't among them."""
        need("git")
        top = self.room()
        write_files(top, {"same": "1", "moved": "moved as it is", "changed": "1", "gone": "1"})
        for words in (("init", "-q"), ("add", "-A"), ("commit", "-q", "-m", "first")):
            run(*GIT, *words, at=top)
        run(*GIT, "mv", "moved", "new name", at=top)
        run(*GIT, "commit", "-q", "-m", "second", at=top)
        (top / "gone").unlink()
        write_files(top, {"changed": "2", "c/new.c": "1", "a.out": "1", "venv/pyvenv.cfg": "1"})
        with mock.patch.object(affected, "TOP", top):
            since = {it: affected.changed_files(it) for it in ("HEAD", "HEAD~1")}
            self.assertRaises(subprocess.CalledProcessError, affected.changed_files, "no such")
        self.assertEqual(since["HEAD"], ["c/new.c", "changed", "gone"])
        self.assertEqual(since["HEAD~1"], sorted([*since["HEAD"], "moved", "new name"]))
