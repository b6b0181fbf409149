""".ci/run: the order of its steps, and the run's status if one of them fails."""

import os
import pathlib
import shlex

from tests.helpers import TOP, Case, Ended, each, ended, write_files

GATE, PAGES = "tools/tree.py run the gate", "tools/pages.py"
PACKAGES = "tools/debian_packages.py"
PROOFS = "tools/compile_proved.py --check python3 tools/wrong_bodies.py -- rt ci"
LINT, QUICK, SLOW = "lint", "-s check", "tools/run_tests.py --slow"
# A Python and a make that note their words, later for the packages, and fail at the step that
# FAILING names.
STUB = """#!/bin/sh
case "$1" in *packages.py) sleep 0.5 ;; esac
echo "$*" >> steps
[ "$*" != "$FAILING" ]
"""


# tools/lint, whose status is 3 if a tool is missing.
LINTER = """#!/bin/sh
echo lint >> steps
[ "$FAILING" != lint ] || exit 1
exit "$LINTED"
"""


class Gate(Case):
    def ran(self, failing: str = "", linted: int = 0) -> tuple[Ended, list[str]]:
        """Runs a copy of .ci/run whose programs are stubs, and returns its end and its steps."""
        room = self.room()
        python = room / "bin/python3"
        text = (TOP / ".ci/run").read_text()
        self.assertEqual(text.count("/usr/bin/python3"), 1)
        write_files(room, {"steps": ""})
        copied = text.replace("/usr/bin/python3", shlex.quote(str(python)))
        stubs = {"bin/python3": STUB, "bin/make": STUB, "tools/lint": LINTER}
        write_files(room, {".ci/run": copied, **stubs}, mode=0o755)
        given = {**os.environ, "PATH": f"{python.parent}:/usr/bin:/bin", "FAILING": failing}
        given["LINTED"] = str(linted)
        done = ended([str(room / ".ci/run")], env=given, cwd=pathlib.Path("/"))
        return done, (room / "steps").read_text().splitlines()

    def test_steps(self) -> None:
        """If each step passes, so does the run; the tests come after the packages."""
        done, steps = self.ran()
        self.assertEqual(done, Ended(0))
        self.assertEqual([*steps[:2], *steps[-3:]], [GATE, PAGES, LINT, QUICK, SLOW])
        self.assertEqual(sorted(steps[2:-3]), sorted([PACKAGES, PROOFS]))

    @each(
        (GATE, [GATE]),
        (PAGES, [GATE, PAGES]),
        (PROOFS, [GATE, PAGES, PACKAGES, PROOFS]),
        (LINT, [GATE, PAGES, PACKAGES, PROOFS, LINT]),
        (QUICK, [GATE, PAGES, PACKAGES, PROOFS, LINT, QUICK]),
        (SLOW, [GATE, PAGES, PACKAGES, PROOFS, LINT, QUICK, SLOW]),
    )
    def test_failures(self, failing: str, begun: list[str]) -> None:
        """The failure of each step is the run's, and no later step begins."""
        done, steps = self.ran(failing)
        self.assertEqual((done.status != 0, sorted(steps)), (True, sorted(begun)))

    def test_without_packages(self) -> None:
        """Tests whose packages are missing skip themselves: the run continues."""
        done, steps = self.ran(PACKAGES, linted=3)
        self.assertEqual((done.status, steps[-1]), (0, SLOW))
