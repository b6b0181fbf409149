"""tools/mutate.py: each operator makes a mutant that a weak test lets through and a better one
refuses, and each of our own mistakes is one in the tree."""

import contextlib
import io
import re
import shutil
import subprocess
import sys
import time
import unittest
from unittest import mock

from tests.helpers import TOP, Case, each, need, write_files

sys.path.insert(0, str(TOP / "tools"))
import jobs  # noqa: E402
import mutate  # noqa: E402

# An operator, and the mutant between what a weak test says of a file and what a better one adds.
PYTHON = r"""
condition negated: n -> not (n)
f(0) == 0 ; f(3) == 3
def f(n):
    if n: return n
    return n + n

expression made a constant: len(n) -> None
not f('') ; f('ab') == 2
def f(n):
    return len(n)

expression made a constant: n > 2 -> True
f(3) ; not f(1)
def f(n):
    return 1 if n > 2 else 0

expression made a constant: n -> ()
f([]) is None ; f([1]) == 1
def f(n):
    for i in n: return i

statement dropped: n.sort() -> pass
f([1, 2]) == [1, 2] ; f([2, 1]) == [1, 2]
def f(n):
    n.sort()
    return n

comparison swapped: < -> <=
f(3) ; not f(7)
def f(n):
    return n < 7

comparison swapped: in -> not in
f(0, []) ; not f(1, [])
def f(n, m):
    return n in m or not n

operator swapped: and -> or
f(1, 1) ; not f(1, 0)
def f(n, m):
    return n and m

operands swapped: n - m -> m - n
f(1, 1) == 0 ; f(3, 1) == 2
def f(n, m):
    return n - m

operands swapped: n, m -> m, n
f(2, 2) == 4 ; f(3, 2) == 9
def f(n, m):
    return pow(n, m)

operand dropped: n or m -> n
f(1, 1) ; f(0, 1)
def f(n, m):
    return n or m

operand dropped: [1:] ->
f('') == '' ; f('ab') == 'b'
def f(n):
    return n[1:]

argument dropped: key=abs ->
f([1]) == [1] ; f([-2, 1])[0] == 1
def f(n):
    return sorted(n, key=abs)

element dropped: 3: 4 ->
f()[1] == 2 ; f()[3] == 4
def f():
    return {1: 2, 3: 4}

constant changed: 1 -> 2
f('') == '' ; f('ab') == 'a'
def f(n):
    return n[:1]

constant changed: 'x' -> ""
f('a')[0] == 'a' ; f('a') == 'ax'
def f(n):
    return n + 'x'
"""
C = r"""
condition negated: (n > 0) -> (!(n > 0))
f(1) == 1 ; f(4) == 1
int f(int n) { if (n > 0) return 1; return n * n; }

expression made a constant: n -> 0
f(0) == 0 ; f(1) == 1
int f(int n) { return n; }

statement dropped: n += 1 ->
f(1) > 0 ; f(1) == 2
int f(int n) { n += 1; return n; }

operator swapped: && -> ||
f(1, 1) ; !f(1, 0)
int f(int n, int m) { return n && m; }

operand dropped: n == 1 || m == 1 -> n == 1
f(1, 0) ; f(0, 1)
int f(int n, int m) { return n == 1 || m == 1; }

operand dropped: n == 1 && m == 1 -> n == 1
f(1, 1) ; !f(1, 0)
int f(int n, int m) { return n == 1 && m == 1; }

operand dropped: m && k -> m
f(0, 1, 1) ; !f(0, 1, 0)
int f(int n, int m, int k) { return n || m && k; }

element dropped: 6, ->
f(0) == 5 ; f(2) == 7
int f(int n) { int list[] = {5, 6, 7}; return list[n]; }

constant changed: "ab" -> ""
f() > 0 ; f() == 3
int f(void) { return sizeof "ab"; }
"""
RUST = r"""
condition negated: n > 3 -> !(n > 3)
f(1) == 1 ; f(4) == 1
pub fn f(n: u8) -> u8 { if n > 3 { return 1; } n }

expression made a constant: n -> Default::default()
f(0) == 0 ; f(1) == 1
pub fn f(n: u8) -> u8 { return n; }

element dropped: 2 ->
f()[0] == 1 ; f() == [1, 2]
pub fn f() -> Vec<u8> { vec![1, 2] }

constant changed: true -> false
f(7) ; f(1)
pub fn f(n: u8) -> bool { n == 7 || true }
"""


def compiled(check, compiler, *words):
    """The command that compiles a program from the file and a test, and runs it."""
    file = f"t.{compiler[1]}"
    build = f"printf '%s\\n' '{check}' > {file} && {compiler[0]} {' '.join(words)}"
    return ["sh", "-c", f"{build} && ./t"]


def in_python(check):
    return [sys.executable, "-c", f"from m import *\nassert {check}"]


def in_c(check):
    text = f'#include "m.c"\nint main(void) {{ return !({check}); }}'
    return compiled(text, ("cc", "c"), "-o t t.c")


def in_rust(check):
    text = f'include!("m.rs");\nfn main() {{ assert!({check}); }}'
    return compiled(text, ("rustc", "rs"), "-A warnings -o t t.rs")


class Mutate(Case):
    def setUp(self):
        super().setUp()
        need("git")
        self.top = self.room()
        subprocess.run(["git", "init", "-q"], cwd=self.top, check=True)

    def mutate(self, file, source, command, *options):
        (self.top / file).write_text(source)
        words = [sys.executable, TOP / "tools/mutate.py", self.top / file, "--jobs", "2"]
        words += [*options, "--tests", *command]
        return subprocess.run(words, capture_output=True, text=True, timeout=300)

    def judge(self, table, file, command, *options):
        for row in table.strip().split("\n\n"):
            mutant, tests, source = row.split("\n", 2)
            with self.subTest(mutant):
                weak, better = tests.split(" ; ")
                both = f"{weak} {'and' if file == 'm.py' else '&&'} {better}"
                line = re.compile(rf"^{re.escape(file)}:\d: {re.escape(mutant)} ?$", re.M)
                self.assertRegex(self.mutate(file, source, command(weak), *options).stdout, line)
                refused = self.mutate(file, source, command(both), *options)
                self.assertIn(" refused", refused.stdout)
                self.assertNotRegex(refused.stdout, line)

    def test_python(self):
        self.judge(PYTHON, "m.py", in_python)

    @unittest.skipUnless(shutil.which("cc"), "needs the program cc")
    def test_c(self):
        self.judge(C, "m.c", in_c, "--build", "cc -fsyntax-only m.c")

    @unittest.skipUnless(shutil.which("rustc"), "needs the program rustc")
    def test_rust(self):
        build = "rustc -A warnings --crate-type lib --emit metadata m.rs"
        self.judge(RUST, "m.rs", in_rust, "--build", build)

    def test_counts(self):
        """A change that doesn't compile is counted apart, and the file stays as it was."""
        source = "int f(void) {\n    int list[2 - 1] = {0};\n    return list[0];\n}"
        done = self.mutate("m.c", source, in_c("f() || 1"), "--build", "cc -fsyntax-only m.c")
        counts = r"\n\d+ tried: 0 refused, [1-9]\d* survived, [1-9]\d* not compiled\n$"
        self.assertRegex(done.stdout, counts)
        self.assertEqual((self.top / "m.c").read_text(), source)

    def test_failing_tests(self):
        """Tests that fail by themselves refuse nothing."""
        done = self.mutate("m.py", "def f():\n    return 1\n", in_python("f() == 2"))
        said = (done.returncode, done.stdout, done.stderr)
        self.assertEqual(said, (1, "", "the tests fail with nothing changed\n"))

    def test_limit(self):
        """A mutant that doesn't end is refused in time, with all that it began."""
        source = 'import subprocess\ndef f(n):\n    child = subprocess.Popen(["sleep", "600"])\n'
        source += "    while n > 0:\n        n -= 1\n    child.kill()\n"
        began = time.monotonic()
        done = self.mutate("m.py", source, in_python("f(3) is None"), "--limit", "2")
        self.assertIn(" refused", done.stdout)
        self.assertLess(time.monotonic() - began, 100)

    def test_sample(self):
        """The same seed draws the same sample."""
        source = "def f(n):\n    return [n + 1, n - 2, n * 3, n / 4]\n"
        words = ("m.py", source, in_python("f(1)"), "--sample", "5", "--seed", "2")
        # the first line says how long the tests took
        first, second = (self.mutate(*words).stdout.partition("\n")[2] for _ in range(2))
        self.assertEqual(first, second)
        self.assertIn("5 tried", first)


class Plants(Case):
    def test_table(self) -> None:
        """Each file has the text that a mistake replaces, and its word names a job of every run."""
        found = mutate.plants([])
        for mistake in found:
            with self.subTest(mistake.name):
                self.assertNotEqual(jobs.jobs(mistake.tests[-1:]), [])
        page = (TOP / "tools/README.md").read_text()
        self.assertIn(f"refuse each of {len(found)} mistakes", page)

    @each(("grep -q right file", "refused", 0), ("true", "survived", 1), ("false", "", 1))
    def test_refusal(self, tests: str, verdict: str, status: int) -> None:
        """Tests refuse a mistake if they fail with it, and pass without it."""
        need("git")
        top = self.room()
        run_tests = f"#!/usr/bin/env python3\nimport os\nos.execlp('sh', 'sh', '-c', {tests!r})\n"
        plant = "named: a-job\nin file\n- right\n+ wrong\n"
        write_files(top, {"file": "right", "plants.edits": plant, "tools/run_tests.py": run_tests})
        subprocess.run(["git", "init", "-q"], cwd=top, check=True)
        places = mock.patch.multiple(mutate, TOP=top, PLANTS=top / "plants.edits")
        words = mock.patch.object(sys, "argv", ["mutate.py", "--plants"])
        with places, words, contextlib.redirect_stdout(io.StringIO()) as told:
            try:
                ended = mutate.main()
            except SystemExit as end:
                self.assertEqual((end.code, verdict), ("the tests fail with nothing changed", ""))
                return
        self.assertEqual(ended, status)
        self.assertIn(f"named: {verdict}\n1 tried: ", told.getvalue())
        self.assertEqual((top / "file").read_text(), "right")
