"""tools/wrong_bodies.py over a stand-in of the toolchain: the wrong bodies that it tries, those at
once, and its verdicts."""

import os
import shutil
import sys

from tests.helpers import TOP, Case, each, ended, write_files

TOOLS = [f"{it}.py" for it in ("wrong_bodies", "wrong_body", "edits", "items", "tree")]
# `rt doc` names a kit, and `rt lib` leaves a library.
RT = """#!/bin/sh
[ "$1" = doc ] && exec echo "$KIT/START-HERE.md"
name=$(basename "$PWD")
rm -rf out && mkdir -p "out/rlib/$name.rlib/lang" && cp -r src "out/rlib/$name.rlib/lang/src"
echo "rt: $name proved"
"""
# A function is refused if its body says wrong, or LIMIT and the limit isn't 8; it waits if it calls
# one that is refused, and a lemma of its proof may be refused. What a check keeps is how many went
# before it.
RATTLE = """#!/usr/bin/env python3
import os, pathlib, re, sys
kept = pathlib.Path(sys.argv[sys.argv.index("--incremental") + 1]) / "checks"
before = int(kept.read_text()) if kept.exists() else 0
kept.unlink(missing_ok=True)
kept.write_text(str(before + 1))
open(os.environ["ASKED"], "a").write(f"{before} " + " ".join(sys.argv) + chr(10))
text = open("src/lib.rt").read()
bodies = dict(re.findall(r"fn (\\w+)\\(\\) \\{ (.*) \\}", text))
is_limit_changed = "LIMIT: u8 = 8" not in text
bad = {
    name
    for name, body in bodies.items()
    if "wrong" in body or "LIMIT" in body and is_limit_changed
}
for name, body in bodies.items():
    said = "no proof: `search` did not prove `returns`" if name in bad else "proved"
    if any(f"{other}()" in body for other in bad):
        said = "no proof: it calls another, which is not proved"
    if error := re.match("lemma: (.*)", body):
        print(f"./proofs/Sums.antt:2:1: error: `sum`: {error[1]}")
        rests = "1 declaration that depends on `sum`, which was not admitted, was not checked"
        print(f"./proofs/{name}/Answers.antt:3:1: error: {rests}: returns")
        said = "not proved"
    print(f"fn high::{name}: {said}")
sys.exit(len(bad) > 0)
"""
SOURCE = """const LIMIT: u8 = 8;
fn one() { 1 }
fn two() { 2 }
fn three() { one() + LIMIT }
"""
# The blocks of the crate's file, by their names.
EDITS = {
    "one": "one\n- { 1 }\n+ { wrong 1 }\n",
    "one-otherwise": "one\n- { 1 }\n+ { wrong 7 }\n",
    "two": "two\nin src/lib.rt\n- { 2 }\n+ { wrong 2 }\n",
    "three": "three\n- one() + LIMIT\n+ one() + wrong\n",
    "limit": "three\n# It is a constant.\n- LIMIT: u8 = 8\n+ LIMIT: u8 = 9\n",
}
PAGE = "| Wrong body | Where |\n|---|---|\n| one | `high/one` |\n\nOthers: `high/two`.\n"


class WrongBodies(Case):
    def setUp(self):
        super().setUp()
        self.top = self.room()
        (self.top / ".git").mkdir()
        self.write({f"tools/{it}": (TOP / "tools" / it).read_text() for it in TOOLS})
        write_files(self.top, {"rt": RT, "kit/bin/rattle": RATTLE}, 0o755)
        self.write({"crates.txt": "low:\nhigh: low\n", "docs/PLANTED.md": PAGE})
        self.write({"crates/low/src/lib.rt": "fn low() { 0 }\n", "crates/high/src/lib.rt": SOURCE})
        self.write({"crates/high/src/other.rt": "fn other() { 2 }\n"})
        self.write_edits()

    def write(self, texts):
        write_files(self.top, texts)

    def write_edits(self, **changed):
        """Writes the wrong bodies, some with another text."""
        blocks = [f"{name}: {text}" for name, text in {**EDITS, **changed}.items()]
        self.write({"crates/high/wrong-bodies.edits": "\n".join(["# Comment.\n", *blocks])})

    def tried(self, *words):
        """The status, the lines of wrong bodies, and how many checks there were."""
        asked = self.top / "asked"
        asked.unlink(missing_ok=True)
        room = {"RT": self.top / "rt", "KIT": self.top / "kit", "ASKED": asked}
        env = {**os.environ, **{name: str(it) for name, it in room.items()}}
        done = ended([sys.executable, self.top / "tools/wrong_bodies.py", *words], env=env)
        lines = sorted(it for it in done.written.splitlines() if it.startswith("high"))
        self.checks = asked.read_text().splitlines() if asked.exists() else []
        self.faults = done.faults
        return done.status, lines, len(self.checks)

    def refused(self, *names):
        functions = {"one-otherwise": "one", "limit": "three"}
        return sorted(f"high/{it}: refused, in {functions.get(it, it)}: `returns`" for it in names)

    def test_all(self):
        """One check of the crate as it is; one, two and three at once, of whom three waits for one
        and is tried alone; one-otherwise; and the limit alone, since other functions see it."""
        self.assertEqual(self.tried("high"), (0, self.refused(*EDITS), 5))

    def test_a_command_that_says_nothing(self):
        """A command that ends well, but says of no crate that it proved the crate, isn't enough."""
        status, lines, checks = self.tried("--", "true")
        self.assertEqual((status, checks), (1, 0))
        self.assertEqual(lines, ["high: no line says that the crate is proved"])

    def test_sums(self):
        """A refused body is tried again if it's named, or if its crate, a wrong body of the crate,
        or an item that can be cited below has changed, but not for a comment."""
        self.assertEqual(self.tried()[1], self.refused(*EDITS))
        self.assertEqual(self.tried(), (0, self.refused("one"), 2))
        self.assertEqual(self.tried("--all")[1], self.refused(*EDITS))
        self.write({"crates/high/src/lib.rt": f"/// One.\n{SOURCE}"})
        self.assertEqual(self.tried()[1], self.refused("one"))
        more = f"const MORE: u8 = 1;\n{SOURCE}"
        for change in (
            lambda: self.write({"crates/high/src/lib.rt": more}),
            lambda: self.write({"crates/low/src/lib.rt": "fn low() { 1 }\n"}),
            lambda: self.write_edits(two=EDITS["two"].replace("wrong 2", "wrong 3")),
        ):
            with self.subTest():
                shutil.rmtree(self.top / "crates/low/out", ignore_errors=True)
                change()
                self.assertEqual(self.tried()[1], self.refused(*EDITS))
                self.assertEqual(self.tried()[1], self.refused("one"))

    @each(
        ("in src/lib.rt\n- { 2 }\n+ { 1 + 1 }\n", "the prover proves the changed function"),
        ("- { 2 }\n+ { wrong }\n", "doesn't have the old text exactly once"),
        ("- { 5 }\n+ { wrong }\n", "doesn't have the old text exactly once"),
        ("in src/other.rt\n- { 1 }\n+ { wrong }\n", "doesn't have the old text exactly once"),
        ("in src/lib.rt\n- { 2 }\n+ { 2 }\n", "or the new text is the same"),
    )
    def test_not_refused(self, text, why):
        """A body that is right, one whose text no file has or several have, and one that changes
        nothing are named, and the status is 1, at the next run too."""
        self.write_edits(two=f"two\n{text}")
        for _ in range(2):
            status, lines, _ = self.tried()
            said = "\n".join(lines)
            [bad] = [it for it in lines if "NOT REFUSED" in it]
            self.assertEqual((status, bad.split(":")[0], len(lines)), (1, "high/two", 5))
            self.assertIn(why, said)

    @each(EDITS["limit"].replace("three", "two"), EDITS["limit"].replace("three", "four"))
    def test_refused_elsewhere(self, text):
        """A body that only a caller of its function refuses, or a function that the body adds, is
        tried alone, and the whole crate is looked at."""
        self.write_edits(two=text)
        status, lines, _ = self.tried()
        name = text.split()[0]
        why = "not there, but fn high::three, which is weaker evidence"
        self.assertEqual((status, lines[-1]), (0, f"high/two: refused, in {name}: {why}"))

    @each(
        ("expected type `T`", "`sum`, a lemma of its proof"),
        ("`it` is not in scope", "a name that the edit removed, which is weaker evidence"),
    )
    def test_lemmas(self, error, why):
        """A definition that makes a lemma of a proof false is refused there."""
        self.write_edits(two=f"two\nin src/lib.rt\n- {{ 2 }}\n+ {{ lemma: {error} }}\n")
        status, lines, _ = self.tried()
        self.assertEqual((status, lines[-1]), (0, f"high/two: refused, in two: {why}"))

    @each(
        ("one\n- { 1 }", "no edit has this form:\ntwo: one\n- { 1 }\n"),
        ("one\nold: { 1 }\nnew: { 2 }\n", "no edit has this form:\ntwo: one\nold: "),
        (f"{EDITS['two']}\ntwo: {EDITS['one']}", "several edits are named two"),
    )
    def test_form(self, text, why):
        """A block of another form, and a second block with a name, end the run with their text."""
        self.write_edits(two=text)
        self.assertEqual(self.tried("high"), (1, [], 0))
        self.assertIn(f"high/wrong-bodies.edits: {why}", self.faults)

    def test_several_lines(self):
        """A text may have several lines. One that reaches into the next function is tried alone."""
        self.write_edits(two="two\n- { 2 }\n- fn three() {\n+ { wrong }\n+\n+ fn three() {\n")
        self.assertEqual(self.tried("high"), (0, self.refused(*EDITS), 6))

    def test_what_is_kept(self):
        """The first check of a crate begins with what an earlier run kept, if its functions were
        proved; no wrong body's check is kept."""
        for before in (0, 1, 2):
            self.tried("high")
            self.assertEqual(
                [it.split()[0] for it in self.checks[:2]], [str(before), str(before + 1)]
            )
        self.write({"crates/high/src/lib.rt": SOURCE.replace("{ 2 }", "{ wrong 2 }")})
        for _ in range(2):
            self.tried("high")
            self.assertEqual([it.split()[0] for it in self.checks], ["3"])

    def test_functions_that_are_not_proved(self):
        """No verdict on a wrong body of a function that isn't proved as it is."""
        self.write({"crates/high/src/lib.rt": SOURCE.replace("{ 2 }", "{ wrong 2 }")})
        status, lines, _ = self.tried()
        self.assertEqual((status, [it for it in lines if "refused" in it]), (1, []))

    def test_beside_a_command(self):
        """A crate's turn comes once the command has proved the crate; the tool returns the
        command's status."""
        prove = 'for it in low high; do (cd crates/$it && "$RT" lib); done; exit '
        self.assertEqual(self.tried("--", "sh", "-c", prove + "0")[:2], (0, self.refused(*EDITS)))
        self.assertEqual(self.tried("--", "sh", "-c", prove + "3")[0], 3)
        self.assertEqual(self.tried("--", "sh", "-c", "exit 3"), (3, [], 0))
