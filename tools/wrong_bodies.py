#!/usr/bin/env python3
"""Plants wrong bodies, several at the same time, and checks for each whether the prover refuses the
function that it changes.

    python3 tools/wrong_bodies.py [--all] [CRATE..] [-- COMMAND..]

A wrong body is a block of crates/CRATE/wrong-bodies.edits. Its first line, `NAME: PATH`, names the
function that the prover must refuse. Lines `- TEXT`, `+ TEXT` below it change that function. The
old text occurs once in one file of the crate, or in the file that a line `in FILE` before them
names.

The script tries the wrong bodies that the first table of docs/PLANTED.md names, and all those of
each crate that differs from tools/wrong_bodies.sums. A crate differs in its files, its wrong
bodies, or the items that it can cite from the crates below. With --all the script tries all, and
with a CRATE all of that crate. The sums file gets the line of each crate whose wrong bodies were
all tried and refused. COMMAND, `rt ci`, runs in parallel: a crate's turn comes when COMMAND has
proved the crate. Without a COMMAND the libraries below are those that `rt lib` builds.

The script first proves the unchanged functions, and reuses what `rt check` kept in the crate's
out/, or an earlier run in .git/wrong-bodies. Then the prover must refuse each wrong body at a goal.
At this goal the search finds no proof, or the written answer is no longer a proof. A refusal is
weaker evidence if an answer only names what the edit removed, or if only a caller is refused, with
no other plant. The status is 1 if the prover doesn't refuse a wrong body, or the script can't judge
one.
"""

import argparse
import collections
import concurrent.futures
import hashlib
import os
import pathlib
import re
import shutil
import subprocess
import sys
import tempfile
import threading

from tree import CRATES, RT, TOP, all_below, below, kit, listed, need_rt, source, tell_each
from wrong_body import wrong_bodies_of, groups

SUMS = TOP / "tools/wrong_bodies.sums"
EVERY = 30
BYTES_OF_A_CHECK = 3 << 30
NOT_ONCE = "its file doesn't have the old text exactly once, or the new text is the same"
PROVED = re.compile(r"rt: (\w+) (?:proved|is kept)\b")


def say(line):
    """Prints a line in one piece, since several threads print."""
    sys.stdout.write(f"{line}\n")
    sys.stdout.flush()


def checked(name, text):
    """Returns the part of a file that a check reads: a comment of Rattle changes no verdict."""
    return re.sub(r"(?m)^[ \t]*//.*\n", "", text) if name.endswith(".rt") else text


def sum_of(texts):
    """Computes a checksum over the parts of these files that a check reads, by their names."""
    parts = [(name, checked(name, texts[name]).encode()) for name in sorted(texts)]
    sums = [(name, hashlib.sha256(part).hexdigest()) for name, part in parts]
    return hashlib.sha256(repr(sums).encode()).hexdigest()


class Bench:
    """The place where the script tries one crate's wrong bodies: a copy of its files, over built
    libraries."""

    def __init__(self, crate, libraries, places):
        self.crate, self.libraries, self.places = crate, libraries, places
        at = CRATES / crate
        self.edits = wrong_bodies_of(at)
        self.texts = {}
        for part in ("src", "specs", "proofs"):
            for file in (at / part).rglob("*"):
                if file.is_file():
                    self.texts[str(file.relative_to(at))] = file.read_text()
        self.sum = sum_of(self.inputs())

    def inputs(self):
        """Returns the inputs of a verdict: the crate's files and wrong bodies, and the items of the
        crates below that it can cite, their functions without bodies, and their definitions."""
        texts = {**self.texts}
        texts |= {f"wrong-bodies/{it.name}.edit": it.summed for it in self.edits}
        for low in all_below(self.crate):
            lang = self.libraries / f"{low}.rlib/lang"
            for file in (*lang.glob("src/**/*.rt"), *lang.glob("antt/specs/**/*.antt")):
                texts[f"{low}/{file.relative_to(lang)}"] = file.read_text()
        return texts

    def has(self, function):
        """Whether the crate now has a function with that name: an edit may add one."""
        head = re.compile(rf"\bfn {function.split('::')[-1]}\b")
        return any(head.search(it) for it in self.texts.values())

    def words(self):
        """Returns the check, as `rt` runs it."""
        head, uses = listed()[self.crate]
        built, rlibs = self.libraries, kit() / "rlibs"
        root = "src/lib.rt" if "src/lib.rt" in self.texts else "src/main.rt"
        # COMMAND has priority, since each of its tests has only a minute
        yield from ("nice", kit() / "bin/rattle", "check", "--crate-name", self.crate, root)
        yield from ("--jobs", "1")
        for name in ("std", *uses):
            folder = built if name in below(self.crate) else rlibs
            yield from ("--extern", f"{name}={folder}/{name}.rlib")
        yield from ("-L", f"dependency={rlibs}", "-L", f"dependency={built}")
        yield from ("--antt-project", kit() / "rattle/logic/antt-project.json")
        yield from ("--logic-built", kit() / "logic_built")
        if "staticlib" in head:
            yield from ("--crate-type", "staticlib")

    def check(self, texts, kept, functions):
        """Returns the verdict of a check of these functions over a copy with these texts, beginning
        with kept proofs."""
        with self.places, tempfile.TemporaryDirectory(prefix="wrong-bodies-") as room:
            for name, text in texts.items():
                path = pathlib.Path(room) / name
                path.parent.mkdir(parents=True, exist_ok=True)
                path.write_text(text)
            words = [*self.words(), "--incremental", kept]
            for function in functions:
                words += ["--only", function]
            done = subprocess.run(
                words,
                cwd=room,
                stdout=subprocess.PIPE,
                stderr=subprocess.STDOUT,
                text=True,
                errors="replace",
            )
            return done.returncode, done.stdout


def link(one, other):
    """Makes a second copy, of links if the system allows them: a check replaces such files, but
    changes none."""
    if subprocess.run(["cp", "-al", one, other], capture_output=True).returncode:
        shutil.rmtree(other, ignore_errors=True)
        subprocess.run(["cp", "-a", one, other], check=True)


def named_in_page():
    """Returns the wrong bodies in the first table of docs/PLANTED.md."""
    _, _, rest = source(TOP / "docs/PLANTED.md").partition("\n| ")
    table, _, _ = rest.partition("\n\n")
    return re.findall(r"`(\w+/[\w-]+)`", table)


def checks_at_once():
    """Returns the number of simultaneous checks that the processors and the memory allow."""
    memory = pathlib.Path("/proc/meminfo").read_text()
    free = int(re.search(r"MemAvailable:\s+(\d+)", memory)[1]) << 10
    return max(1, min(len(os.sched_getaffinity(0)), free // BYTES_OF_A_CHECK))


class Trial:
    """The wrong bodies of a run, each crate's after its libraries are built, and their outcomes."""

    def __init__(self, asked, libraries, kept):
        self.asked, self.libraries, self.kept = asked, libraries, kept
        self.named = named_in_page()
        self.sums = dict(it.split() for it in source(SUMS).splitlines())
        self.places = threading.Semaphore(checks_at_once())
        self.pool = concurrent.futures.ThreadPoolExecutor(len(listed()))
        # Crates: those that COMMAND has proved, and those whose wrong bodies are tried
        self.proved = set()
        self.crates = {}
        # Wrong bodies by their names, and how many of each crate have no verdict yet
        self.refused = []
        self.failed = []
        self.left = collections.Counter()
        self.alone = threading.Lock()

    def add_library(self, name):
        built = CRATES / name / "out/rlib" / f"{name}.rlib"
        if built.is_dir() and not (self.libraries / built.name).exists():
            link(built, self.libraries / built.name)

    def start(self, name):
        if name not in self.crates and wrong_bodies_of(CRATES / name):
            self.crates[name] = self.pool.submit(self.try_crate, name)

    def settle(self, edit, verdict, output):
        """Prints the outcome of an edit."""
        (self.refused if verdict else self.failed).append(str(edit))
        self.left[edit.crate] -= 1
        if verdict:
            say(f"{edit}: refused, in {edit.function}: {verdict}")
        else:
            errors = (it for it in output.splitlines() if re.search(r"\berror[:\[]", it))
            why = next(errors, "the prover proves the changed function")
            say(f"{edit}: NOT REFUSED, in {edit.function}: {why}")

    def try_group(self, bench, seed, group, planted):
        """Judges the edits of a group, and tries each undecided edit alone."""
        with tempfile.TemporaryDirectory(prefix="wrong-bodies-") as room:
            kept = f"{room}/kept"
            link(seed, kept)
            functions = [it.function for it in group if bench.has(it.function)]
            _, output = bench.check(planted, kept, functions)
            for edit in group:
                verdict = edit.judge(output)
                if verdict:
                    self.settle(edit, verdict, output)
                elif len(group) > 1:
                    self.try_group(bench, seed, [edit], edit.planted(bench.texts))
                else:
                    self.settle(edit, self.refused_elsewhere(bench, planted, kept), output)

    def refused_elsewhere(self, bench, planted, kept):
        """Returns the refused functions of the whole crate, for a body whose own function isn't
        refused."""
        status, output = bench.check(planted, kept, [])
        found = re.search(r"^((?:fn|impl) \S+): (?:no|could)", output, re.M)
        return status == 1 and found and f"not there, but {found[1]}, which is weaker evidence"

    def try_crate(self, name):
        """Tries the wrong bodies of the crate whose turn it is."""
        bench = Bench(name, self.libraries, self.places)
        is_whole = self.asked.all or name in self.asked.crates or self.sums.get(name) != bench.sum
        edits = [it for it in bench.edits if is_whole or str(it) in self.named]
        self.left[name] = len(edits)
        if edits:
            self.try_edits(bench, edits)
        if edits and is_whole and not any(it.startswith(f"{name}/") for it in self.failed):
            with self.alone:
                self.sums[name] = bench.sum
                lines = [f"{it} {self.sums[it]}\n" for it in listed() if it in self.sums]
                SUMS.write_text("".join(lines))

    def try_edits(self, bench, edits):
        """Tries the edits of a crate that apply, over its unchanged functions."""
        applying = [it for it in edits if it.planted(bench.texts) is not None]
        for edit in edits:
            if edit not in applying:
                self.settle(edit, None, f"error: {NOT_ONCE}")
        with tempfile.TemporaryDirectory(prefix="wrong-bodies-") as room:
            seed = f"{room}/kept"
            self.prove_as_it_stands(bench, applying, seed)
            with concurrent.futures.ThreadPoolExecutor(8) as pool:
                begun = [
                    pool.submit(self.try_group, bench, seed, *group)
                    for group in groups(applying, bench.texts)
                ]
            for task in begun:
                task.result()

    def prove_as_it_stands(self, bench, edits, seed):
        """Proves the functions of edits unchanged, in a folder, and keeps the result for later
        runs."""
        kept = self.kept / bench.crate
        begun = [it for it in (CRATES / bench.crate / "out/incremental", kept) if it.is_dir()]
        if begun:
            link(begun[0], seed)
        else:
            os.mkdir(seed)
        functions = sorted({it.function for it in edits if bench.has(it.function)})
        status, output = bench.check(bench.texts, seed, functions)
        if status:
            raise RuntimeError(f"its unchanged functions aren't proved: {output[-2000:]}")
        shutil.rmtree(kept, ignore_errors=True)
        link(seed, kept)

    def beside(self, command):
        """Runs a command that proves the crates, passes on its output, and returns its status."""
        pipes = {"stdout": subprocess.PIPE, "stderr": subprocess.STDOUT, "text": True}
        with subprocess.Popen(command, cwd=TOP, **pipes) as process:
            for line in process.stdout:
                say(line.rstrip("\n"))
                if proved := PROVED.match(line):
                    self.proved.add(proved[1])
                    self.add_library(proved[1])
                    self.start(proved[1])
        return process.returncode

    def over_built(self):
        """Tries the requested crates over the libraries of `rt lib`."""
        for name in self.asked.crates or listed():
            for low in all_below(name):
                subprocess.run([RT, "lib"], cwd=CRATES / low, check=True, stdout=subprocess.DEVNULL)
                self.add_library(low)
            self.start(name)
        return 0

    def tell(self):
        proved = f"{len(self.proved)} of {len(listed())} crates proved, " if self.proved else ""
        left = ", ".join(f"{count} of {name}" for name, count in [*self.left.items()] if count)
        waiting = f"; to be judged: {left}" if left else ""
        say(f"{proved}{len(self.refused)} wrong bodies refused{waiting}")

    def end(self, status):
        """Prints the last lines, and returns the status of the program."""
        self.pool.shutdown()
        for name, task in self.crates.items():
            if task.exception():
                self.failed.append(name)
                say(f"{name}: the script couldn't try its wrong bodies: {task.exception()}")
        # a COMMAND whose words the script can't read would let all pass
        for name in () if status or self.asked.crates else listed():
            if wrong_bodies_of(CRATES / name) and name not in self.crates:
                self.failed.append(name)
                say(f"{name}: no line says that the crate is proved")
        for edit in self.failed:
            say(f"NOT REFUSED: {edit}")
        say(f"wrong bodies: {len(self.refused)} refused, {len(self.failed)} not")
        return status or int(bool(self.failed))


def main():
    at = sys.argv.index("--") if "--" in sys.argv else len(sys.argv)
    reader = argparse.ArgumentParser(usage=__doc__.split("\n\n")[1].strip())
    reader.add_argument("--all", action="store_true")
    reader.add_argument("crates", nargs="*", metavar="CRATE")
    asked, command = reader.parse_args(sys.argv[1:at]), sys.argv[at + 1 :]
    if lost := {*asked.crates} - {*listed()}:
        reader.error(f"crates.txt lists no {lost.pop()}")
    need_rt("try wrong bodies")
    # where libraries can be linked, and `rt ci` doesn't look: a worktree's .git is a file
    git = TOP / ".git"
    with tempfile.TemporaryDirectory(
        prefix="wrong-bodies-", dir=git if git.is_dir() else None
    ) as room:
        kept = (git if git.is_dir() else pathlib.Path(room)) / "wrong-bodies"
        kept.mkdir(exist_ok=True)
        trial = Trial(asked, pathlib.Path(room), kept)
        tell_each(EVERY, trial.tell)
        return trial.end(trial.beside(command) if command else trial.over_built())


if __name__ == "__main__":
    sys.exit(main())
