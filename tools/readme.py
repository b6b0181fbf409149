#!/usr/bin/env python3
"""Runs the shell sessions of the pages and compares their output with the text below
each.

    python3 tools/readme.py [FILE..]          (README.md, docs/*.md and crates/*/README.md)

A session is a block marked `sh`; the block marked `text` just below it is its output. All sessions
of a page run in one bash and one folder, in order. Their path has the programs that `make` links,
and this Python as `python3`, with the Python package. The folder contains only links to crates/,
c/, out/ and python/. The script lists, but doesn't run, a session
without a text below it or one that installs something. The script also lists and skips a session
whose program is missing. The last line is `N passed, M failed`, and the status is 1 if anything
failed or nothing passed.
"""

import difflib
import os
import pathlib
import re
import shutil
import subprocess
import sys
import tempfile

from tree import TOP

BLOCK = re.compile(r"^```(\w+)\n(.*?)^```$", re.M | re.S)
MARK = "-- the end of session"
INSTALLS = re.compile(r"\b(sudo|apt|apt-get|make .*install)\b")

# The need of a session with this word: a program in the path, or a file of the repository.
PROGRAMS = ["credbook", "credkeep", "php", "doveadm", "htpasswd", "django-admin"]
LIBRARIES = {"rigzumal": "c/out/librigzumal.so", "LD_LIBRARY_PATH=c/out": "c/out/libargon2.so.1"}


def pages():
    every = [
        it
        for form in ("README.md", "docs/*.md", "crates/*/README.md")
        for it in sorted(TOP.glob(form))
    ]
    return sys.argv[1:] or [str(it.relative_to(TOP)) for it in every]


def sessions_of(page):
    """Yields each session with its line number and the expected output, or none."""
    blocks = [*BLOCK.finditer(page), None]
    for block, below in zip(blocks, blocks[1:]):
        if block[1] == "sh":
            is_below = (
                below
                and below[1] == "text"
                and not re.search(r"^#", page[block.end() : below.start()], re.M)
            )
            yield page[: block.start()].count("\n") + 1, block[2], below[2] if is_below else None


def missing(script, path):
    """Returns the reason to skip a session: it installs something, or needs a program that this
    machine lacks."""
    if INSTALLS.search(script):
        return "it installs something"
    for name in PROGRAMS:
        if (
            re.search(rf"(^|[\s(|]){name}\s", script, re.M)
            and shutil.which(name, path=path) is None
        ):
            return f"{name} isn't there"
    return next(
        (
            f"{file} isn't built"
            for word, file in LIBRARIES.items()
            if word in script and not (TOP / file).exists()
        ),
        None,
    )


def printed(scripts, path, folder):
    """Returns the output of each of these scripts, in one bash and one folder."""
    for name in ("crates", "c", "out", "python"):
        (folder / name).symlink_to(TOP / name)
    whole = "".join(f"{script}\nprintf '%s\\n' '{MARK}'\n" for script in scripts)
    env = {**os.environ, "PATH": path, "PYTHONPATH": str(TOP / "python")}
    done = subprocess.run(
        ["bash", "-c", whole], cwd=folder, env=env, stdout=subprocess.PIPE, text=True, timeout=600
    )
    return done.stdout.split(f"{MARK}\n")[:-1]


def run(name):
    """Runs a page's sessions, and counts those that print the expected output and those that
    don't."""
    with tempfile.TemporaryDirectory(prefix="readme-") as own, tempfile.TemporaryDirectory(
        prefix="readme-"
    ) as folder:
        pathlib.Path(own, "python3").symlink_to(sys.executable)
        path, taken = os.pathsep.join([own, str(TOP / "out"), os.environ["PATH"]]), []
        for line, script, wanted in sessions_of((TOP / name).read_text()):
            lacks = "no text below it" if wanted is None else missing(script, path)
            if lacks:
                print(f"{name}:{line}: not run: {lacks}")
            else:
                taken.append((line, script, wanted))
        found = (
            printed([script for _, script, _ in taken], path, pathlib.Path(folder)) if taken else []
        )
    failed = len(taken) - len(found)
    for (line, _, wanted), text in zip(taken, found):
        differs = list(
            difflib.unified_diff(
                wanted.splitlines(), text.splitlines(), "page", "printed", lineterm="", n=0
            )
        )
        failed += bool(differs)
        print("\n".join([f"{name}:{line}: {'FAILED' if differs else 'passed'}", *differs]))
    return len(taken) - failed, failed


def main():
    for name in pages():
        if not (TOP / name).is_file():
            sys.exit(f"{name}: no such page of this tree")
    results = [run(name) for name in pages()]
    passed, failed = sum(it for it, _ in results), sum(it for _, it in results)
    print(f"{passed} passed, {failed} failed")
    return 1 if failed or not passed else 0


if __name__ == "__main__":
    sys.exit(main())
