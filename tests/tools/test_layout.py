"""The lengths of files and functions of Python, and the tools that tools/lint starts."""

import ast
import os
import pathlib
import shutil
from collections.abc import Iterator

from tests.helpers import TOP, Case, Ended, each, ended, need, write_files

LINES, LINES_OF_A_FUNCTION = 400, 60
# Folders with what is built, and not written.
BUILT = {"out", "target", "__pycache__", ".git", ".mypy_cache", ".hypothesis"}
# The tools of tools/lint, each with files that it looks at.
TOOLS = {
    "black": ("tests/helpers.py", "bin/credkeep-ask"),
    "flake8": ("tests/helpers.py", "bin/credkeep-ask"),
    "mypy": ("python/rigzumal",),
    "clang-format": ("c/pam/pam_rigzumal.c", "tests/shims/calls.c", "c/include/rigzumal.h"),
    "shellcheck": (
        "packaging/rigzumal-tools/postrm",
        "bin/launcher.in",
        ".ci/run",
        "completions/bash",
    ),
    "groff": ("man/rigzumal.3",),
}
# A stand-in of a tool: it notes its words, and may find a fault.
TOOL = """#!/bin/sh
name=${0##*/}
echo "$name $*" >> "$ASKED"
[ "$name" != "$FAILING" ] || { echo a fault; exit 1; }
"""


def files() -> list[pathlib.Path]:
    """All Python files of the tree, also programs without a suffix."""
    found = [it for it in TOP.rglob("*.py") if not BUILT & {*it.relative_to(TOP).parts}]
    for program in (TOP / "bin").iterdir():
        if "python3" in program.read_text().partition("\n")[0]:
            found.append(program)
    return sorted(found)


def long_functions(path: pathlib.Path) -> Iterator[str]:
    for node in ast.walk(ast.parse(path.read_text())):
        if isinstance(node, (ast.FunctionDef, ast.AsyncFunctionDef)):
            if node.end_lineno - node.lineno >= LINES_OF_A_FUNCTION:
                yield f"{path.relative_to(TOP)}:{node.lineno}: {node.name}"


class Layout(Case):
    def test_lengths(self) -> None:
        """No file has over 400 lines, and no function over 60."""
        long = [it for it in files() if len(it.read_text().splitlines()) > LINES]
        self.assertEqual([str(it.relative_to(TOP)) for it in long], [])
        self.assertEqual([name for it in files() for name in long_functions(it)], [])

    def test_list_of_tools(self) -> None:
        """tools/README.md has each file of its folder."""
        names = {it.name for it in (TOP / "tools").iterdir() if it.is_file()}
        page = (TOP / "tools/README.md").read_text()
        self.assertEqual([it for it in names - {"README.md"} if it not in page], [])

    def lint(self, failing: str, missing: str) -> Ended:
        """Runs tools/lint over stand-ins of its tools, of which one fails and one is missing."""
        need("git")
        room = self.room()
        write_files(room, {name: TOOL for name in {*TOOLS} - {missing}}, 0o755)
        for name in ("sh", "git", "dirname", "grep"):
            (room / name).symlink_to(shutil.which(name) or "")
        self.asked = room / "asked"
        env = {"PATH": str(room), "ASKED": str(self.asked), "FAILING": failing}
        env |= {"GIT_CONFIG_COUNT": "1", "GIT_CONFIG_KEY_0": "safe.directory"}
        given = {**os.environ, **env, "GIT_CONFIG_VALUE_0": str(TOP)}
        return ended([str(TOP / "tools/lint")], env=given)

    @each(("", ""), *((it, "") for it in TOOLS), *(("", it) for it in TOOLS))
    def test_tools(self, failing: str, missing: str) -> None:
        """Each tool looks at its files, whatever another finds. One that finds a fault or is
        missing is named."""
        done = self.lint(failing, missing)
        last = done.written.splitlines()[-1]
        if failing:
            named = "manuals" if failing == "groff" else failing
            self.assertRegex(last, f"^lint: FAILED: {named}")
        else:
            self.assertRegex(last, f"^lint: missing: {missing}" if missing else "^lint: passed$")
        self.assertEqual(done.status, 1 if failing else 3 if missing else 0)
        asked = self.asked.read_text().splitlines()
        for tool, names in TOOLS.items():
            words = {it for line in asked for it in line.split() if line.startswith(f"{tool} ")}
            self.assertEqual({*names} - words, {*names} if tool == missing else set())
