"""docs/ARCHITECTURE.md's table of the files that a request passes: each file exists, is in its row
once, and an earlier file of that row leads to it."""

import ast
import functools
import re
import unittest
from collections.abc import Iterator

from tests.helpers import TOP, each

TABLE = re.compile(r"^## Which files a request passes\n(.*?)^## ", re.M | re.S)
ROW = re.compile(r"^\| (.+?) \| (.+) \|$", re.M)
# Every word with a slash or a dot, so that a path with a wrong suffix is looked for too.
FILE = re.compile(r"[\w-]+(?:[/.][\w-]+)+")
# What a file of a crate defines outside of `impl`, and by what paths it uses other files.
PUBLIC = r'^(?:pub(?:\(\w+\))? )?(?:extern "C" )?'
ITEM = re.compile(PUBLIC + r"(?:const fn|fn|struct|enum|trait|type|const|static) (\w+)", re.M)
USE = re.compile(PUBLIC + r"(?:use (\w+)::([^;]+)|mod (\w+));", re.M)
OF_THE_CRATE = ("crate", "super", "self", "")
IN_PYTHON = (ast.FunctionDef, ast.AsyncFunctionDef, ast.ClassDef)
# The functions and macros of a file in C.
IN_C = re.compile(r"^(?:[a-z][\w *]*?(\w+)\(|#define (\w+))", re.M)
COMMENT = re.compile(r"/\*.*?\*/", re.S)


def walks(page: str) -> Iterator[tuple[str, list[str]]]:
    """The request of each row, and the row's files, whose folder the row may name first."""
    (table,) = TABLE.findall(page)
    _, *rows = ROW.findall(table)
    for request, cell in rows:
        folder, _, names = cell.rpartition(": ")
        below = folder.removeprefix("in ") + "/" if folder else ""
        yield request, [below + it for it in FILE.findall(names)]


def faults(files: list[str]) -> Iterator[str]:
    """What is wrong with a row."""
    for at, file in enumerate(files):
        if not (TOP / file).is_file():
            yield f"{file} isn't there"
        elif file in files[:at]:
            yield f"{file} stands twice"
        elif at and not any(leads(it, file) for it in files[:at] if (TOP / it).is_file()):
            yield f"no earlier file leads to {file}"


def leads(earlier: str, file: str) -> bool:
    """Whether a file names another's module or something that this defines, or defines the type
    that a class of the other extends."""
    return bool(used(earlier) & defined(file) or defined(earlier) & extended(file))


def crate_of(file: str) -> str:
    return file.split("/")[1]


@functools.cache
def text_of(file: str) -> str:
    """A file's text; that of a file in C has no comments."""
    text = (TOP / file).read_text()
    return COMMENT.sub("", text) if file.endswith((".c", ".h")) else text


@functools.cache
def defined(file: str) -> set[str]:
    """The name of a file's module and of what the file defines. Files of crates use these names
    behind that of the crate, and files in other languages alone."""
    names, text = {(TOP / file).stem}, text_of(file)
    if file.endswith(".py"):
        return names | {it.name for it in ast.parse(text).body if isinstance(it, IN_PYTHON)}
    if not file.endswith(".rt"):
        groups = [group for found in IN_C.findall(text) for group in found]
        return names | {name for name in groups if name}
    names |= set(ITEM.findall(text))
    return names | {f"{crate_of(file)}::{it}" for it in names}


@functools.cache
def used(file: str) -> set[str]:
    """The names of others that a file uses: those in a crate's `use` and `mod`, or in Python's
    code, or the words of C."""
    text = text_of(file)
    if file.endswith(".py"):
        return in_python(text)
    if not file.endswith(".rt"):
        return set(re.findall(r"\w+", text))
    found = set()
    for root, path, module in USE.findall(text):
        crate = crate_of(file) if root in OF_THE_CRATE else root
        found |= {f"{crate}::{it}" for it in re.findall(r"\w+", path or module)}
    return found


def in_python(text: str) -> set[str]:
    """The names and attributes in code, and the parts of the names that it imports."""
    found = set[str]()
    for node in ast.walk(ast.parse(text)):
        if isinstance(node, ast.Name):
            found.add(node.id)
        elif isinstance(node, ast.Attribute):
            found.add(node.attr)
        elif isinstance(node, (ast.Import, ast.ImportFrom)):
            names = [it.name for it in node.names] + [getattr(node, "module", None) or ""]
            found |= {part for it in names for part in it.split(".")}
    return found


def extended(file: str) -> set[str]:
    """The types that the classes of a file extend."""
    if not file.endswith(".py"):
        return set()
    nodes = ast.parse(text_of(file)).body
    bases = [base for node in nodes if isinstance(node, ast.ClassDef) for base in node.bases]
    return {base.id for base in bases if isinstance(base, ast.Name)}


CLI, DAEMON = "crates/cred_cli/src", "python/rigzumal/server/daemon"
RUN = [f"{CLI}/{it}.rt" for it in ("script", "event", "fields", "refusal")]


class Walks(unittest.TestCase):
    def test_rows(self) -> None:
        """The table has rows, and nothing is wrong with any."""
        rows = [*walks((TOP / "docs/ARCHITECTURE.md").read_text())]
        self.assertGreater(len(rows), 3)
        for request, files in rows:
            with self.subTest(request):
                self.assertGreater(len(files), 1)
                self.assertEqual([*faults(files)], [])

    @each(
        (RUN, []),
        ([*RUN, f"{CLI}/keys.rt"], [f"{CLI}/keys.rt isn't there"]),
        ([*RUN, RUN[1]], [f"{RUN[1]} stands twice"]),
        ([RUN[0], RUN[3], *RUN[1:3]], [f"no earlier file leads to {RUN[3]}"]),
        ([*RUN, f"{CLI}/single.rt"], [f"no earlier file leads to {CLI}/single.rt"]),
        (
            [*RUN, "crates/cred_admin/src/password.rt"],
            ["no earlier file leads to crates/cred_admin/src/password.rt"],
        ),
        (
            ["c/src/rigzumal.c", "c/src/lanes.c", "c/src/with_threads.c"],
            ["no earlier file leads to c/src/lanes.c"],
        ),
        (
            [f"{DAEMON}/clients.py", f"{DAEMON}/web.py", f"{DAEMON}/aging.py"],
            [f"no earlier file leads to {DAEMON}/aging.py"],
        ),
    )
    def test_faults(self, files: list[str], wrong: list[str]) -> None:
        """A file that is missing, stands twice, comes too early or is unrelated is found."""
        self.assertEqual([*faults(files)], wrong)

    def test_folder(self) -> None:
        """A row that begins with a folder has all its files there."""
        rows = "| one of `b.c` | in d/e: f.py; then g.rt |\n| other | f.py, e/g.h |\n"
        page = f"## Which files a request passes\n\n| Request | Files |\n|---|---|\n{rows}\n## Next"
        found = [("one of `b.c`", ["d/e/f.py", "d/e/g.rt"]), ("other", ["f.py", "e/g.h"])]
        self.assertEqual([*walks(page)], found)


if __name__ == "__main__":
    unittest.main()
