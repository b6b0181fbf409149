"""tests/needs.py: the table of the programs that tests need."""

import ast
import sys
import unittest
from collections.abc import Iterator

from tests import needs
from tests.helpers import TOP

sys.path.insert(0, str(TOP / "tools"))
import debian_packages  # noqa: E402

FOLDERS = ("tests", "c", "python", "docs", "rust")
# What stands in a call of `need` in place of names: the names.
VARIED = {
    "EMULATOR[0]": "qemu-aarch64",
    "OBJDUMP": "objdump",
    "*emulator[:1]": "qemu-aarch64",
    "*programs": "",
    "cc": "gcc clang g++",
    "f'{triplet}-gcc'": "aarch64-linux-gnu-gcc x86_64-linux-gnu-gcc",
    "listener": "socat systemd-socket-activate",
    "shell": "bash fish zsh",
}
# The drivers before the programs in the calls of `need` in python/tests/accounts.
DRIVERS = ("psycopg", "pymysql")


def calls() -> Iterator[tuple[str, ast.Call]]:
    """The calls in all tests, each with its place."""
    for folder in FOLDERS:
        for path in (TOP / folder).rglob("*.py"):
            if "out" not in path.relative_to(TOP).parts:
                for node in ast.walk(ast.parse(path.read_text())):
                    if isinstance(node, ast.Call):
                        yield f"{path.relative_to(TOP)}:{node.lineno}", node


def programs_of(call: ast.Call) -> list[str]:
    """The programs without which a call skips a test."""
    name = ast.unparse(call.func).rpartition(".")[2]
    words = call.args
    if name in ("skipIf", "skipUnless"):
        reason = ast.literal_eval(words[1])
        found = reason.removeprefix("needs the program ")
        return [found] if found != reason else []
    if name != "need":
        return []
    if words and ast.unparse(words[0]) in DRIVERS:
        words = words[2:]
    names: list[str] = []
    for word in words:
        names += (
            [word.value] if isinstance(word, ast.Constant) else VARIED[ast.unparse(word)].split()
        )
    return names


class Programs(unittest.TestCase):
    def test_every_name_is_known(self) -> None:
        """Each program that a test needs is in the table, and a test needs each of the table."""
        needed = {"rt"}  # by tools/jobs.py
        for place, call in calls():
            with self.subTest(place):
                names = programs_of(call)
                self.assertEqual([it for it in names if it not in needs.PROGRAMS], [])
                needed |= {*names}
        self.assertEqual({*needs.PROGRAMS} - needed, set())

    def test_packages(self) -> None:
        """Each package of the table is listed, and has its programs where it is installed."""
        listed = debian_packages.listed()
        self.assertEqual([it for it in needs.OF_PACKAGES if it not in listed], [])
        self.assertEqual({*needs.OF_PACKAGES} & {*needs.OTHERS}, set())
        needs.need("dpkg-query")
        missing = debian_packages.missing()
        for package, names in needs.OF_PACKAGES.items():
            if package not in missing:
                for name in names:
                    with self.subTest(package, name=name):
                        self.assertFalse(needs.lacks_program(name))
