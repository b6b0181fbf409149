"""The commands of make on the pages: the targets and variables that they name are Makefiles' own,
and the paths that they lead to are those that make writes."""

import fnmatch
import pathlib
import re
import sys
import unittest

HERE = pathlib.Path(__file__).resolve().parent
sys.path.insert(0, str(HERE.parent.parent))

from tests.helpers import TOP, each, need, run  # noqa: E402

# Each page, and the folder in which a reader runs its commands.
PAGES = {"README.md": ".", "CONTRIBUTING.md": ".", "SECURITY.md": ".", "bench/RESULTS.md": "."}
PAGES |= {f"docs/{it.name}": "." for it in (TOP / "docs").glob("*.md")}
PAGES |= {f"{it}/README.md": it for it in ("c", "python", "rust")}
PAGES |= {"examples/login_page/README.md": "."}

FENCED = re.compile(r"^```(\w*)\n(.*?)^```$", re.MULTILINE | re.DOTALL)
INLINE = re.compile(r"(?<!`)`([^`]+)`(?!`)")
COMMAND = re.compile(r"(?:^|[;&|]|\bsudo\b|\bthen\b|\bdo\b) *make((?= |$)[^;&|\n]*)", re.MULTILINE)
# What make itself, or its built-in rules, read.
BUILT_IN = {"CC", "CFLAGS", "CPPFLAGS", "LDFLAGS"}


def pieces(text: str) -> list[str]:
    """The code for a shell on a page: fenced blocks without comments, and code in a paragraph."""
    blocks = [code for kind, code in FENCED.findall(text) if kind == "sh"]
    found = [re.sub(r"(^|[ \t])#.*", "", code, flags=re.MULTILINE) for code in blocks]
    for paragraph in FENCED.sub("", text).split("\n\n"):
        found += [" ".join(code.split()) for code in INLINE.findall(paragraph)]
    return found


def commands(page: str) -> list[list[str]]:
    """The words after `make` of each command on a page."""
    text = (TOP / page).read_text()
    return [words.split() for code in pieces(text) for words in COMMAND.findall(code)]


def targets(folder: pathlib.Path) -> set[str]:
    text = (folder / "Makefile").read_text()
    heads = re.findall(r"^([\w./-][\w./ -]*):(?!=)", text, re.MULTILINE)
    return {word for head in heads for word in head.split()}


def variables(folder: pathlib.Path) -> set[str]:
    """The variables that a Makefile uses, or one of those that it calls."""
    text = (folder / "Makefile").read_text()
    called = re.findall(r"\$\(MAKE\) -C ([\w./]+)", text)
    texts = [text, *((folder / it / "Makefile").read_text() for it in called)]
    return BUILT_IN | {name for it in texts for name in re.findall(r"\$[({]([A-Z_]+)\b", it)}


def faults(words: list[str], folder: pathlib.Path) -> list[str]:
    """The words of a command of make that mean nothing in its folder."""
    rest = iter(words)
    plain = []
    for word in rest:
        if word == "-C":
            folder = folder / next(rest)
        else:
            plain.append(word)
    if not (folder / "Makefile").exists():
        return [f"{folder}/Makefile"]
    sets = {it for it in plain if "=" in it}
    unknown = {it for it in sets if it.partition("=")[0] not in variables(folder)}
    return sorted(unknown | ({*plain} - sets - targets(folder)))


class Commands(unittest.TestCase):
    @each(*PAGES.items())
    def test_make(self, page: str, folder: str) -> None:
        """Each command names targets of the Makefile in its folder, and variables that this
        Makefile uses, or one that it calls."""
        for words in commands(page):
            with self.subTest(" ".join(["make", *words])):
                self.assertEqual(faults(words, TOP / folder), [])

    def test_commands_are_found(self) -> None:
        found = [" ".join(words) for page in PAGES for words in commands(page)]
        for command in (
            "",
            "check",
            "prove",
            "install",
            "-C c",
            "-C ../c",
            "-C c install PREFIX=$HOME/.local",
            "-C python install PREFIX=$HOME/.local",
            "-C c test CC=musl-gcc OUT=out/musl",
            "-C c/pam deb",
            "wheel",
        ):
            with self.subTest(command):
                self.assertIn(command, found)

    @each(
        ("-C python instal PREFX=/usr", ["PREFX=/usr", "instal"]),
        ("-C pyton install", [f"{TOP}/pyton/Makefile"]),
        ("-C python wheel ARCH=arm64", []),
        ("-C c/pam install PREFIX=/usr", []),
        ("-C c install PAMDIR=/lib", []),
        ("-C c/pam install ZSHDIR=/lib", ["ZSHDIR=/lib"]),
    )
    def test_faults(self, command: str, found: list[str]) -> None:
        self.assertEqual(faults(command.split(), TOP), found)


class Paths(unittest.TestCase):
    def steps(self, *words: str) -> str:
        """The commands of a target without those of what it needs, on this kind of machine."""
        fixed = ["ARCH=x86_64", "DESTDIR=", "PREFIX=/usr/local"]
        need("make")
        return run("make", "-s", "-n", *words, *fixed, env={"MAKEFLAGS": ""})

    def test_libargon2(self) -> None:
        """Each folder in LD_LIBRARY_PATH for PHP has libargon2.so.1 after the page's make."""
        steps = self.steps("-o", "all", "-C", "c", "install")
        ((built, to),) = re.findall(r"^install -m 644 (\S+)/libargon2\.so\.1 (\S+)$", steps, re.M)
        folders = {f"c/{built}", to.replace("'", "")}
        page = (TOP / "docs/PHP.md").read_text()
        self.assertEqual({*re.findall(r"LD_LIBRARY_PATH=([\w./]+)", page)}, folders)
        building = (TOP / "docs/BUILDING.md").read_text()
        row = re.findall(r"^\| PHP \|.*LD_LIBRARY_PATH=(\S+)`", building, re.M)
        self.assertEqual(row, [f"c/{built}"])
        named = re.findall(r"LD_LIBRARY_PATH=(\S+) program", (TOP / "c/README.md").read_text())
        self.assertEqual(named, [to.replace("'", "")])

    def test_static_library(self) -> None:
        """The commands of C compilers name the header's folder and the library that make writes."""
        rule = re.findall(r"^all: \$\(OUT\)/(\S+)", (TOP / "c/Makefile").read_text(), re.M)
        for page in ("README.md", "docs/BUILDING.md"):
            with self.subTest(page):
                text = (TOP / page).read_text()
                found = re.findall(r"cc service\.c -I(\S+) (\S+) -pthread", text)
                self.assertEqual(found, [("c/include", f"c/out/{rule[0]}")])
        self.assertTrue((TOP / "c/include/rigzumal.h").exists())

    def test_container(self) -> None:
        """The container's lines copy and install the wheel that make writes."""
        steps = self.steps("-o", "library", "-C", "python", "wheel")
        (out,) = re.findall(r"build_backend\.py (\S+)$", steps, re.M)
        head = (TOP / "python/Makefile").read_text()
        (wheel,) = re.findall(rf"make wheel +({out}/\S+\.whl)", head)
        page = (TOP / "python/README.md").read_text()
        (lines,) = [code for kind, code in FENCED.findall(page) if kind == "dockerfile"]
        ((copied, to),) = re.findall(r"^COPY (\S+) (/\S+/)$", lines, re.M)
        self.assertTrue(fnmatch.fnmatch(f"python/{wheel}", copied), f"{wheel}, {copied}")
        (installed,) = re.findall(r"^RUN pip install --no-index (\S+)$", lines, re.M)
        self.assertTrue(fnmatch.fnmatch(to + pathlib.Path(wheel).name, installed), installed)


if __name__ == "__main__":
    unittest.main()
