"""Builds of a clean copy of the tree on a machine without rt: only with a C compiler, as a user who
isn't root, and without a network. The tests need gcc, make and git, and some need python3-venv or
php-cli."""

import os
import pathlib
import re
import shutil
import stat

from tests import helpers
from tests.helpers import TOP, each, need, need_module, run, write_files
from tests.needs import need_git
from tests.packages.test_install import program_of_readme, sample

# A record that Argon2's reference implementation made of a password (test.c of phc-winner-argon2).
RECORD = "$argon2id$v=19$m=65536,t=2,p=1$c29tZXNhbHQ$CTFhFdXPJO1aFaMaO6Mm5c8y7cJHAph8ArZWb2GRPPc"
CHECKS = f"""import rigzumal
assert rigzumal.PasswordHasher().verify({RECORD!r}, "password")
print(rigzumal.__file__)
maps = [it.rstrip().split(None, 5) for it in open("/proc/self/maps") if "librigzumal" in it]
print(maps[0][5])
"""
VERIFIES = (
    f"var_dump(password_verify('password', '{RECORD}'), password_verify('another', '{RECORD}'));"
)
# The folders of programs, but for those with an rt.
PATH = ":".join(
    it for it in os.environ["PATH"].split(":") if not (pathlib.Path(it) / "rt").exists()
)
# An rt that notes what it was asked, and proves nothing.
RT = """#!/bin/sh
echo "rt $*" >> "$HOME/asked"
exit 1
"""


def copy(room):
    """The files of the tree as they are now, as a clone has them."""
    need_git()
    listed = ("ls-files", "-z", "--cached", "--others", "--exclude-standard")
    for name in run("git", "-c", f"safe.directory={TOP}", *listed).split("\0"):
        if name and (TOP / name).exists():
            (room / name).parent.mkdir(parents=True, exist_ok=True)
            shutil.copy(TOP / name, room / name)
    return room


class WithoutRt(helpers.Case):
    seconds = 600

    def setUp(self):
        super().setUp()
        need("make", "gcc")
        self.top, self.home = copy(self.room() / "a copy"), self.room()
        self.env = {"PATH": PATH, "HOME": str(self.home), "LANG": "C.UTF-8"}
        self.user = []
        if os.getuid() == 0:  # root's own commands run as nobody
            self.user = ["setpriv", "--reuid=nobody", "--regid=nogroup", "--clear-groups"]
            run("chown", "-R", "nobody:nogroup", self.top.parent, self.home)

    def as_user(self, *words, status=0, at=None, given="", **env):
        line = [
            *self.user,
            "env",
            "-i",
            *(f"{name}={value}" for name, value in {**self.env, **env}.items()),
            *words,
        ]
        return run(*line, at=at or self.home, status=status, given=given)

    def make(self, *words, folder="c", status=0, **env):
        return self.as_user("make", "-C", self.top / folder, *words, status=status, **env)

    def test_library(self):
        """The library is built of c/proved, and hashes as others do, in Python and in PHP. A
        program in C links it from its folder, as BUILDING says."""
        self.make()
        found = self.as_user("/usr/bin/python3", "-c", CHECKS, PYTHONPATH=str(self.top / "python"))
        self.assertEqual(found.splitlines()[1], f"{self.top}/c/out/librigzumal.so.1")
        if shutil.which("php"):
            said = self.as_user("php", "-r", VERIFIES, LD_LIBRARY_PATH=str(self.top / "c/out"))
            self.assertEqual(said.split(), ["bool(true)", "bool(false)"])
        write_files(self.top, {"service.c": program_of_readme()})
        (link,) = re.findall("^cc .*", sample("docs/BUILDING.md", "sh", "cc service.c"), re.M)
        self.as_user("sh", "-c", f"{link}\n./a.out", at=self.top)
        self.assertNotIn("ld -r", self.make())  # again there is nothing to do

    def test_programs(self):
        """One make links the programs beside the library: credbook answers README's script, and
        credkeep keeps a user file."""
        self.make(folder=".")
        ran, stdin = self.top / "out/credbook", (TOP / "crates/credbook/stdin").read_text()
        answers = self.as_user(ran, "run", given=stdin)
        self.assertEqual(answers, (TOP / "crates/credbook/stdout").read_text())
        session = sample("README.md", "sh", "credkeep users.db init")
        said = self.as_user("sh", "-c", session, PATH=f"{self.top}/out:{PATH}")
        self.assertEqual(said, sample("README.md", "text", "enrolled"))
        self.assertNotIn("-pie", self.make(folder="."))  # again there is nothing to do

    @each(
        ("crates/cred_argon/src/lib.rt", "// changed\n"),
        ("crates/cred_phc/specs/New.antt", ""),
        ("crates/cred_book/src/lib.rt", None),
        ("crates.txt", "cred_c staticlib: cred_pool\n"),
        ("c/proved/library.sum", None),
    )
    def test_other_sources(self, name, text):
        """Compiled code of other sources is refused in one line, which names one of them."""
        path = self.top / name
        before = path.read_text() if path.exists() else None
        if text is None:
            path.unlink()
        else:
            path.write_text(text)
        said = self.make("-s", status=2)
        if before is None:
            path.unlink()
        else:
            path.write_text(before)
        lines = [it for it in said.splitlines() if not it.startswith("make: ")]
        self.assertEqual(len(lines), 1, said)
        self.assertIn(f"({name} differs)", said)
        self.assertIn("run `make proved`, which needs rt", said)
        self.assertFalse((self.top / "c/out/librigzumal.so.1").exists())

    @each(("c", "v1"), (".", "credkeep"), (".", "lanes_v3"))
    def test_damaged_object(self, folder, name):
        """Compiled code that isn't as it was committed is refused by its name."""
        path = self.top / f"c/proved/x86_64/{name}.o"
        whole = path.read_bytes()
        for damaged in (whole[:-1] + bytes([whole[-1] ^ 1]), whole[:-1], b""):
            path.write_bytes(damaged)
            said = self.make("-s", folder=folder, status=2, LANG="C")
            self.assertIn(f"x86_64/{name}.o: FAILED", said)
        path.write_bytes(whole)
        self.make("-s", folder=folder)

    @each(
        ("objects.sum", "x86_64/credbook.o", "x86_64/credbook.o"),
        ("objects.sum", "x86_64/v1.o", "x86_64/v1.o"),
        ("programs.sum", "cred_tries[ :/]", "crates.txt"),
    )
    def test_cut_sums(self, name, cut, named):
        """A list of sums that lacks an object or a crate is refused: what it lacks could be of
        other sources."""
        path = self.top / "c/proved" / name
        lines = path.read_text().splitlines(keepends=True)
        kept = [it for it in lines if not re.search(rf"( crates/|  |^# ){cut}", it)]
        self.assertNotEqual(kept, lines)
        path.write_text("".join(kept))
        said = self.make("-s", folder=".", status=2)
        path.write_text("".join(lines))
        self.assertIn(named, said)

    def test_objects_of_others(self):
        """An object beside the committed ones is refused, instead of linked unseen."""
        path = self.top / "c/proved/x86_64/lanes_v9.o"
        shutil.copy(self.top / "c/proved/x86_64/v1.o", path)
        self.assertIn("x86_64/lanes_v9.o", self.make("-s", folder=".", status=2))

    def test_older_objects(self):
        """make links again what a newer tarball has, unpacked over an older one after a build: its
        files are older than the build."""
        self.make("-s", folder=".")
        folder, said = self.top / "c/proved", ""
        for name in ("x86_64/credbook.o", "x86_64/v1.o"):
            run("objcopy", "--add-section", ".note.other=/dev/null", folder / name)
        names = re.findall(r"\S+$", (folder / "objects.sum").read_text(), re.M)
        (folder / "objects.sum").write_text(run("sha256sum", *names, at=folder))
        for path in folder.rglob("*.*"):
            os.utime(path, (1, 1))
        said = self.make(folder=".")
        self.assertEqual([it in said for it in ("-pie", "ld -r", "librigzumal.so.1")], [True] * 3)
        self.assertNotIn("-pie", self.make(folder="."))

    def test_sources_of_others(self):
        """A change above the library's crates matters to the programs alone."""
        with (self.top / "crates.txt").open("a") as lines:
            lines.write("another: cred_c\n")
        (self.top / "crates/credkeep/src/main.rt").write_text("// changed\n")
        self.make()
        said = self.make("-s", folder=".", status=2)
        self.assertIn("(crates/credkeep/src/main.rt differs)", said)
        self.assertFalse((self.top / "out/credkeep").exists())

    @each(
        ("build", "", 0, ""),
        ("build", "crates/credkeep/src/main.rt", 2, "rt ci\n"),
        ("build", "c/proved/x86_64/credkeep.o", 2, ""),
        ("install", "crates/credkeep/src/main.rt", 2, ""),
        ("dist", "crates/credkeep/src/main.rt", 2, ""),
    )
    def test_with_rt(self, goal, changed, status, asked):
        """With rt, make says which source has changed, and has rt prove and compile again only
        then: proofs don't repair a damaged object. make install proves nothing as root."""
        write_files(self.home, {"bin/rt": RT}, 0o755)
        path = self.top / (changed or "VERSION")
        before = path.read_bytes()
        if changed:
            path.write_text("// changed\n")
        said = self.make("-s", goal, folder=".", status=status, PATH=f"{self.home}/bin:{PATH}")
        path.write_bytes(before)
        self.assertIn(pathlib.Path(changed).name, said)
        noted = self.home / "asked"
        self.assertEqual(noted.read_text() if noted.exists() else "", asked)
        noted.unlink(missing_ok=True)

    @each("proved", "prove")
    def test_what_needs_rt(self, target):
        """A command that needs rt says so, and what works without it."""
        said = self.make("-s", target, folder=".", status=2)
        lines = [it for it in said.splitlines() if not it.startswith("make")]
        self.assertEqual(len(lines), 2, said)
        self.assertIn("rt isn't there: only the Rattle toolchain, which isn't published", said)
        self.assertIn("Without it `make` links everything", said)

    def test_missing_packages(self):
        """A build that lacks a package of Debian names that package."""
        said = self.make("CC=cc -nostdinc", folder="c/pam", status=2)
        self.assertIn("install libpam0g-dev", said)
        script = self.top / "packaging/deb"
        said = self.as_user("/bin/sh", script, "out", "python3-rigzumal", status=1, PATH="/none")
        self.assertIn("install dpkg-dev", said)

    def test_pip(self):
        """`pip install ./python` builds the library, with no registry, and so does -e."""
        need_module("ensurepip", python="/usr/bin/python3")  # of python3-venv
        for words in ((), ("-e",)):
            with self.subTest(words):
                shutil.rmtree(self.top / "c/out", ignore_errors=True)
                room = self.home / "-".join(["venv", *words])
                self.as_user("/usr/bin/python3", "-m", "venv", room)
                self.as_user(room / "bin/pip", "install", "--no-index", *words, self.top / "python")
                found = self.as_user(room / "bin/python", "-c", CHECKS)
                self.assertIn(str(self.top if words else room), found)

    def test_pip_of_other_sources(self):
        """pip shows why the library isn't built."""
        need("pip3")
        (self.top / "crates/cred_argon/src/lib.rt").write_text("// changed\n")
        words = ("install", "--no-index", "--target", self.home / "site", self.top / "python")
        said = self.as_user("/usr/bin/python3", "-m", "pip", *words, status=1)
        self.assertIn("crates/cred_argon/src/lib.rt differs", said)

    def test_users_prefix(self):
        """Python itself finds the package of `make install PREFIX=$HOME/.local`, with its library;
        `make uninstall` removes both."""
        for folder in ("c", "python"):
            self.make("install", f"PREFIX={self.home}/.local", folder=folder, LANG="C")
        package, library = self.as_user("/usr/bin/python3", "-c", CHECKS).splitlines()
        self.assertTrue(package.startswith(f"{self.home}/.local/lib/python3."), package)
        self.assertEqual(library, f"{self.home}/.local/lib/librigzumal.so.1")
        said = self.as_user("sh", "-c", "printf secret | .local/bin/rigzumal hash --memory 8192")
        self.assertIn("$argon2id$", said)
        for folder in ("c", "python"):
            self.make("uninstall", f"PREFIX={self.home}/.local", folder=folder)
        self.assertEqual({it for it in helpers.files_below(self.home) if "/lib/" in it}, set())

    def test_modes(self):
        """Everybody may read the installed files, under each umask."""
        self.as_user(
            "sh", "-c", f"umask 077; make -C '{self.top}/python' install PREFIX={self.home}/p"
        )
        for path in (self.home / "p").rglob("*"):
            self.assertTrue(path.stat().st_mode & stat.S_IROTH, path)
