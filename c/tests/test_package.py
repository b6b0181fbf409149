"""Tests of the installed and the packed library."""

import os
import re
import shlex
import shutil
import stat
import sys
import unittest

from harness import COMPILER, IS_HOST, OUT, ROOM, TOP
from harness import each, files_below, need, need_host, run, runnable

sys.path.insert(0, str(TOP.parent / "tools"))
from tree import CRATES, all_below  # noqa: E402

VERSION = (TOP.parent / "VERSION").read_text().strip()
INSTALLED = {
    "include/rigzumal.h",
    "lib/librigzumal.a",
    "lib/librigzumal.so",
    "lib/librigzumal.so.1",
    "lib/cmake/rigzumal/rigzumal-config.cmake",
    "lib/cmake/rigzumal/rigzumal-config-version.cmake",
    "lib/pkgconfig/rigzumal.pc",
    "lib/rigzumal/libargon2.so.1",
    "share/man/man3/rigzumal.3",
    "share/rigzumal/folders",
}


CMAKE = """cmake_minimum_required(VERSION 3.10)
project(threads C)
find_package(rigzumal {version} EXACT REQUIRED)
foreach(kind rigzumal static)
  add_executable(threads-${{kind}} threads.c)
  target_link_libraries(threads-${{kind}} rigzumal::${{kind}})
endforeach()
foreach(wanted {wanted})
  find_package(rigzumal ${{wanted}} QUIET)
  message("${{wanted}} is found: ${{rigzumal_FOUND}}")
endforeach()
"""
# The versions that a program may require, and whether this version meets them.
ASKED = {
    "0.1": True,
    VERSION: True,
    "99": False,
    "0.1...99": True,
    f"0.1...{VERSION}": True,
    f"0.1...<{VERSION}": False,
    "0.1...0.1.9": False,
    "98...99": False,
}


class Package(unittest.TestCase):
    def check_program(self, prefix, libdir, *options):
        """Builds a program by pkg-config over the library installed in a folder, and runs it."""
        env = {
            "PKG_CONFIG_PATH": str(prefix / libdir / "pkgconfig"),
            "LD_LIBRARY_PATH": str(prefix / libdir),
        }
        for words, said in (("--modversion", VERSION), ("--static --libs", "-pthread")):
            self.assertIn(said, run("pkg-config", *words.split(), "rigzumal", env=env).split())
        said = run("pkg-config", *options, "--cflags", "--libs", "rigzumal", env=env)
        self.assertIn(f"-I{prefix}/include", shlex.split(said))
        flags = (*shlex.split(said), "-o", ROOM / "of-installed")
        run(COMPILER, "tests/threads.c", "-pthread", *flags)
        if IS_HOST:
            linked = run("ldd", ROOM / "of-installed", env=env)
            self.assertIn(f"{prefix / libdir}/librigzumal", linked)
        run(runnable(ROOM / "of-installed"), env=env)

    def test_installed(self):
        """`make install` installs its files into folders of any name; they work after a move."""
        need("pkg-config")
        for libdir in ("lib", "lib/of this"):
            prefix = ROOM / f"installed in {libdir.replace('/', ' ')}"
            words = f"PREFIX='{prefix}' LIBDIR='{prefix / libdir}'"
            run("sh", "-c", f"umask 077; make install {words}")
            wanted = {re.sub("^lib/", f"{libdir}/", it) for it in INSTALLED}
            self.assertEqual(files_below(prefix), wanted)
            for path in prefix.rglob("*"):  # everybody may read it, whoever installed it
                mode = 0o755 if path.is_dir() else 0o644
                self.assertEqual(stat.S_IMODE(path.stat().st_mode), mode, path)
            self.check_program(prefix, libdir)
        moved = (ROOM / "installed in lib").rename(ROOM / "moved")
        self.check_program(moved, "lib", "--define-prefix")

    def test_cmake(self):
        """CMake builds a program over the installed files, with either library, after a move of the
        folder; and finds the right versions."""
        need_host()
        need("cmake")
        prefix, room = ROOM / "installed for CMake", ROOM / "cmake"
        run("make", "install", f"PREFIX={prefix}")
        prefix = prefix.rename(ROOM / "moved for CMake")
        room.mkdir()
        (room / "lib").symlink_to(prefix / "lib")  # as Debian's /lib is one
        shutil.copy(TOP / "tests/threads.c", room)
        shutil.copy(TOP / "tests/check.h", room)
        wanted = " ".join(f'"{it}"' for it in ASKED)
        (room / "CMakeLists.txt").write_text(CMAKE.format(version=VERSION, wanted=wanted))
        said = run("cmake", "-S", room, "-B", room / "out", f"-DCMAKE_PREFIX_PATH={room}")
        found = re.findall(r"^(\S+) is found: (\d)$", said, re.M)
        self.assertEqual({version: it == "1" for version, it in found}, ASKED)
        run("cmake", "--build", room / "out")
        for kind in ("rigzumal", "static"):
            run(room / "out" / f"threads-{kind}")

    def test_rebuilt(self):
        """make rebuilds each file whose source or whose flags have changed, and nothing else."""
        need_host()
        room = ROOM / "copied"
        shutil.copytree(TOP, room / "c", ignore=shutil.ignore_patterns("out"))
        for name in ("crates", "crates.txt", "tools", "VERSION"):
            (room / name).symlink_to(TOP.parent / name)
        out = room / "c" / OUT.relative_to(TOP)

        def made(*words):
            return run("make", *words, at=room / "c")

        made()
        self.assertNotIn(COMPILER, made())
        self.assertIn("-DUNUSED", made("CFLAGS=-O2 -DUNUSED"))
        self.assertNotIn("-DUNUSED", made("CFLAGS=-O2 -DUNUSED"))
        self.assertIn("-DALSO_UNUSED", made("CPPFLAGS=-DALSO_UNUSED"))
        made("CFLAGS=-O2 -DUNUSED", "LDFLAGS=-Wl,--build-id=0x1234567890abcdef")
        for name in ("librigzumal.so.1", "libargon2.so.1"):
            self.assertIn("1234567890abcdef", run("readelf", "-n", out / name))
        with (room / "c/Makefile").open("a") as makefile:
            makefile.write("# changed\n")
        self.assertIn(COMPILER, made())

    def test_sources(self):
        """The list of the library's sources has each file that rt reads of the crate of the exports
        and of those below it, and their lines of crates.txt."""
        below = ["cred_c", *all_below("cred_c")]
        wanted = set()
        for name in below:
            files = [it for it in files_below(CRATES / name) if not it.startswith("out/")]
            wanted |= {f"crates/{name}/{it}" for it in files if it.endswith((".rt", ".antt"))}
        text = (TOP / "proved/library.sum").read_text()
        self.assertEqual({*re.findall(r"^[0-9a-f]{64}  (.*)", text, re.M)}, wanted)
        self.assertEqual({*re.findall(r"^# (\w+)[ :]", text, re.M)}, {*below})

    def test_uninstalled(self):
        """`make uninstall` removes the files of `make install` and their folders, and no others."""
        prefix = ROOM / "uninstalled"
        others = {
            "lib/rigzumal/of-another.so",
            "lib/librigzumal.so.2",
            "include/other.h",
            "lib/cmake/rigzumal/of-another.cmake",
        }
        for with_others in (False, True):
            run("make", "install", f"PREFIX={prefix}")
            self.assertEqual(files_below(prefix), INSTALLED)
            self.assertEqual(os.readlink(prefix / "lib/librigzumal.so"), "librigzumal.so.1")
            for name in others if with_others else ():
                (prefix / name).write_text("of another")
            run("make", "uninstall", f"PREFIX={prefix}")
            self.assertEqual(files_below(prefix), others if with_others else set())
            for folder in ("rigzumal", "cmake/rigzumal"):
                self.assertEqual((prefix / "lib" / folder).exists(), with_others, folder)

    def test_destination(self):
        """DESTDIR is the place of a package's files: none of them names it, and none lists folders.
        `make uninstall` removes the files."""
        room = ROOM / "destination"
        words = (f"DESTDIR={room}", "PREFIX=/opt/rigzumal")
        run("make", "install", *words)
        packed = {f"opt/rigzumal/{name}" for name in INSTALLED - {"share/rigzumal/folders"}}
        self.assertEqual(files_below(room), packed)
        for name in packed:
            self.assertNotIn(bytes(room), (room / name).read_bytes(), name)
        config = (room / "opt/rigzumal/lib/pkgconfig/rigzumal.pc").read_text()
        self.assertTrue(config.startswith("prefix=/opt/rigzumal\n"), config)
        self.assertNotIn("@", config)
        run("make", "uninstall", *words)
        self.assertEqual(files_below(room), set())

    def test_static(self):
        """The archive links into a program that needs no shared library."""
        flags = ["-static", "-Iinclude", "-pthread"]
        run(COMPILER, *flags, "tests/threads.c", OUT / "librigzumal.a", "-o", ROOM / "static")
        run(runnable(ROOM / "static"))

    @each("librigzumal.so.1", "libargon2.so.1")
    def test_hardened(self, name):
        """The memory that the loader writes is read-only before the first call, and no stack is
        executable. The libraries call none of a program's own functions with names of
        libargon2's."""
        said = run("readelf", "-W", "-d", "-l", OUT / name)
        for form in ("BIND_NOW|FLAGS_1.*NOW", "SYMBOLIC", "GNU_RELRO", "GNU_STACK .* RW +0x"):
            self.assertRegex(said, form)
