"""Tests of the search for the library and of the memory that it keeps, and argon2-cffi's own tests
over it."""

import importlib
import inspect
import pathlib
import shutil
import tempfile
import unittest

from records import HERE, python

import rigzumal
from rigzumal import PasswordHasher, _library
from tests.helpers import LIBRARIES, PYTHON, each, need_module
from tests.needs import need_variable


def loaded(named, **env):
    """The libraries that Python maps if RIGZUMAL_LIBRARY names this one."""
    script = "import rigzumal; print(open('/proc/self/maps').read())"
    output = python("-c", script, RIGZUMAL_LIBRARY=str(named), **env)
    return {it.split()[-1] for it in output.splitlines() if "librigzumal" in it}


class Places(unittest.TestCase):
    def setUp(self):
        self.room = pathlib.Path(self.enterContext(tempfile.TemporaryDirectory()))

    def test_a_missing_library(self):
        """A package without its library says how to build it, and a build without the folder c why
        it fails."""
        shutil.copytree(PYTHON / "rigzumal", self.room / "rigzumal")
        clean = {"PYTHONPATH": str(self.room), "LD_LIBRARY_PATH": "", "RIGZUMAL_LIBRARY": ""}
        script = "try:\n    import rigzumal\nexcept ImportError as fault:\n    print(fault)"
        output = python("-c", script, at=self.room, **clean)
        if output:  # unless one is installed
            self.assertIn("make -C c", output)
        left_out = shutil.ignore_patterns("tests", "out")
        shutil.copytree(PYTHON, self.room / "python", ignore=left_out)
        output = python("python/build_backend.py", self.room, at=self.room, status=1)
        self.assertIn("c is not there: pip before 21.3 builds a copy of this folder alone", output)

    @each(("own", "python/rigzumal"), ("made", "c/out"))
    def test_the_package_comes_first(self, package, library):
        """The package loads its own library before one of make beside it, which is broken here."""
        room = self.room / package
        shutil.copytree(PYTHON / "rigzumal", room / "python/rigzumal")
        (room / "c/out").mkdir(parents=True)
        (room / "c/out/librigzumal.so.1").write_text("none")
        shutil.copy(LIBRARIES / "librigzumal.so.1", room / library)
        env = {"PYTHONPATH": str(room / "python"), "RIGZUMAL_LIBRARY": ""}
        python("-c", "import rigzumal", at=self.room, **env)

    def test_the_prefix_has_one(self):
        """A package that is installed below a prefix takes the library in the prefix's lib."""
        library, packages = self.room / "lib/librigzumal.so.1", self.room / "lib/python3/packages"
        shutil.copytree(PYTHON / "rigzumal", packages / "rigzumal")
        shutil.copy(LIBRARIES / library.name, library)
        self.assertEqual(loaded("", PYTHONPATH=str(packages)), {str(library)})

    def test_the_one_that_is_named_is_loaded(self):
        named = self.room / "librigzumal-of-mine.so"
        shutil.copy(_library._path(), named)
        self.assertEqual(loaded(named), {str(named)})
        self.assertEqual(loaded(""), {str(_library._path())})
        output = python("-c", "import rigzumal", RIGZUMAL_LIBRARY=f"{named}.not", status=1)
        self.assertIn("ImportError: librigzumal.so.1 can't be loaded", output)


class OldPythons(unittest.TestCase):
    @each((2, 7, 18), (3, 6, 15), (3, 8, 20))
    def test_import(self, version):
        """On an older Python one line names the version that the package needs, at the command
        too."""
        old = f"import sys; sys.version_info = {version}; sys.version = '1.2.3 (of a test)'; "
        for command in ("import rigzumal", "import runpy; runpy.run_module('rigzumal')"):
            output = python("-c", old + command, status=1)
            said = "ImportError: rigzumal needs Python 3.9 or later; this is 1.2.3"
            self.assertEqual(output.splitlines()[-1], said)


class Names(unittest.TestCase):
    @each("", ".accounts", ".accounts.dialects", ".argon2_cffi", ".server")
    def test_what_a_package_exports_is_what_it_has(self, name):
        package = importlib.import_module(f"rigzumal{name}")
        named = {it for it, value in vars(package).items() if not inspect.ismodule(value)}
        public = {it for it in named if not it.startswith("_")}
        self.assertEqual({*package.__all__} | public - {"annotations"}, {*package.__all__})
        for public_name in package.__all__:
            self.assertTrue(hasattr(package, public_name), f"{name}.{public_name}")


class Kept(unittest.TestCase):
    @each((65536, 2**26), (8, 0), (1024, 2**24))
    def test_memory_is_given_back(self, memory, kept):
        rigzumal.trim()
        PasswordHasher(1, memory, 1).hash("x")
        self.assertEqual((rigzumal.trim(), rigzumal.trim()), (kept, 0))

    @each(("", 2**26), (str(2**25), 2**25))
    def test_the_bound(self, bound, wanted):
        script = "import rigzumal; print(rigzumal.keep(0), rigzumal.keep(2**21), rigzumal.keep(0))"
        self.assertEqual(python("-c", script, RIGZUMAL_KEEP=bound), f"{wanted} 0 {2**21}\n")
        for wrong, kind in ((-1, OverflowError), (2**63, OverflowError), ("0", TypeError)):
            self.assertRaises(kind, rigzumal.keep, wrong)


class OfOthers(unittest.TestCase):
    def test_of_argon2_cffi(self):
        need_module("pytest", "hypothesis")
        python(HERE / "argon2_cffi_own.py", need_variable("ARGON2_CFFI_SOURCE"))
