"""Tests of the installed and the packed package, and of its types. They need Debian's packages
python3-venv, mypy, python3-django, python3-passlib and python3-flask.
"""

import ast
import base64
import hashlib
import pathlib
import sys
import tempfile
import tomllib
import unittest
import zipfile

sys.path.insert(0, str(pathlib.Path(__file__).resolve().parents[3]))

from tests.helpers import LIBRARIES, PYTHON, TOP
from tests.helpers import common_folder, each, files_below, need, need_module, run
from tests.needs import lacking, need_file

ROOM = common_folder()
VERSION = (TOP / "VERSION").read_text().strip()

FILES = sorted(
    str(it.relative_to(PYTHON))
    for it in (PYTHON / "rigzumal").rglob("*")
    if it.is_file() and it.suffix != ".pyc"
)
# A prefix that no Python knows; the system's Python would look in its own.
INSTALLED = run(
    "/usr/bin/python3",
    "-c",
    "import sys; print('lib/python%d.%d/site-packages' % sys.version_info[:2])",
).strip()
OTHERS = {
    *("bin/rigzumal", "share/man/man1/rigzumal.1", "share/bash-completion/completions/rigzumal"),
    *("share/zsh/site-functions/_rigzumal", "share/fish/vendor_completions.d/rigzumal.fish"),
}
# The folders that install created, for uninstall: no package has this list.
NOTED = "share/rigzumal/folders"
SCRIPTS = {"postinst": "py3compile", "prerm": "py3clean"}
HASHES = (
    "import rigzumal; h = rigzumal.PasswordHasher(1, 8192, 1)"
    "; print(h.verify(h.hash('x'), 'x'), rigzumal.__file__)"
)
LETS_IN = """from rigzumal.accounts import Accounts, Reply
def let_in(accounts: Accounts) -> bool:
    if accounts.login("ann", "x") is Reply.YES: return True
    return True if accounts.login("ann", "x") else False
"""
METADATA = """from importlib.metadata import metadata
about = metadata("rigzumal")
print([about.get_all(it) for it in ("Classifier", "Provides-Extra", "Requires-Dist")])
"""
CLEAN = {"PYTHONPATH": "", "LD_LIBRARY_PATH": "", "RIGZUMAL_LIBRARY": ""}
ARM64 = {"ARCH": "arm64"}
OVER_LIBRARY = {**CLEAN, "LD_LIBRARY_PATH": str(LIBRARIES)}


def make(*words):
    return run("make", *words, at=PYTHON)


def check_hashing(python, env, room):
    """A Python hashes with the package below this folder."""
    output = run(python, "-c", HASHES, env=env, at=ROOM)
    assert output.startswith("True ") and str(room) in output, output


def check_record(wheel):
    """Each file of a wheel has its line in RECORD, with its digest and its size."""
    with zipfile.ZipFile(wheel) as archive:
        (record,) = [name for name in archive.namelist() if name.endswith("/RECORD")]
        lines = set(archive.read(record).decode().splitlines())
        wanted = {f"{record},,"}
        for name in set(archive.namelist()) - {record}:
            data = archive.read(name)
            digest = base64.urlsafe_b64encode(hashlib.sha256(data).digest()).decode().rstrip("=")
            wanted.add(f"{name},sha256={digest},{len(data)}")
        assert lines == wanted, lines ^ wanted
        return {name for name in archive.namelist() if ".dist-info/" not in name}


def new_environment(name):
    """An empty virtual environment."""
    room = ROOM / name
    try:
        run(sys.executable, "-m", "venv", room)
    except AssertionError:
        raise lacking("Python's module ensurepip") from None
    return room


class Package(unittest.TestCase):
    def test_installed(self):
        """Python uses the files of `make install`, with and without DESTDIR."""
        prefix, room = ROOM / "installed", ROOM / "destination"
        make("install", f"PREFIX={prefix}")
        make("install", f"DESTDIR={room}", "PREFIX=/opt/rigzumal")
        for folder, noted in ((prefix, {NOTED}), (room / "opt/rigzumal", set())):
            with self.subTest(folder=folder):
                wanted = {f"{INSTALLED}/{it}" for it in FILES} | OTHERS | noted
                self.assertEqual(files_below(folder), wanted)
        env = {**OVER_LIBRARY, "PYTHONPATH": str(prefix / INSTALLED)}
        check_hashing(sys.executable, env, prefix)
        names = "import rigzumal.argon2_cffi as it; print(it)"
        self.assertIn(str(prefix), run(sys.executable, "-c", names, env=env, at=ROOM))
        command = (prefix / "bin/rigzumal", "hash", "--memory", "8", "--lanes", "1")
        self.assertIn("$argon2id$", run(*command, given="x", env=env, at=ROOM))

    @each((), ("/of_another.py", "/django/of_another.py"))
    def test_uninstalled(self, others):
        """`make uninstall` removes the files of `make install`, and no others: the folder's path
        has a space, and the files before it are another's."""
        room, another = ROOM / "uninstalled here", ROOM / "uninstalled"
        another.mkdir(exist_ok=True)
        words = (f"DESTDIR={room}", "PREFIX=/opt/rigzumal")
        packages = room / "opt/rigzumal" / INSTALLED
        make("install", *words)
        run(sys.executable, "-m", "compileall", "-q", packages)
        for name in others:
            (packages / f"rigzumal{name}").write_text("of another")
        make("uninstall", *words)
        wanted = {f"opt/rigzumal/{INSTALLED}/rigzumal{name}" for name in others}
        self.assertEqual(files_below(room), wanted)
        self.assertEqual((packages / "rigzumal").exists(), bool(others))
        self.assertTrue(another.exists())

    @each(
        "crates.txt",
        "crates/low/src/lib.rt",
        "crates/low/src",
        "c/Makefile",
        "c/src/one.c",
        "c/proved/library.sum",
    )
    def test_sources_of_the_library(self, changed):
        """make builds the library again if any source is newer than the library, such as one of a
        crate, which make may refuse."""
        top = pathlib.Path(tempfile.mkdtemp(dir=ROOM))
        for name in ("c/out/librigzumal.so.1", changed):
            (top / name).parent.mkdir(parents=True, exist_ok=True)
            if (top / name).suffix or name == "c/Makefile":
                (top / name).touch()
        (top / "crates/low/src").mkdir(parents=True, exist_ok=True)
        asked = f"""import os, pathlib, build_backend as it
top = pathlib.Path({str(top)!r})
it.OUT, it.LIBRARY = top / "c/out", top / "c/out/librigzumal.so.1"
(top / "c/Makefile").touch(), (top / "crates.txt").touch()
for path in top.rglob("*"):
    os.utime(path, (1, 1))
print(it.is_built(top))
os.utime(top / {changed!r}, (2, 2))
print(it.is_built(top))"""
        self.assertEqual(run(sys.executable, "-c", asked, at=PYTHON), "True\nFalse\n")

    def test_wheel(self):
        """A virtual environment with the wheel alone imports and hashes, from nothing."""
        for wheel in (PYTHON / "out").glob("*.whl"):
            wheel.unlink()
        make("wheel")
        (wheel,) = (PYTHON / "out").glob("*.whl")
        self.assertTrue(wheel.name.endswith("-py3-none-manylinux_2_34_x86_64.whl"), wheel.name)
        self.assertEqual(check_record(wheel), {*FILES, "rigzumal/librigzumal.so.1"})
        room = new_environment("venv")
        pip = (room / "bin/pip", "install", "-q", "--no-index", "--force-reinstall")
        for what in (wheel, PYTHON):
            run(*pip, what, env=CLEAN)
            check_hashing(room / "bin/python", CLEAN, room)
            self.check_metadata(room / "bin/python")

    def check_metadata(self, python):
        """An installed package has the classifiers and the extras of pyproject.toml: the first keep
        the package from public registries."""
        project = tomllib.loads((PYTHON / "pyproject.toml").read_text())["project"]
        extras, kinds = project["optional-dependencies"], project["classifiers"]
        needed = [f'{it}; extra == "{extra}"' for extra, all in extras.items() for it in all]
        self.assertIn("Private :: Do Not Upload", kinds)
        said = run(python, "-c", METADATA, env=CLEAN, at=ROOM)
        self.assertEqual(ast.literal_eval(said), [kinds, [*extras], needed])

    def test_wheel_for_arm64(self):
        """The wheel hashes in Debian's Python for ARM64, which tests/arm64/root.sh of c
        unpacked."""
        need("qemu-aarch64")
        library, root = LIBRARIES / "arm64/librigzumal.so.1", LIBRARIES / "arm64/root/at"
        need_file(library, root)
        room = ROOM / "arm64"
        room.mkdir()
        wheel = room / run(sys.executable, PYTHON / "build_backend.py", room, env=ARM64).strip()
        self.assertTrue(wheel.name.endswith("-py3-none-manylinux_2_34_aarch64.whl"), wheel.name)
        self.assertEqual(check_record(wheel), {*FILES, "rigzumal/librigzumal.so.1"})
        with zipfile.ZipFile(wheel) as archive:
            archive.extractall(room)
        emulated = ("qemu-aarch64", "-L", root, root / "usr/bin/python3", "-c", HASHES)
        env = {**CLEAN, "PYTHONHOME": str(root / "usr"), "PYTHONPATH": str(room)}
        self.assertTrue(run(*emulated, env=env, at=ROOM).startswith("True "))

    def test_editable(self):
        """After `pip install -e` Python imports the folder itself; a removal leaves nothing."""
        room = new_environment("editable")
        python = room / "bin/python"
        run(room / "bin/pip", "install", "-q", "--no-index", "-e", PYTHON, env=CLEAN)
        check_hashing(python, CLEAN, PYTHON)
        run(room / "bin/pip", "uninstall", "-q", "-y", "rigzumal", env=CLEAN)
        run(python, "-c", "import rigzumal", env=CLEAN, at=ROOM, status=1)

    def test_deb(self):
        """Debian's package holds its files and no others, and hashes; tests/packages asks
        lintian."""
        need("dpkg-deb", "dpkg-shlibdeps")
        for deb in (PYTHON / "out").glob("*.deb"):
            deb.unlink()
        make("deb")
        (deb,) = (PYTHON / "out").glob("*.deb")
        room = ROOM / "deb"
        run("dpkg-deb", "-R", deb, room)
        held = {it for it in files_below(room) if not it.startswith(("DEBIAN/", "usr/share/doc/"))}
        ours = {f"usr/lib/python3/dist-packages/{it}" for it in FILES}
        others = {it.replace("site-functions", "vendor-completions") for it in OTHERS}
        others = {f"usr/{it}".replace("rigzumal.1", "rigzumal.1.gz") for it in others}
        self.assertEqual(held, ours | others)
        for script, program in SCRIPTS.items():
            with self.subTest(script=script):
                text = (room / "DEBIAN" / script).read_text()
                self.assertIn(f"{program} -p python3-rigzumal", text)
        self.assertIn(f"librigzumal1 (>= {VERSION})", run("dpkg-deb", "-f", deb, "Depends"))
        packages = str(room / "usr/lib/python3/dist-packages")
        check_hashing("/usr/bin/python3", {**OVER_LIBRARY, "PYTHONPATH": packages}, room)

    def test_types_of_a_reply(self):
        """mypy reports a reply of accounts that is used as a truth value."""
        need("mypy")
        file = ROOM / "let_in.py"
        file.write_text(LETS_IN)
        words = ("mypy", "--enable-error-code=truthy-bool", f"--cache-dir={ROOM / 'mypy'}", file)
        output = run(*words, env={"MYPYPATH": str(PYTHON)}, status=1)
        (found,) = [line for line in output.splitlines() if "[truthy-bool]" in line]
        self.assertIn(":4: error:", found)

    def test_types_of_the_login_page(self):
        """mypy --strict accepts the login page, as far as libraries without stubs allow."""
        need("mypy")
        need_module("flask")
        # Of waitress it knows that there are stubs, which nobody needs to have.
        loose = ("--ignore-missing-imports", "--disable-error-code=import")
        words = ("mypy", "--strict", *loose, f"--cache-dir={ROOM / 'mypy'}", "login_page.py")
        run(*words, at=TOP / "examples/login_page", env={"MYPYPATH": str(PYTHON)})
