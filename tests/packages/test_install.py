"""The files of `make install` and `make deb`, which work in their places. The tests need root, and
the output of `make`."""

import pathlib
import re
import shutil
import sys

from tests import helpers
from tests.helpers import TOP, files_below, need, need_root, run
from tests.needs import need_file

PROGRAMS = ("credbook", "credkeep")
VERSION = (TOP / "VERSION").read_text().strip()
# A page's C that is no program by itself: its lines after the first, over a password of their own.
MAIN = """#include <rigzumal.h>
int main(void) {
    const unsigned char password[] = "secret";
    size_t size = sizeof password - 1;
    %s
    return 1;
}
"""
# Each change of /usr, /etc, /var and /lib goes into a folder of memory that nobody else sees.
NAMESPACE = r"""
set -eu
mount -t tmpfs none "$ROOM"
for it in usr etc var lib; do
    [ ! -L "/$it" ] || continue  # lib is a link into usr, or a folder
    mkdir "$ROOM/$it" "$ROOM/$it.work"
    mount -t overlay overlay -o "lowerdir=/$it,upperdir=$ROOM/$it,workdir=$ROOM/$it.work" "/$it"
done
"""
INSTALLED = r"""
# A copy of the tree.
PATH=/usr/local/bin:$PATH
mkdir "$ROOM/top" "$ROOM/top.work" "$ROOM/at"
mount -t overlay overlay -o "lowerdir=$TOP,upperdir=$ROOM/top,workdir=$ROOM/top.work" "$TOP"
(umask 077; make -s -C "$TOP" install > "$ROOM/log" 2>&1) || { cat "$ROOM/log"; exit 1; }
cd "$ROOM/at"
find "$ROOM/usr" ! -perm -o=r -printf 'not for everybody: %p\n'
"""
USED = r"""
/usr/bin/python3 -c 'import rigzumal; print(rigzumal.__file__)'
/usr/bin/python3 -c "$SAMPLE"
printf %s "$C_SAMPLE" > service.c
cc service.c -lrigzumal -o service
./service && echo "C sample: status $?"
credkeep users.db init
printf 'secret\n' | credkeep users.db add ada
printf 'secret\n' | credkeep users.db check ada
printf 'account a\n' | credbook run
/usr/local/sbin/credkeep-server --help | head -n 1
grep ^ExecStart= /usr/local/lib/systemd/system/credkeep-server@.service
man -w credkeep-ask rigzumal-script 2>/dev/null | wc -l
/usr/bin/python3 -c '
import ctypes
ctypes.CDLL("/usr/lib/x86_64-linux-gnu/security/pam_rigzumal.so")
print("module loads")'
ls /usr/local/share/bash-completion/completions/credkeep
ls /usr/local/share/zsh/site-functions/_credkeep
make -s -C "$TOP" uninstall > /dev/null
find "$ROOM/usr" ! -type d
"""
USES = f"""/usr/local/lib/python{sys.version_info.major}.*/rigzumal/__init__.py
C sample: status 0
enrolled
yes
ok
usage: credkeep-server .*
ExecStart=/usr/local/sbin/credkeep-server .*
2
module loads
/usr/local/share/bash-completion/completions/credkeep
/usr/local/share/zsh/site-functions/_credkeep
"""
# The packages by dpkg, from their first day to a purge. systemctl and deb-systemd-invoke only say
# their words, and nothing of the machine's own systemd is in /run.
DPKG = r"""
mount -t tmpfs none /run
mkdir -p /run/systemd/system "$ROOM/bin" && PATH=$ROOM/bin:$PATH
for it in systemctl deb-systemd-invoke; do
    printf '#!/bin/sh\necho "${0##*/} $*" >> "%s/calls"\n' "$ROOM" > "$ROOM/bin/$it"
done
chmod 755 "$ROOM/bin"/*
quietly() { "$@" > "$ROOM/log" 2>&1 || { cat "$ROOM/log"; exit 1; }; }
chosen() { grep -l pam_rigzumal /etc/pam.d/common-* | sed 's/.*-/chosen: /'; }
calls() { grep -E "$1" "$ROOM/calls" && : > "$ROOM/calls"; }
folder() { stat -c '%a %U %G' /var/lib/rigzumal; }
quietly dpkg --no-triggers --purge libpam-rigzumal rigzumal-tools && rm -rf /var/lib/rigzumal
quietly pam-auth-update --package --force  # whatever an administrator changed
quietly dpkg --no-triggers -i "$TOOLS" "$MODULE"
folder
calls '^systemctl .*reload$' | uniq
ls /usr/share/pam-configs/rigzumal && chosen
quietly pam-auth-update --package --enable rigzumal
chosen
quietly dpkg --no-triggers -r libpam-rigzumal
echo removed && chosen
touch /var/lib/rigzumal/users.db
quietly dpkg --no-triggers --purge libpam-rigzumal rigzumal-tools
calls '^deb-systemd-invoke'
ls -A /var/lib/rigzumal && folder
quietly dpkg --no-triggers -i "$TOOLS" && quietly dpkg --no-triggers -i "$TOOLS"
calls '^deb-systemd-invoke'
rm /var/lib/rigzumal/users.db
quietly dpkg --no-triggers --purge rigzumal-tools
ls -A /var/lib | grep rigzumal || echo nothing left
"""
STEPS = """700 rigzumal rigzumal
systemctl --system daemon-reload
/usr/share/pam-configs/rigzumal
chosen: account
chosen: auth
chosen: password
removed
deb-systemd-invoke stop credkeep-server@*.socket credkeep-server-admin@*.socket \
credkeep-server-http@*.socket credkeep-server@*.service
users.db
700 rigzumal rigzumal
deb-systemd-invoke try-restart credkeep-server@*.service
nothing left
"""


def in_namespace(script, **env):
    """Returns the output of a shell's script whose changes of the machine nobody else sees."""
    words = ("unshare", "--mount", "--propagation", "private", "sh", "-c", NAMESPACE + script)
    return run(*words, env=env)


def sample(page, language, word):
    """The first piece of code of a page that has a word."""
    found = re.findall(rf"^```{language}\n(.*?)^```", (TOP / page).read_text(), re.S | re.M)
    return next(it for it in found if word in it)


def program_of_readme():
    """README's C as a program, whose status is 0 if the record that it makes is verified."""
    code = sample("README.md", "c", "rigzumal.h")
    if "main(" in code:
        return code
    return MAIN % code.partition("\n")[2].replace("...", "return 0;")


# A processor, where its library is built, its name in folders, and what runs its programs here.
LIBRARIES = (
    ("amd64", "c/out", "x86_64-linux-gnu", ()),
    ("arm64", "c/out/arm64", "aarch64-linux-gnu", ("qemu-aarch64", "-L", "/usr/aarch64-linux-gnu")),
)
# What a package needs, and what it has below /usr.
PACKED = {
    "librigzumal1": ("libc6 (>= ", "lib/librigzumal.so.1", "lib/rigzumal/libargon2.so.1"),
    "librigzumal-dev": (
        f"librigzumal1 (= {VERSION})",
        *(
            "include/rigzumal.h",
            "lib/librigzumal.a",
            "lib/librigzumal.so",
            "lib/pkgconfig/rigzumal.pc",
        ),
        *(f"lib/cmake/rigzumal/rigzumal-config{it}.cmake" for it in ("", "-version")),
        "share/man/man3/rigzumal.3.gz",
    ),
}
SCRIPTS = {
    "triggers": "activate-noawait ldconfig",
    "shlibs": "librigzumal 1 ",
    "symbols": "rigzumal_check@RIGZUMAL_1 0.2.0",
}
BUILT = [TOP / "c/out/librigzumal.so.1", *(TOP / f"out/{name}" for name in PROGRAMS)]


class Install(helpers.Case):
    seconds = 1800

    def test_install_and_uninstall(self):
        """All files installed below /usr/local are found and work, and uninstall leaves nothing."""
        need_root()
        need_file(*BUILT)
        samples = {
            "SAMPLE": sample("python/README.md", "python", "PasswordHasher"),
            "C_SAMPLE": program_of_readme(),
        }
        places = {"ROOM": str(self.room()), "TOP": str(TOP), "PYTHONPATH": ""}
        env = {**places, **samples}
        self.assertRegex(in_namespace(INSTALLED + USED, **env), f"^{USES}$")


class Folders(helpers.Case):
    """Parts that are installed below an empty folder, and uninstalled."""

    seconds = 600

    def setUp(self):
        super().setUp()
        need_file(BUILT[0])
        self.top = self.room() / "at a path"
        self.prefix = self.top / "usr/local"
        self.parts = ["c", "python"]
        if pathlib.Path("/usr/include/security/pam_modules.h").exists():
            self.parts.append("c/pam")

    def make(self, part, what):
        below = {"PREFIX": "", "MANDIR": "share/man", "PAMDIR": "lib/security"}
        words = [f"{name}={self.prefix / folder}" for name, folder in below.items()]
        run("make", "-s", "-C", TOP / part, what, *words)

    def left(self):
        return sorted(str(it.relative_to(self.top)) for it in self.top.rglob("*"))

    def test_nothing_is_left(self):
        """Uninstall leaves nothing, in either order of the parts, and after a second install."""
        for parts in (self.parts, self.parts[::-1]):
            with self.subTest(parts):
                self.top.mkdir(exist_ok=True)
                for part in [*self.parts, *self.parts]:
                    self.make(part, "install")
                self.assertTrue((self.prefix / "include/rigzumal.h").exists())
                for part in parts:
                    self.make(part, "uninstall")
                self.assertEqual(self.left(), [])

    def test_programs_too(self):
        """The programs, the server, its units and all pages are there, and the top's uninstall
        leaves nothing of any part."""
        need_file(*BUILT)
        self.make(".", "install-programs")
        for part in self.parts:
            self.make(part, "install")
        units, pages = ((TOP / it).iterdir() for it in ("units", "man"))
        names = {"bin/credbook", "bin/credkeep", "bin/credkeep-ask", "sbin/credkeep-server"}
        names |= {f"lib/systemd/system/{it.name}" for it in units}
        names |= {f"share/man/man{it.suffix[1:]}/{it.name}" for it in pages}
        if "c/pam" not in self.parts:
            names -= {"share/man/man8/pam_rigzumal.8"}
        self.assertEqual(names - files_below(self.prefix), set())
        self.make(".", "uninstall")
        self.assertEqual(self.left(), [])

    def test_folders_of_others_stay(self):
        """Uninstall leaves folders that existed before, and folders with files of others."""
        (self.prefix / "share/zsh").mkdir(parents=True)
        for part in self.parts:
            self.make(part, "install")
        (self.prefix / "lib/pkgconfig/other.pc").touch()
        for part in self.parts:
            self.make(part, "uninstall")
        ours = ("lib", "lib/pkgconfig", "lib/pkgconfig/other.pc", "share", "share/zsh")
        wanted = ["usr", "usr/local", *(f"usr/local/{it}" for it in ours)]
        self.assertEqual(self.left(), wanted)

    def test_a_prefix_with_spaces(self):
        """The module's part is noted where the others are, and nothing is left."""
        self.prefix = self.top / "a prefix with spaces"
        for part in self.parts:
            self.make(part, "install")
        self.assertEqual({it.name for it in self.top.iterdir()}, {self.prefix.name})
        for part in self.parts:
            self.make(part, "uninstall")
        self.assertEqual(self.left(), [])

    def test_a_package_has_no_list(self):
        """Below DESTDIR is no list of folders, and no file names the place."""
        for part in self.parts:
            run("make", "-s", "-C", TOP / part, "install", f"DESTDIR={self.top}")
        files = files_below(self.top)
        self.assertIn("usr/local/include/rigzumal.h", files)
        for name in files:
            self.assertFalse(name.endswith("rigzumal/folders"), name)
            self.assertNotIn(bytes(self.top), (self.top / name).read_bytes(), name)


class Debs(helpers.Case):
    def setUp(self):
        super().setUp()
        need_file(BUILT[0])
        need("dpkg-shlibdeps")

    def debs(self, folder, *words):
        output = run("make", "-s", "-C", TOP / folder, "deb", *words)
        links = [it for it in (TOP / folder / "out").rglob("*") if it.is_symlink()]
        self.assertEqual(links, [])  # `rt ci` takes none in the tree
        return [pathlib.Path(it) for it in output.splitlines() if it.endswith(".deb")]

    def check(self, debs, names):
        self.assertEqual(
            [it.name for it in debs], [f"{name}_{VERSION}_{arch}.deb" for name, arch in names]
        )
        for deb in debs:
            with self.subTest(deb=deb.name):
                run("dpkg-deb", "-x", deb, room := self.room())
                (copyright_,) = room.glob("usr/share/doc/*/copyright")
                self.assertIn("There is no licence yet", copyright_.read_text())
                output = run("dpkg-deb", "-f", deb, "Version", "Depends")
                self.assertIn(f"Version: {VERSION}\n", output)
                self.assertNotIn("@", output)
        if shutil.which("lintian"):
            run("lintian", "--fail-on", "error,warning", *debs)

    def test_library(self):
        """The library for each processor: its packed files, and a program over it."""
        for arch, built, triplet, emulator in LIBRARIES:
            with self.subTest(arch):
                need_file(TOP / built / "librigzumal.so.1")
                need(f"{triplet}-gcc", "pkg-config", *emulator[:1])
                debs = self.debs("c", f"ARCH={'x86_64' if arch == 'amd64' else arch}")
                self.check(debs, [(name, arch) for name in PACKED])
                self.check_library(debs, triplet, emulator)

    def check_library(self, debs, triplet, emulator):
        room, libraries = self.room(), f"usr/lib/{triplet}"
        for deb, (name, (needs, *files)) in zip(debs, PACKED.items()):
            self.assertIn(needs, run("dpkg-deb", "-f", deb, "Depends"))
            run("dpkg-deb", "-R", deb, room / name)
            held = {it for it in files_below(room / name / "usr") if "/doc/" not in it}
            self.assertEqual(held, {it.replace("lib/", f"lib/{triplet}/") for it in files})
            run("dpkg-deb", "-x", deb, room)
        for script, line in SCRIPTS.items():
            self.assertIn(line, (room / "librigzumal1/DEBIAN" / script).read_text())
        env = {"PKG_CONFIG_PATH": str(room / libraries / "pkgconfig")}
        self.assertEqual(run("pkg-config", "--modversion", "rigzumal", env=env).strip(), VERSION)
        folders = (f"-I{room / 'usr/include'}", f"-L{room / libraries}")
        run(
            f"{triplet}-gcc",
            "c/tests/threads.c",
            "-pthread",
            *folders,
            "-lrigzumal",
            "-o",
            room / "program",
        )
        run(*emulator, room / "program", env={"LD_LIBRARY_PATH": str(room / libraries)})

    def test_symbols(self):
        """The package lists the library's symbols, each with an existing version."""
        head, *lines = (TOP / "packaging/librigzumal1/symbols").read_text().splitlines()
        self.assertEqual(head, "librigzumal.so.1 librigzumal1 #MINVER#")
        since = dict(re.fullmatch(r" (\S+) (\d+\.\d+\.\d+)", line).groups() for line in lines)
        shown = run("nm", "-D", "--defined-only", "c/out/librigzumal.so.1").split()[2::3]
        versioned = [it for it in shown if "@" in it]
        plain = [it for it in shown if "@" not in it]
        ought = {it.replace("@@", "@") for it in versioned} | {f"{it}@{it}" for it in plain}
        self.assertEqual({*since}, ought)
        for version in since.values():
            self.assertLessEqual([*map(int, version.split("."))], [*map(int, VERSION.split("."))])

    def test_python(self):
        self.check(self.debs("python"), [("python3-rigzumal", "all")])

    def test_programs(self):
        """Each unit, page and module of the server is in a package."""
        need_file(*BUILT, "/usr/include/security/pam_modules.h")
        debs = self.debs("c/pam")
        self.check(debs, [("rigzumal-tools", "amd64"), ("libpam-rigzumal", "amd64")])
        listed = "".join(run("dpkg-deb", "-c", it) for it in debs)
        modules = (TOP / "python/rigzumal/server/daemon").rglob("*.py")
        names = [f"/{it.name}\n" for it in [*(TOP / "units").iterdir(), *modules]]
        names += [
            f"/man{it.suffix[1:]}/{it.name}.gz"
            for it in (TOP / "man").iterdir()
            if it.stem != "rigzumal"
        ]
        for name in (*names, "./usr/bin/credkeep-ask", "./usr/sbin/credkeep-server"):
            with self.subTest(name=name):
                self.assertIn(name, listed)

    def test_scripts(self):
        """The maintainer scripts make the book's folder, choose no profile of PAM by themselves,
        and remove a chosen one; a purge keeps a book, and nothing else."""
        need_root()
        need("dpkg", "adduser", "pam-auth-update")
        need_file(*BUILT, "/usr/include/security/pam_modules.h")
        tools, module = self.debs("c/pam")
        env = {"ROOM": str(self.room()), "TOOLS": str(tools), "MODULE": str(module)}
        said = in_namespace(DPKG, **env, DEBIAN_FRONTEND="noninteractive")
        self.assertEqual(said, STEPS)
