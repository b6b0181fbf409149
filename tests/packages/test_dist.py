"""Packages have the same bytes, at each place and time and for each user, and the tarball of `make
dist` builds without rt. The tests need gcc and git, and for the packages dpkg-dev."""

import hashlib
import json
import os
import re
import sys
import tarfile

from tests import helpers
from tests.helpers import TOP, need, run
from tests.packages.test_without_rt import PATH, copy

sys.path.insert(0, str(TOP / "tools"))
sys.path.insert(0, str(TOP / "packaging"))
import components  # noqa: E402
import tree  # noqa: E402

VERSION = (TOP / "VERSION").read_text().strip()
NAME = f"rigzumal-{VERSION}"
GIT = ("-c", "user.name=x", "-c", "user.email=x@example.org", "-c", "safe.directory=*")
# When the tree is committed.
SECONDS = 1767323045
NOBODY = ["setpriv", "--reuid=nobody", "--regid=nogroup", "--clear-groups"]
# Two who pack: the umask of each, the command before theirs, and what else differs.
PACKERS = (
    (0o022, [], {"TZ": "UTC", "LANG": "C"}),
    (0o077, [] if os.getuid() else NOBODY, {"TZ": "Asia/Tokyo", "LANG": "C.UTF-8"}),
)


class Packer:
    """A packer, in a folder of its own."""

    def __init__(self, room, umask, before, env):
        self.room, self.umask, self.before = room, umask, before
        self.env = {"PATH": PATH, "HOME": str(room), **env}

    def run(self, at, command, status=0):
        if self.before:
            run("chown", "-R", "nobody:nogroup", self.room)
        env = ["env", "-i", *(f"{name}={value}" for name, value in self.env.items())]
        command = ["sh", "-c", f"umask {self.umask:o}; {command}"]
        return run(*self.before, *env, *command, at=at, status=status)


def sum_of(data):
    return hashlib.sha256(data).hexdigest()


class Packing(helpers.Case):
    """A test of the packages that each packer builds from a clone."""

    def setUp(self):
        super().setUp()
        need("make", "gcc", "git")
        self.packers = [
            Packer(self.room() / f"of packer {at}", *it) for at, it in enumerate(PACKERS)
        ]
        for packer in self.packers:
            packer.room.mkdir()

    def clone(self, packer):
        """A repository of the tree."""
        top = copy(packer.room / "clone")
        date = {"GIT_AUTHOR_DATE": f"{SECONDS} +0000", "GIT_COMMITTER_DATE": f"{SECONDS} +0000"}
        for words in (("init", "-q"), ("add", "-A"), ("commit", "-q", "-m", "x")):
            run("git", *GIT, *words, at=top, env=date)
        return top

    def packed(self, packer):
        """The tarball that a packer builds."""
        top = self.clone(packer)
        packer.run(top, "make -s dist")
        packer.run(top / "out", f"sha256sum -c --status {NAME}.tar.xz.sha256")
        return top / "out" / f"{NAME}.tar.xz"


class Dist(Packing):
    seconds = 900

    def test_same_bytes(self):
        """A tarball, and the wheel and the packages that are built in it."""
        one, other = (self.packed(it) for it in self.packers)
        self.assertEqual(one.read_bytes(), other.read_bytes())
        with tarfile.open(one) as archive:
            entries = archive.getmembers()
        owners = {(it.uid, it.gid, it.uname, it.gname, it.mtime) for it in entries}
        self.assertEqual(owners, {(0, 0, "", "", SECONDS)})
        self.assertEqual({it.mode for it in entries}, {0o644, 0o755})
        need("dpkg-shlibdeps")
        built = []
        for packer in self.packers:
            commands = f"tar -xf '{one}' && cd {NAME} && make && make deb wheel"
            packer.run(packer.room, commands)
            files = [*packer.room.glob(f"{NAME}/**/*.deb"), *packer.room.glob(f"{NAME}/**/*.whl")]
            built.append({it.name: sum_of(it.read_bytes()) for it in files})
        self.assertEqual(len(built[0]), 6, built[0])
        self.assertEqual(*built)

    def test_listed(self):
        """The list of packed code has each compiled file, and each crate of others with its
        licence, or the word for an unknown one."""
        with tarfile.open(self.packed(self.packers[0])) as archive:
            files = {it.name: archive.extractfile(it).read() for it in archive.getmembers()}
        listed = json.loads(files[f"{NAME}/{NAME}.spdx.json"])
        compiled = {it: data for it, data in files.items() if it.endswith(".o")}
        self.assertEqual(len(compiled), len([*(TOP / "c/proved").rglob("*.o")]))
        sums = {
            it["fileName"].replace("./", f"{NAME}/"): it["checksums"][1]["checksumValue"]
            for it in listed["files"]
        }
        self.assertEqual(sums, {it: sum_of(data) for it, data in compiled.items()})
        licences = {it["name"]: it["licenseDeclared"] for it in listed["packages"]}
        self.assertEqual(licences["base64"], "MIT OR Apache-2.0")
        self.assertEqual((licences["rigzumal"], licences["std"]), ("NONE", "NOASSERTION"))
        related = {it["relatedSpdxElement"] for it in listed["relationships"]}
        ids = {it["SPDXID"] for it in [*listed["packages"], *listed["files"]]}
        self.assertEqual(related, ids)

    def test_crates_are_listed(self):
        """Each crate of which compiled code has a symbol is among those of its part."""
        for path in sorted((TOP / "c/proved").rglob("*.o")):
            part = path.stem.replace("lanes_v", "credkeep_v").partition("_")[0]
            part = part if part.startswith("cred") else "librigzumal"
            with self.subTest(path=str(path.relative_to(TOP))):
                symbols = run("nm", "--no-demangle", path)
                found = {it for it in re.findall(r" (\w+)::", symbols)} - {*tree.listed()}
                self.assertTrue(found)
                known = {it["name"] for it in components.KNOWN["crates"] if part in it["in"]}
                self.assertEqual(found - known, set())

    def test_what_is_refused(self):
        """Changes that no commit has, and compiled code of other sources than the commit's."""
        packer = self.packers[0]
        top = self.clone(packer)
        (top / "VERSION").write_text("0.0.1\n")
        said = packer.run(top, "make -s dist", status=2)
        self.assertIn("make dist packs committed files: commit your changes first\n", said)
        (top / "crates/credkeep/src/main.rt").write_text("// changed\n")
        run("git", *GIT, "commit", "-q", "-a", "-m", "x", at=top)
        said = packer.run(top, "make -s dist", status=2)
        self.assertIn("(crates/credkeep/src/main.rt differs)", said)
        self.assertEqual([*(top / "out").glob("*.tar.xz")], [])
