"""Tests of bin/credkeep-server: a full disk under the book refuses changes, and lets users in."""

import base64
import hashlib
import os
import pathlib
from typing import Any

from served import CHEAP, FAST_BOOK, TOP, Case, Service, chosen_book, need_module, need_root
from served import real_book
from tests.helpers import ended, small_disk
from transfer_case import text_of

SIZE = 64 << 20  # bytes
# Each change of the book, of an account with the password `secret`.
CHANGES = """
    admin account bob -> bad 19 disk
    admin change ada {secret} {fresh} -> bad 19 disk
    admin change ada {wrong} {fresh} -> bad 19 disk
    admin reset ada {fresh} -> bad 19 disk
    admin enrol ada {fresh} -> bad 19 disk
    admin upgrade ada {secret} -> bad 19 disk
    admin remove ada {secret} -> bad 19 disk
    admin disable ada -> bad 19 disk
    admin disable ada show -> bad 19 disk
    admin delete ada -> bad 19 disk
    admin rename ada eve -> bad 19 disk
    admin lock ada -> bad 19 disk
    admin unlock ada -> bad 19 disk
    admin expire ada -> bad 19 disk
    login change zoe {secret} {fresh} -> bad 19 disk
"""
LOGINS = """
    login verify ada {secret} -> yes
    login verify ada {wrong} -> no
    login verify zoe {wrong} -> noaccount
    login known ada -> yes
    admin login ada {secret} -> yes
"""


def fill(folder: pathlib.Path, left: int) -> None:
    """Leaves so many bytes of a disk, or a page fewer."""
    with open(folder / "filler", "ab") as filler:
        found = os.statvfs(folder)
        size = max(0, found.f_bavail * found.f_frsize - left)
        os.posix_fallocate(filler.fileno(), os.fstat(filler.fileno()).st_size, max(size, 1))


class FullDisks(Case):
    def disk(self, options: str = f"size={SIZE}", kind: str = "tmpfs") -> pathlib.Path:
        """A small disk, which goes once the servers over it have ended."""
        need_root()
        return self.enterContext(small_disk(self.room() / "disk", options, kind))

    def over(self, folder: pathlib.Path, *options: str, **fields: Any) -> Service:
        given = {"program": chosen_book(), "file": folder / "users.db", **fields}
        return self.serving("--setting", CHEAP, "--tries", "0", *options, **given)

    def test_changes_are_refused(self) -> None:
        """The server refuses each change that might find no room, also on a disk without a free
        block. Logins go on, and so do changes once there is room."""
        folder = self.disk()
        service = self.over(folder).enrol(ada="secret")
        for left in (4 << 20, 0):
            with self.subTest(left=left):
                fill(folder, left)
                service.talk(CHANGES)
                service.talk(LOGINS)
        self.assertEqual(service.stats()["disk"], 2 * len(CHANGES.split("\n")[1:-1]))
        self.assertEqual(service.log().count("its disk has less than 8192 KiB left"), 1)
        ask = [str(TOP / "bin/credkeep-ask"), "--server", str(service.path("admin"))]
        refused = "credkeep-ask: the server refused disable: disk (19; see docs/ERRORS.md)\n"
        self.assertEqual(ended([*ask, "disable", "ada"]), (5, "", refused))
        (folder / "filler").unlink()
        service.talk("login change ada {secret} {fresh} -> replaced")
        service.stop()

    def test_imports(self) -> None:
        """An import that may find no room doesn't begin. One that finds none adds nobody, and the
        book opens again on the full disk: logins go on."""
        folder = self.disk()
        service = self.over(folder, program=real_book()).enrol(ada="secret")
        admin, text = service.client("admin"), text_of(100_000)  # more than the log's room
        self.assertEqual(admin.ask(f"import {SIZE}"), "bad 19 disk")
        self.assertEqual(admin.ask(f"import {len(text)}"), f"send {len(text)}")
        fill(folder, 0)
        admin.send(text)
        self.assertRegex(admin.line(), rb"^t2 ended 5 0 \d+$")
        self.assertIn(b"database or disk is full", admin.line())
        service.talk(LOGINS)
        self.assertEqual(admin.ask("export"), "bad 19 disk")
        (folder / "filler").unlink()
        service.talk("login change ada {secret} {fresh} -> replaced\nadmin list - 9 -> names ada")
        service.stop()

    def test_the_audit_log(self) -> None:
        """No change is stored that the audit log can't note; logins go on without their lines."""
        folder = self.disk()
        audit = folder / "audit"
        service = self.over(self.room(), "--audit", str(audit)).enrol(ada="secret")
        for left in (4 << 20, 0):
            with self.subTest(left=left):
                fill(folder, left)
                service.talk(CHANGES)
                service.talk(LOGINS)
        self.assertEqual(service.log().count(f"{audit}: its disk has less than 8192 KiB left"), 1)
        (folder / "filler").unlink()
        service.talk("login change ada {secret} {fresh} -> replaced")
        self.assertIn('"operation": "change"', audit.read_text())

    def test_a_link_to_the_book(self) -> None:
        """The disk of the book itself counts, and not that of a link to it."""
        folder, links = self.disk(), self.room()
        self.over(folder).enrol(ada="secret").stop()
        (links / "users.db").symlink_to(folder / "users.db")
        service = self.over(folder, file=links / "users.db")
        fill(folder, 0)
        service.talk("admin account bob -> bad 19 disk")
        service.talk(LOGINS)

    def test_marks_stay(self) -> None:
        """Even without a free block each door heeds the existing marks."""
        folder = self.disk()
        service = self.over(folder).enrol(ada="secret", bob="secret")
        service.talk("admin lock ada -> locked\nadmin expire bob -> expired")
        fill(folder, 0)
        service.talk(
            """
            login known ada -> absent
            login verify ada {secret} -> no
            admin login ada {secret} -> no
            login known bob -> expired
            login verify bob {secret} -> expired
            login change bob {secret} {fresh} -> bad 19 disk
            admin login bob {secret} -> expired
            admin marks - 10 -> marks ada:! bob:~
            """
        )

    def test_upgrades(self) -> None:
        """A login whose record needs an upgrade gets its answer; a later login upgrades the
        record."""
        costs = "$fast$c=2"
        fast: Any = {"program": FAST_BOOK}
        folder = self.disk()
        self.over(folder, **fast).enrol(ada="secret").stop()
        fill(folder, 0)
        service = self.over(folder, "--upgrade", costs, **fast)
        for _ in range(3):
            service.talk(LOGINS)
        self.assertEqual(service.stats()["upgraded"], 0)
        (folder / "filler").unlink()
        service.talk("admin login ada {secret} -> yes")
        self.assertTrue(service.client("admin").ask("show ada").startswith(costs))

    def test_users_of_an_old_file(self) -> None:
        """Users of an old file log in by their old records, and move once there is room."""
        need_module("passlib.hash")
        digest = base64.b64encode(hashlib.sha1(b"secret").digest()).decode()
        old = self.room() / "htpasswd"
        old.write_text(f"ada:{{SHA}}{digest}\nann:{{SHA}}{digest}:1:0:1:::\n")
        folder = self.disk()
        service = self.over(folder, "--foreign", str(old))
        fill(folder, 0)
        service.talk(
            """
            login verify ada {secret} -> yes
            login verify ada {wrong} -> no
            login verify ann {secret} -> expired
            login change ann {secret} {fresh} -> bad 19 disk
            admin disable ada -> bad 19 disk
            admin lock ada -> bad 19 disk
            admin expire ada -> bad 19 disk
            login verify ada {secret} -> yes
            admin show ada -> bad 5 noaccount
            """
        )
        self.assertEqual((old.parent / "htpasswd.moved").read_text(), "")
        (folder / "filler").unlink()
        service.talk("login verify ada {secret} -> yes")
        self.assertTrue(service.client("admin").ask("show ada").startswith("$"))

    def test_a_disk_without_a_size(self) -> None:
        """A filesystem that names no size counts as one with room."""
        folder = self.disk("mode=0755", "ramfs")
        self.assertEqual(os.statvfs(folder).f_bavail, 0)
        self.over(folder).enrol(ada="secret").talk(LOGINS)
