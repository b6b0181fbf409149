"""Tests of bin/credkeep-server: the room for the book's log, which the server allocates ahead, so
that nobody who fills the disk ends the book."""

import os
import signal
import time
from typing import Any

from served import CHEAP, FRESH, PYTHON, SECRET, Case, Service, need, need_root, real_book, until
from test_full_disks import CHANGES, LOGINS, fill
from tests.helpers import small_disk
from transfer_case import LINE

ROOM = 6 << 20  # bytes
FULL = "fallocate failed: No space left on device"
QUOTA = "fallocate failed: Disk quota exceeded"
UNABLE = "fallocate failed: keep size mode is unsupported"
# Runs the server, whose disks always seem to have space.
SEES_SPACE = """
import os, runpy, sys, types
os.statvfs = lambda _: types.SimpleNamespace(f_blocks=0)
del sys.argv[:2]
runpy.run_path(sys.argv[0], run_name="__main__")
"""
# In place of fallocate: notes each call, waits while the file `wait` exists, and fails with the
# text in the file `fault`, if it exists.
STAND_IN = """#!/bin/sh
echo "$*" >> {room}/calls
while [ -e {room}/wait ]; do sleep 0.05; done
[ ! -e {room}/fault ] || {{ echo "fallocate: $(cat {room}/fault)" >&2; exit 1; }}
"""


class LogRoom(Case):
    def setUp(self) -> None:
        self.folder = self.room()
        self.log = self.folder / "users.db-wal"
        self.log.touch()  # which the tests' book lacks

    def over(self, *options: str, **fields: Any) -> Service:
        """A server over the tests' book, with a program in place of fallocate."""
        program, path = self.folder / "fallocate", f"{self.folder}:{os.environ['PATH']}"
        program.write_text(STAND_IN.format(room=self.folder))
        program.chmod(0o755)
        given = {"PATH": path}
        return self.serving(*options, folder=self.folder, environment=given, **fields)

    def calls(self) -> int:
        lines = (self.folder / "calls").read_text().splitlines()
        self.assertEqual({*lines}, {f"--keep-size --length {ROOM} {self.log}"})
        return len(lines)

    def test_at_the_start_and_after_an_import(self) -> None:
        """The server allocates the room of each new log once, and that of a link's book at the
        book."""
        self.over().enrol(ada="secret").stop()
        self.assertEqual(self.calls(), 1)
        link = self.room() / "link.db"
        link.symlink_to(self.folder / "users.db")
        service = self.over(file=link)
        admin = service.client("admin")
        for count in (2, 3, 4):
            self.assertEqual(self.calls(), count)
            admin.ask(f"import {len(LINE)} --skip-existing")
            admin.send(LINE)
            self.assertRegex(admin.line(), b" ended 0 ")
            admin.line()
            service.talk("login verify ada {secret} -> yes\nadmin reset ada {secret} -> replaced")
        service.stop()

    def test_no_room_at_the_start(self) -> None:
        """The server refuses changes, and lets users in, until the room is there: each change tries
        again."""
        self.serving(folder=self.folder).enrol(ada="secret").stop()
        (self.folder / "fault").write_text(FULL)
        service = self.over("--tries", "0")
        self.assertIn(f"{self.log}: fallocate: {FULL}\n", service.log())
        for fault in (FULL, QUOTA):
            (self.folder / "fault").write_text(fault)
            service.talk(CHANGES)
            service.talk(LOGINS)
        self.assertGreater(self.calls(), 2 * len(CHANGES.strip().splitlines()))
        (self.folder / "fault").unlink()
        service.talk("login change ada {secret} {fresh} -> replaced")
        count = self.calls()
        service.talk("login change ada {fresh} {secret} -> replaced")
        self.assertEqual(self.calls(), count)

    def test_no_room_after_an_import(self) -> None:
        """An import's new accounts are there, and changes wait for room."""
        service = self.over().enrol(ada="secret")
        (self.folder / "fault").write_text(FULL)
        admin = service.client("admin")
        admin.ask(f"import {len(LINE)}")
        admin.send(LINE)
        self.assertRegex(admin.line(), b" ended 0 ")
        admin.line()
        service.talk("admin known bob -> yes\nadmin disable bob -> bad 19 disk")
        (self.folder / "fault").unlink()
        service.talk("admin disable bob -> disabled")

    def test_a_disk_that_hangs(self) -> None:
        """An allocation that doesn't end counts as no room: users log in, and changes are
        refused."""
        self.serving(folder=self.folder).enrol(ada="secret").stop()
        (self.folder / "wait").touch()
        service = self.over("--tries", "0")
        self.assertIn(f"{self.log}: fallocate hangs\n", service.log())
        service.talk("login verify ada {secret} -> yes\nadmin disable ada -> bad 19 disk")
        (self.folder / "wait").unlink()
        service.talk("admin disable ada -> disabled")

    def test_a_book_that_ends_meanwhile(self) -> None:
        """If the book ends while the room of its new log is being allocated, so does the server."""
        service = self.over().enrol(ada="secret")
        (self.folder / "wait").touch()
        admin, client = service.both()[::-1]
        admin.send(f"a import {len(LINE)}\n{LINE}")
        until(lambda: self.calls() == 2, "the second room")
        client.send(f"a verify ada {SECRET}\n")
        client.wait_until_read()
        os.kill(service.book_pid(), signal.SIGKILL)
        time.sleep(0.3)
        (self.folder / "wait").unlink()
        self.assertEqual(client.line(), b"a unavailable")
        self.assertEqual(service.ended()[0], 128 + signal.SIGKILL)

    def test_a_disk_that_allocates_nothing_ahead(self) -> None:
        """Where the filesystem or the machine can't do it, the server does without."""
        (self.folder / "fault").write_text(UNABLE)
        service = self.over().enrol(ada="secret")
        self.assertIn(UNABLE, service.log())
        self.assertEqual(self.calls(), 1)
        service.stop()
        nowhere = {"PATH": "/nonexistent"}
        service = self.serving(folder=self.folder, environment=nowhere).enrol(bob="secret")
        self.assertIn("fallocate: No such file or directory\n", service.log())

    def test_blocks(self) -> None:
        """The log has so many blocks, and its size stays."""
        need_root()
        need("fallocate")
        disk = self.enterContext(small_disk(self.room() / "disk", "size=32M"))
        log = disk / "users.db-wal"
        log.write_bytes(b"x")
        self.serving(file=disk / "users.db").stop()
        found = log.stat()
        self.assertEqual((found.st_size, found.st_blocks * 512), (1, ROOM))

    def test_a_disk_that_somebody_fills(self) -> None:
        """credkeep goes on though the disk has no free block when changes come, as after a look at
        the disk that saw some."""
        need_root()
        given: Any = {"program": real_book(), "before": (PYTHON, "-c", SEES_SPACE)}
        disk = self.enterContext(small_disk(self.room() / "disk", "size=32M"))
        service = self.serving("--setting", CHEAP, file=disk / "users.db", **given)
        service.enrol(ada="secret")
        fill(disk, 0)
        client = service.client()
        for _ in range(400):  # beyond one whole log
            for old, new in ((SECRET, FRESH), (FRESH, SECRET)):
                self.assertEqual(client.ask(f"change ada {old} {new}"), "replaced")
        service.stop()
