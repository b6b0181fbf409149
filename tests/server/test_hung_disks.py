"""Tests of bin/credkeep-server: a disk that hangs, under the audit log or under the book."""

import json
import os
import pathlib
import signal

from served import FRESH, SECRET, Case, need, need_root, until
from tests.helpers import run
from tests.needs import need_file

BYTES = 16 << 20  # of the disk
LOGINS, TOGETHER, MOST_LINES = 6000, 30, 4096


class Disk:
    """A disk of its own in a file, which can hang."""

    def __init__(self, case: Case) -> None:
        need_root()
        need("fsfreeze", "losetup", "mkfs.ext4")
        need_file("/dev/loop-control")
        room = case.room()
        self.case, self.hangs = case, False
        image, self.folder = room / "image", room / "disk"
        self.folder.mkdir()
        with open(image, "wb") as file:
            file.truncate(BYTES)
        run("mkfs.ext4", "-q", "-F", image)
        run("mount", "-o", "loop", image, self.folder)
        case.addCleanup(run, "umount", "--lazy", self.folder)

    def hang(self) -> None:
        """Freezes it: each write waits in the kernel, where no signal ends it. It goes on before
        the servers are ended that the test has begun."""
        run("fsfreeze", "--freeze", self.folder)
        self.hangs = True
        self.case.addCleanup(self.go_on)

    def go_on(self) -> None:
        if self.hangs:
            run("fsfreeze", "--unfreeze", self.folder)
            self.hangs = False


def writer_of(pid: int) -> int:
    """The process that writes a server's audit log."""
    children = pathlib.Path(f"/proc/{pid}/task/{pid}/children").read_text().split()
    words = {it: pathlib.Path(f"/proc/{it}/cmdline").read_bytes() for it in children}
    (writer,) = (int(it) for it in children if b"appending.py" in words[it])
    return writer


def has_ended(pid: int) -> bool:
    """Whether a process waits for its parent alone."""
    return pathlib.Path(f"/proc/{pid}/stat").read_text().rpartition(")")[2].split()[0] == "Z"


def notes(path: pathlib.Path) -> int:
    """The number of whole lines of an audit log."""
    whole, _, _ = path.read_text().rpartition("\n")
    return len([json.loads(line) for line in whole.splitlines()])


class HungDisks(Case):
    def test_an_audit_log(self) -> None:
        """Logins go on, and no more lines wait than the log says; then no change is stored. Changes
        go on once the disk does."""
        disk = Disk(self)
        audit = disk.folder / "audit"
        service = self.serving("--audit", str(audit), "--tries", "0").enrol(ada="secret")
        client, admin = service.both()
        disk.hang()
        for _ in range(LOGINS // TOGETHER):
            client.send(f"a verify ada {SECRET}\n" * TOGETHER)
            self.assertEqual(client.lines(TOGETHER), [b"a yes"] * TOGETHER)
        admin.talk("account bob -> unavailable\nknown bob -> noaccount")
        self.assertEqual(service.log().count("its disk hangs: 4096 lines wait"), 1)
        disk.go_on()
        until(lambda: notes(audit) > MOST_LINES, "the lines that waited", 60)
        admin.talk("account bob -> ok")
        # Those that waited, what was being written as it began to hang, and three changes.
        self.assertIn(notes(audit), range(MOST_LINES + 3, MOST_LINES + 3 + 2 * TOGETHER))
        service.stop()
        lacking = LOGINS + 4 - notes(audit)  # of the change that wasn't made too
        self.assertIn(f"{audit} lacks {lacking} lines", service.log())

    def test_an_end(self) -> None:
        """The server ends while the disk still hangs, and logs the number of lost lines."""
        disk = Disk(self)
        audit = disk.folder / "audit"
        service = self.serving("--audit", str(audit)).enrol(ada="secret")
        disk.hang()
        service.client().talk("verify ada {secret} -> yes")
        service.stop()
        self.assertIn(f"{audit} lacks 1 lines", service.log())

    def test_an_end_of_a_book(self) -> None:
        """The server ends though its book can't: no signal ends a process that such a write holds
        up."""
        disk = Disk(self)
        service = self.serving(file=disk.folder / "users.db").enrol(ada="secret")
        disk.hang()
        client = service.client()
        client.send(f"a change ada {SECRET} {FRESH}\n")
        until(lambda: f"change ada {SECRET} {FRESH}" in service.asked(), "the line")
        service.process.terminate()
        status, log = service.ended()
        self.assertEqual(status, 128 + signal.SIGKILL)
        self.assertIn("the server can't kill the book's process: its disk hangs", log)
        self.assertEqual(client.line(), b"")

    def test_a_killed_writer(self) -> None:
        """The process that writes the log is begun anew at the next line."""
        audit = self.room() / "audit"
        service = self.serving("--audit", str(audit))
        admin = service.client("admin")
        admin.talk("account ada -> ok")
        for name in ("bob", "cid"):
            writer = writer_of(service.process.pid)
            os.kill(writer, signal.SIGKILL)
            until(lambda: has_ended(writer), "its end")
            admin.talk(f"account {name} -> ok")
        self.assertEqual(notes(audit), 3)
