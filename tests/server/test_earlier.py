"""Tests of bin/credkeep-server over a book beside which an earlier version kept its marks: the
first start writes them to the book, before anybody can log in."""

import base64
import contextlib
import errno
import hashlib
import os
import pathlib
import shutil
from collections.abc import Iterator
from typing import Any

from served import Case, Service, is_listening, need_module, need_root, until
from test_full_disks import SIZE, fill
from tests.helpers import each, run, small_disk
from tests.samples import sample

TIME = "2026-01-01T00:00:00Z"
# As an earlier version wrote it: of whom nothing is left, too.
MARKS = f"""ada lock {TIME}
bob lock {TIME}
cid expire {TIME}
bob unlock {TIME}
bob expire {TIME}
dan lock {TIME}
dan expire {TIME}
eve expire {TIME}
eve renew {TIME}
fay lock {TIME}
fay unlock {TIME}
"""
# Nobody has these: an account that was deleted meanwhile, what no account can be called, a mark of
# an account without a record that it needn't change, and what a power cut tore.
NOBODYS = f"""zoe lock {TIME}
zoe expire {TIME}
{"n" * 4000} lock {TIME}
hal expire {TIME}
ada frob {TIME}
eve {TIME}
fay lock 2026-01-0"""
TAKEN = "marks ada:! bob:~ cid:~ dan:!~"
LOGINS = """
login verify ada {secret} -> no
login verify bob {secret} -> expired
login verify cid {secret} -> expired
login verify dan {secret} -> no
login verify eve {secret} -> yes
login verify fay {secret} -> yes
"""
NAMES = ("ada", "bob", "cid", "dan", "eve", "fay")


class Earlier(Case):
    def begun(self, text: str = MARKS) -> pathlib.Path:
        """A folder with a book, and a file of marks beside it."""
        folder = self.room()
        service = self.serving(folder=folder).enrol(**dict.fromkeys(NAMES, "secret"))
        service.talk("admin account hal -> ok")
        service.stop()
        self.marks(folder).write_text(text)
        self.marks(folder).chmod(0o600)
        return folder

    def marks(self, folder: pathlib.Path) -> pathlib.Path:
        return folder / "users.db-locks"

    def check(self, folder: pathlib.Path, **fields: Any) -> str:
        """Tests that the next start takes all marks; returns its log."""
        service = self.serving("--tries", "0", folder=folder, **fields)
        self.assertFalse(self.marks(folder).exists())
        service.talk(f"admin marks - 10 -> {TAKEN}")
        service.talk(LOGINS)
        service.stop()
        return service.log()

    def test_taken(self) -> None:
        """The last marks are the book's, and those that were ended aren't. The log has their
        number, and the number of those whose account is gone."""
        folder = self.begun(MARKS + NOBODYS)
        service = self.serving("--tries", "0", folder=folder)
        gone = f"removed {self.marks(folder)}: 5 of its marks are now in the book"
        self.assertIn(f"credkeep-server: {gone}\n", service.log())
        dropped = "dropped 4 of its marks: their names have no account, or no record"
        self.assertIn(dropped, service.log())
        service.talk("admin unlock ada -> unlocked\nlogin verify ada {secret} -> yes")
        service.talk("admin lock ada -> locked")
        service.stop()
        self.assertNotIn("users.db-locks", self.check(folder))

    def test_nothing_to_take(self) -> None:
        """An empty file goes too."""
        folder = self.begun("")
        self.serving(folder=folder).talk("admin marks - 10 -> marks")
        self.assertFalse(self.marks(folder).exists())

    def test_nobody_is_let_in_before(self) -> None:
        """The sockets exist only once the book has all marks."""
        folder = self.begun()
        service = self.serving(folder=folder, faults="mute=lock", waits=False)
        self.assertIn("lock ada", asked(service))
        self.assertFalse(any(map(is_listening, (service.path(), service.path("admin")))))
        service.process.terminate()
        self.assertEqual(service.process.wait(), 0)
        self.assertIn(
            f"{self.marks(folder)} stays: the book lacks some of its marks", service.log()
        )
        self.assertNotIn("start:", service.log())
        self.check(folder)

    @each("dies", "killed", "kills")
    def test_kills(self, fault: str) -> None:
        """In place of an answer to a start the book ends, or the server is killed: the file stays
        until the book has all marks, and the next start goes on."""
        folder = self.begun()
        whole = (folder / "users.db").read_bytes()
        for answers in sample(range(self.lines_of_a_start(folder))):
            (folder / "users.db").write_bytes(whole)
            self.marks(folder).write_text(MARKS)
            service = self.serving(folder=folder, faults=f"{fault}={answers}", waits=False)
            status, log = service.ended()
            self.assertNotEqual(status, 0, log)
            self.assertTrue(self.marks(folder).exists())
            self.assertNotIn("start:", log)
            self.check(folder)

    def lines_of_a_start(self, folder: pathlib.Path) -> int:
        """The number of lines that the book gets up to the last mark."""
        before = len((folder / "asked").read_text().splitlines())
        self.check(folder)
        lines = (folder / "asked").read_text().splitlines()[before:]
        marking = [it.startswith(("lock ", "expire ")) for it in lines]
        count = len(lines) - marking[::-1].index(True)
        self.assertGreater(count, 10)
        return count

    @each("lock", "expire")
    def test_a_book_that_refuses(self, operation: str) -> None:
        """The server doesn't start, logs the reason, and keeps the file."""
        folder = self.begun()
        service = self.serving(folder=folder, faults=f"refuses={operation}", waits=False)
        status, log = service.ended()
        self.assertEqual(status, 1, log)
        self.assertIn(f"credkeep-server: the book answered {operation} by 'bad 4 memory'\n", log)
        self.assertEqual(self.marks(folder).read_text(), MARKS)
        self.check(folder)

    @contextlib.contextmanager
    def on_disk(self) -> Iterator[tuple[pathlib.Path, dict[str, Any]]]:
        """A small disk with the book and the marks, and how a server over it is started."""
        need_root()
        folder = self.begun()
        with small_disk(self.room() / "disk", f"size={SIZE}") as disk:
            for path in (folder / "users.db", self.marks(folder)):
                shutil.move(path, disk / path.name)
            yield disk, {"folder": folder, "file": disk / "users.db"}

    def test_a_full_disk(self) -> None:
        """On a full disk the server doesn't start, until there is room."""
        with self.on_disk() as (disk, given):
            fill(disk, 0)
            status, log = self.serving(waits=False, **dict(given)).ended()
            self.assertEqual(status, 1, log)
            self.assertIn("credkeep-server: the book's disk has no room for a mark\n", log)
            self.assertEqual(self.marks(disk).read_text(), MARKS)
            (disk / "filler").unlink()
            self.check(**given)
            self.assertFalse(self.marks(disk).exists())

    def test_a_file_that_cant_go(self) -> None:
        """The server doesn't start: an `unlock` would be undone at the next start."""
        with self.on_disk() as (disk, given):
            run("mount", "--bind", self.marks(disk), self.marks(disk))
            try:
                status, log = self.serving(waits=False, **dict(given)).ended()
            finally:
                run("umount", self.marks(disk))
            said = f"credkeep-server: {self.marks(disk)}: {os.strerror(errno.EBUSY)}\n"
            self.assertEqual((status, said in log, "start:" in log), (1, True, False), log)
            self.check(**given)

    def test_links_and_pipes(self) -> None:
        """The file of marks must be a regular one: the server reads nothing from a link or a
        pipe."""
        folder = self.begun()
        elsewhere = folder / "elsewhere"
        self.marks(folder).rename(elsewhere)
        for make, said in (
            (lambda path: path.symlink_to(elsewhere), os.strerror(errno.ELOOP)),
            (lambda path: path.symlink_to(folder / "nowhere"), os.strerror(errno.ELOOP)),
            (os.mkfifo, "it isn't a regular file"),
            (os.mkdir, "it isn't a regular file"),
        ):
            make(self.marks(folder))
            status, log = self.serving(folder=folder, waits=False).ended()
            self.assertEqual(status, 1, log)
            self.assertIn(f"credkeep-server: {self.marks(folder)}: {said}\n", log)
            self.assertNotIn("start:", log)
            if self.marks(folder).is_dir() and not self.marks(folder).is_symlink():
                self.marks(folder).rmdir()
            else:
                self.marks(folder).unlink()
        self.assertEqual(elsewhere.read_text(), MARKS)

    def old_file(self) -> pathlib.Path:
        """An htpasswd file of two users, the second of whom the book has too."""
        need_module("passlib.hash")
        digest = base64.b64encode(hashlib.sha1(b"secret").digest()).decode()
        old = self.room() / "htpasswd"
        old.write_text("".join(f"{name}:{{SHA}}{digest}\n" for name in ("gus", "ira", "ada")))
        return old

    def test_users_of_an_old_file(self) -> None:
        """A user who hasn't moved has the marks too, whenever the server is killed: gus is locked,
        and ira must change the password."""
        for kill in sample(range(16, 24)):
            with self.subTest(kill=kill):
                self.check_users_of_an_old_file(kill)

    def check_users_of_an_old_file(self, kill: int) -> None:
        folder, old = self.begun(f"{MARKS}gus lock {TIME}\nira expire {TIME}\n"), self.old_file()
        options = ("--tries", "0", "--foreign", str(old))
        self.serving(*options, folder=folder, faults=f"kills={kill}", waits=False).ended()
        service = self.serving(*options, folder=folder)
        service.talk(LOGINS)
        service.talk(
            f"""
            admin marks - 10 -> {TAKEN} gus:!
            login known gus -> absent
            login verify gus {{secret}} -> no
            admin unlock gus -> unlocked
            login verify gus {{secret}} -> yes
            login known ira -> expired
            login verify ira {{secret}} -> expired
            login change ira {{secret}} {{secret}} -> same
            login change ira {{secret}} {{fresh}} -> replaced
            login verify ira {{fresh}} -> yes
            """
        )


def asked(service: Service) -> list[str]:
    """The lines that the book got, once it has got a `lock`."""
    until(lambda: any(it.startswith("lock ") for it in service.asked()), "a mark")
    return service.asked()
