"""A SQLite file on a full or faulty disk. The disk is small and in memory, and only root can mount
it."""

import contextlib
import os
import sqlite3
import subprocess
import sys
from unittest import mock

from disks import full, small_disk
from support import HIGH, Base, called, each
from rigzumal.accounts import OutcomeUnknown, Reply, StoreFault
from rigzumal.accounts.database import Database


class FullDisk(Base):
    """Each operation on a full disk answers at once, without a wait."""

    def setUp(self):
        super().setUp()
        self.folder = small_disk(self, "120k")

    def begin(self, mode):
        """Creates a table on that disk, in this mode of SQLite's journal, with `ann`, `low` and
        `none`."""
        self.server.path = f"{self.folder}/{mode}.db"
        self.conn = self.another()
        for pragma in (f"journal_mode = {mode}", "synchronous = FULL"):
            self.execute(f"PRAGMA {pragma}")
        self.create()
        for name, password in (("ann", "one"), ("low", "one"), ("none", None)):
            self.give(password, name)

    @each("WAL", "DELETE")
    def test_what_each_operation_answers(self, mode):
        """Logins continue, each change raises a fault, and the old records stay."""
        self.begin(mode)
        accounts = self.accounts(HIGH, patience=60.0)
        accounts.verify("ann", "one")
        stood = self.execute("SELECT name, record FROM users ORDER BY name")
        with full(self.folder), self.no_pause(accounts):
            self.assert_replies("login low one yes; login low two no; verify ann one yes", accounts)
            for name, *given in (
                ("change", "ann", "one", "two"),
                ("reset", "ann", "two"),
                ("remove", "ann", "one"),
                ("upgrade", "low", "one"),
                ("enrol", "none", "two"),
            ):
                with self.subTest(name=name), self.assertRaisesRegex(
                    StoreFault, "FULL|Operational"
                ):
                    getattr(accounts, name)(*given)
        self.assertEqual(self.execute("SELECT name, record FROM users ORDER BY name"), stood)
        self.assert_replies("change ann one two replaced; verify ann two yes", accounts)
        self.assertIs(accounts.login("low", "one"), Reply.YES)
        self.assertIn("m=128,", self.stands("low"))

    @each("WAL", "DELETE")
    def test_examine_sees_it(self, mode):
        """`examine` detects a full disk, even in WAL mode, where the rolled back trial writes
        nothing."""
        self.folder = small_disk(self, "32m")
        self.begin(mode)
        accounts = self.accounts(dialect=self.another_dialect(table="MAIN.users"))
        is_logged = mode == "WAL"
        others = [] if is_logged else ["no-wal"]
        self.assertEqual([it.code for it in accounts.examine()], others)
        with full(self.folder):
            found = {it.code: it for it in accounts.examine()}
        if not is_logged:
            others.append("no-update")
        self.assertEqual({*found}, {*others, "disk-full"})
        said = "the disk has 0 KiB free: changes may fail"
        self.assertEqual((str(found["disk-full"]), found["disk-full"].is_error), (said, False))

    def test_a_new_connection(self):
        """A new connection is refused like a statement: its pragma needs room on the disk too."""
        self.begin("WAL")
        self.conn.close()
        accounts = self.accounts(connect=Database(f"sqlite:///{self.server.path}").connect)
        with full(self.folder), self.no_pause(accounts):
            for text in ("login ann one", "verify ann one", "change ann one two"):
                with self.assertRaisesRegex(StoreFault, "^the server refused the connection: "):
                    called(accounts, text)
        self.assert_replies("login ann one yes", accounts)

    def test_a_crash_after_a_refused_commit(self):
        """The row has the last acknowledged record, wherever the log of SQLite ended."""
        for before in range(9):
            self.begin("WAL")
            words = (self.server.path, str(before), os.path.join(self.folder, "filling"))
            child = [sys.executable, "-c", CRASHES, *words]
            said = subprocess.run(child, capture_output=True, text=True, check=True).stdout
            os.remove(words[2])
            with self.subTest(before=before):
                self.assertIn("full", said)
                self.assertEqual(self.stands(), said.splitlines()[-2], said)
            self.conn.close()
            for name in os.listdir(self.folder):
                os.remove(os.path.join(self.folder, name))


CRASHES = """
import os, sqlite3, sys
path, before, filling = sys.argv[1:]
conn = sqlite3.connect(path, isolation_level=None)
conn.execute("PRAGMA wal_autocheckpoint = 0")
def change(record):
    conn.execute("BEGIN IMMEDIATE")
    conn.execute("UPDATE users SET record = ? WHERE name = 'ann'", (record,))
    conn.execute("COMMIT")
    print(record)
change("the first")
for number in range(int(before)):
    change("x" * number)
try:
    with open(filling, "wb", buffering=0) as file:
        while True:
            file.write(b"x" * 4096)
except OSError:
    pass
try:
    for number in range(9):
        change("another" * number)
except sqlite3.OperationalError as error:
    print(error, flush=True)
os._exit(0)
"""


class Room(Base):
    """The findings of `examine` about the room that the filesystem reports."""

    @each((9 << 20, []), (8 << 20, []), ((8 << 20) - 1, ["disk-full"]), (0, ["disk-full"]))
    def test_room_on_the_disk(self, free, codes):
        """`examine` warns below 8 MiB: in WAL the rolled back trial writes nothing."""
        disk = mock.Mock(f_bavail=free, f_frsize=1, f_blocks=1)
        with mock.patch("os.statvfs", return_value=disk) as asked:
            self.assertEqual([it.code for it in self.accounts().examine()], codes)
            asked.assert_called_once_with(os.path.realpath(self.server.path))
            disk.f_blocks = 0  # a filesystem without a size
            self.assertEqual(self.accounts().examine(), [])
        with mock.patch("os.statvfs", side_effect=OSError):
            self.assertEqual(self.accounts().examine(), [])

    def test_the_disk_of_an_attached_database(self):
        """The disk is that of the table's own schema, whatever the case of its name."""
        path = f"{os.path.realpath(self.server.path)}.side"

        def attached():
            conn = self.connect()
            conn.execute("ATTACH ? AS Side", [path])
            return conn

        with contextlib.closing(attached()) as conn:
            conn.execute("CREATE TABLE side.users (name TEXT PRIMARY KEY, record TEXT)")
        accounts = self.accounts(connect=attached, dialect=self.another_dialect(table="SIDE.users"))
        with mock.patch("os.statvfs", side_effect=OSError) as asked:
            accounts.examine()
        asked.assert_called_once_with(path)


class IllDisk(Base):
    """A disk whose errors don't show what was written."""

    broken = sqlite3.OperationalError("disk I/O error")

    def test_a_commit_is_sent_again_a_few_times(self):
        """A COMMIT is sent again a few times, but not during the whole patience; the same holds for
        a login's."""
        for name, raised in (
            ("login", None),
            ("change", OutcomeUnknown),
            ("reset", OutcomeUnknown),
        ):
            self.give("one")
            accounts = self.losing(True, 9999, hasher=HIGH, patience=60.0)
            pause = mock.AsyncMock(side_effect=[None] * 9)
            given = ["one", "two"] if name == "change" else ["one"]
            with self.subTest(name=name), mock.patch.object(accounts._runtime, "pause", pause):
                if raised is None:
                    self.assertIs(accounts.login("ann", *given), Reply.YES)
                else:
                    self.assertRaises(raised, getattr(accounts, name), "ann", *given)
                self.assertLessEqual(pause.call_count, 3)
            self.assertEqual(self.is_right("one"), True)
