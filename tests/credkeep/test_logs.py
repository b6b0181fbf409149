"""The log beside a file: its changes, its damage, and the file to which it belongs."""

import json
import random
import subprocess
import sys

from tests.credkeep.books import DONE, RECORD, SERVE, commits_in, contents, frame_of
from tests.credkeep.test_backup import CopyTest, counted

# Leaves a log of SQLite's own, which begins over older frames.
LEAVE_A_LOG = """
import os, sqlite3, sys
book = sqlite3.connect(sys.argv[1], isolation_level=None)
book.execute("PRAGMA wal_autocheckpoint=0")
for turn in range(3):
    for at in range(10 - 3 * turn):
        book.execute("INSERT INTO account VALUES (?, NULL)", (f"s{turn}-{at}",))
    if turn < 2:
        book.execute("PRAGMA wal_checkpoint(RESTART)")
os._exit(0)
"""


class LogsTest(CopyTest):
    def test_verify(self) -> None:
        """`verify` prints the numbers of accounts and changes, also of a served file, and writes
        nothing."""
        book = self.begun({"ann": RECORD})
        self.assertEqual(book("verify"), counted(1, 0))
        self.assertEqual(book("verify", "--quiet"), DONE)
        counts = json.loads(book("verify", "--json").written)
        self.assertEqual(counts, {"accounts": 1, "changes": 0})
        with book.tagged() as service:
            for at in range(1, 21):
                self.assertEqual(service.ask(f"t account k{at}"), "t ok")
                self.assertEqual(book("verify"), counted(at + 1, at))
        before = contents(self.room)
        self.assertEqual(len(commits_in(book.log.read_bytes())), 20)
        self.assertEqual(book("verify"), counted(21, 20))
        self.assertEqual(contents(self.room), before)

    def test_damaged_changes(self) -> None:
        """`verify` reports a flipped bit in a change, with the changes before and behind, and
        leaves the files as they are."""
        book, chance = self.begun({"ann": RECORD}), random.Random(3)
        self.killed_after(book, *(f"account k{at}" for at in range(12)))
        file, log = book.path.read_bytes(), book.log.read_bytes()
        ends, size = commits_in(log), frame_of(log)
        self.assertEqual(len(ends), 12)
        places = [chance.randrange(32, ends[-1] + size) for _ in range(60)]
        # The salt of a frame says whether it is of this log at all: without it the log ends there.
        for turn, at in enumerate(it for it in places if (it - 32) % size not in range(8, 16)):
            bad = bytearray(log)
            bad[at] ^= 1 << chance.randrange(8)
            book.log.write_bytes(bad)
            book.path.write_bytes(file)
            begin = 32 + (at - 32) // size * size
            whole = sum(end < begin for end in ends)
            behind = max(sum(end >= begin for end in commits_in(bytes(bad))), 1)
            text = f"its log is damaged: {whole} changes can be read, and {behind} can't"
            for words in (["list"], ["verify"], ["backup", str(self.room / "copy.db")], SERVE):
                with self.subTest(at=at, words=words):
                    done = book(*words)
                    self.assertEqual(done.status, 5)
                    self.assertIn(text, done.faults)
                    found = (book.path.read_bytes(), book.log.read_bytes())
                    self.assertEqual(found, (file, bytes(bad)))
            if turn % 10 == 0:
                done = book("restore", str(book.path))
                self.assertEqual((done.status, done.faults), (0, ""))
                kept = {f"k{at}": "" for at in range(whole)}
                self.assertWhole(book, {"ann": RECORD, **kept})

    def test_damaged_heads(self) -> None:
        """`verify` reports a log with a damaged header, and no whole log."""
        book = self.begun({"ann": RECORD})
        self.killed_after(book, *(f"account k{at}" for at in range(5)))
        log = book.log.read_bytes()
        for at in (2, 5, 9, 13, 25, 31):
            with self.subTest(at=at):
                book.log.write_bytes(log[:at] + bytes([log[at] ^ 1]) + log[at + 1 :])
                self.assertFails(book("list"), 5, "its log is damaged: 0 changes")
        book.log.write_bytes(log)
        self.assertEqual(len(book.names()), 6)

    def test_logs_of_sqlite(self) -> None:
        """A log that SQLite left, over older frames too, isn't taken for damaged."""
        book = self.begun({"ann": RECORD})
        subprocess.run([sys.executable, "-c", LEAVE_A_LOG, str(book.path)], check=True, timeout=60)
        self.assertEqual(len(commits_in(book.log.read_bytes())), 4)
        self.assertEqual(book("verify"), counted(22, 4))
        (self.room / "users.db-shm").unlink(missing_ok=True)
        self.assertEqual(len(book.names()), 22)

    def test_init_beside_a_log(self) -> None:
        """If a file was removed and its log left, no book begins: it would drop the changes in the
        log."""
        book = self.begun({"ann": RECORD})
        self.killed_after(book, "account k1")
        file, log = book.path.read_bytes(), book.log.read_bytes()
        book.path.unlink()
        for _ in range(2):
            self.assertFails(book("init"), 5, "a log with changes lies beside it")
            self.assertEqual(book.log.read_bytes(), log)
            book.path.write_bytes(b"")
            book.path.chmod(0o600)
        book.path.write_bytes(file)
        self.assertEqual(book.names(), ["ann", "k1"])
        book.path.unlink()
        self.assertEqual(book("init"), DONE)
        self.assertEqual(book.names(), [])
