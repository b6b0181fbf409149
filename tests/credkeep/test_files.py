"""The file: its format, its mode, its locks, and damaged files."""

import contextlib
import os
import pathlib
import random
import shutil
import signal
import sqlite3
import stat
import time
from collections.abc import Callable

from tests.credkeep.books import DONE, RECORD, SERVE, BookTest, Service, contents, fails, rows, says
from tests.helpers import ended, need_root, program

TABLE = "CREATE TABLE account (name TEXT NOT NULL PRIMARY KEY, record TEXT) STRICT;"
NOBODY = 65534


def database(text: str) -> Callable[[pathlib.Path], None]:
    def make(path: pathlib.Path) -> None:
        with contextlib.closing(sqlite3.connect(path)) as connection:
            connection.executescript(text)

    return make


# Files that hold no book, with the message for each.
NO_BOOKS = [
    (lambda path: path.touch(), "it is empty; init creates a book in it"),
    (lambda path: path.write_text("ann:x\n" * 1000), "it is no database"),
    (lambda path: path.write_text("x"), "it is no database"),
    (lambda path: path.mkdir(), "it is a folder, a link or a device"),
    (lambda path: path.symlink_to("nowhere.db"), ""),
    (lambda path: None, "there is no such file; init makes one"),
    *(
        (database(text), "the database holds no book")
        for text in (
            "CREATE TABLE t (a)",
            TABLE + "CREATE TABLE t (a)",
            TABLE + "CREATE INDEX i ON account (record)",
            TABLE + "ALTER TABLE account ADD COLUMN mail TEXT",
        )
    ),
    (
        database(TABLE + "INSERT INTO account VALUES ('ann', NULL), ('Bob', NULL)"),
        "row 2: there is no name; a name has",
    ),
    (
        database(TABLE + "INSERT INTO account VALUES ('ann', 'abc')"),
        "row 1: the text there is no record: a field is missing, or there is one too many (1 ",
    ),
    (
        database(TABLE + "INSERT INTO account VALUES ('ann', '$2y$10$abc')"),
        "row 1: the text there is no record: "
        "the scheme is none of argon2d, argon2i, argon2id and scrypt (2 scheme)",
    ),
]
COMMANDS = ("list", "check ann", "serve --tagged", "import", "add ann", "reset ann", "init")


class FormatTest(BookTest):
    def test_sqlite3_reads_and_writes(self) -> None:
        self.book.add("ann")
        self.book.add("bob", "first")
        self.assertEqual(self.book("remove", "bob", given="first"), says("removed"))
        found = rows(self.book.path, "SELECT name, record FROM account")
        self.assertEqual(found, [("ann", self.book.accounts()["ann"]), ("bob", None)])
        rows(self.book.path, f"INSERT INTO account VALUES ('cat', '{RECORD}'), ('dan', NULL)")
        self.assertEqual(self.book.names(), ["ann", "bob", "cat", "dan"])
        self.assertEqual(self.book("check", "cat", given="password"), says("yes"))

    def test_analyzed(self) -> None:
        """A file with ANALYZE's statistics beside the table is a book, and they stay as they
        are."""
        self.begun({"ann": RECORD, "bob": ""})
        rows(self.book.path, "ANALYZE")
        statistics = rows(self.book.path, "SELECT * FROM sqlite_stat1")
        self.assertEqual(statistics, [("account", "sqlite_autoindex_account_1", "2 1")])
        self.book.add("cat")
        self.assertEqual(self.book("rename", "ann", "dan"), says("renamed"))
        self.assertEqual(self.book("delete", "bob"), says("deleted"))
        self.assertEqual(self.book("import", "--quiet", given="eve:\n"), DONE)
        self.assertEqual(self.book.names(), ["cat", "dan", "eve"])
        self.assertSound(self.book)
        self.assertEqual(rows(self.book.path, "SELECT * FROM sqlite_stat1"), statistics)
        rows(self.book.path, "DELETE FROM sqlite_stat1")
        self.assertEqual(self.book.names(), ["cat", "dan", "eve"])

    def test_files_that_hold_no_book(self) -> None:
        """Each file that holds no book has its message, and nothing is written into it or beside
        it. If the message names init, init creates a book there."""
        for make, text in NO_BOOKS:
            for words in COMMANDS[: -1 if "init" in text else None]:
                shutil.rmtree(self.room)
                self.room.mkdir()
                make(self.book.path)
                if self.book.path.is_file():
                    self.book.path.chmod(0o600)
                before = contents(self.room)
                with self.subTest(text=text, words=words):
                    told = " " if words == "init" else text
                    self.assertFails(self.book(*words.split(), given="x\n"), 5, told)
                    self.assertEqual(contents(self.room), before)

    def test_names_of_no_file(self) -> None:
        """SQLite would keep such a book in memory; an unset variable of a script is one."""
        for name in ("", ":memory:"):
            for words in ("init", "list"):
                with self.subTest(name=name, words=words):
                    done = ended([program("credkeep"), name, words], cwd=self.room)
                    self.assertFails(done, 1, "names no file")
            self.assertFails(self.book("backup", name, cwd=self.room), 1, "names no file")
        self.assertEqual(sorted(contents(self.room)), ["users.db"])

    def test_journal(self) -> None:
        pathlib.Path(f"{self.book.path}-journal").write_bytes(b"x" * 512)
        self.assertFails(self.book("list"), 5, "open the file with sqlite3 first")

    def is_refused(self, piece: bytes, accounts: dict[str, str]) -> bool:
        """Whether a damaged file is refused. Otherwise it is the same book, or one in which one
        account differs: SQLite's format has no sum over a row."""
        hurt = self.file("hurt.db")
        hurt.remove()
        hurt.path.write_bytes(piece)
        hurt.path.chmod(0o600)
        done = hurt("export")
        if done.status:
            self.assertFails(done, 5)
            return True
        found = {tuple(line.split(":", 1)) for line in done.written.splitlines()}
        self.assertLessEqual(len(accounts.items() ^ found), 2, "another book")
        return False

    def test_damaged(self) -> None:
        """A truncated file is refused. A file with a flipped bit is refused, or differs in one
        account at most."""
        chance = random.Random(17)
        self.begun({**{f"a{at}": "" for at in range(2000)}, "ann": RECORD})
        whole, accounts = self.book.path.read_bytes(), self.book.accounts()
        for _ in range(60):
            self.assertTrue(self.is_refused(whole[: chance.randrange(1, len(whole))], accounts))
        first = whole.index(RECORD.encode())
        places = [chance.randrange(len(whole) * 8) for _ in range(200)]
        places += [chance.randrange(first * 8, (first + len(RECORD)) * 8) for _ in range(40)]
        refused = 0
        for place in places:
            turned = bytearray(whole)
            turned[place // 8] ^= 1 << place % 8
            refused += self.is_refused(bytes(turned), accounts)
        self.assertTrue(0 < refused < len(places), refused)


class NamesTest(BookTest):
    def test_files_of_init(self) -> None:
        """init uses an existing file if it is empty and only this user's; the message says if it is
        a book."""
        book, owner = self.file("new.db"), os.getuid()
        book.path.touch()
        refused = [(mode, owner, "others can read or write it") for mode in (0o666, 0o644, 0o620)]
        refused += [(0o600, NOBODY, "another user owns it")] if owner == 0 else []
        for mode, other, text in refused:
            with self.subTest(mode=mode, other=other):
                book.path.chmod(mode)
                os.chown(book.path, other, -1)
                self.assertFails(book("init"), 5, text)
                self.assertEqual(book.path.read_bytes(), b"")
        book.path.chmod(0o600)
        os.chown(book.path, owner, -1)
        self.assertEqual(book("init"), DONE)
        book.add("ann")
        self.assertEqual(book("init"), fails(5, "the file holds a book already"))
        self.assertEqual(book.names(), ["ann"])

    def test_modes(self) -> None:
        """Only its owner may read or write a new file and its log; a file that others can read is
        warned of."""
        self.addCleanup(os.umask, os.umask(0))
        book = self.begun()
        with book.tagged() as service:
            self.assertEqual(service.ask("t account ann"), "t ok")
            for file in (book.path, book.log):
                with self.subTest(file=file):
                    self.assertEqual(stat.S_IMODE(file.stat().st_mode), 0o600)
            self.assertEqual(service.end(), DONE)
        book.path.chmod(0o640)
        for words, said in (("list", "ann\n"), ("serve --tagged", "")):
            with self.subTest(words=words):
                done = book(*words.split())
                self.assertEqual(done[:2], (0, said))
                self.assertIn("warning: ", done.faults)
                self.assertEqual(book("--quiet", *words.split()), (0, said, ""))

    def test_read_only(self) -> None:
        """A file that this process may not write is left alone. Root may write any, so the program
        runs as nobody."""
        need_root()
        self.book.add("ann")
        self.book.path.chmod(0o444)
        before = self.book.path.read_bytes()
        for words in ("list", "add bob", "init"):
            with self.subTest(words=words):
                self.assertFails(self.book(*words.split(), given="x\n", user=NOBODY), 5)
        self.assertEqual(self.book.path.read_bytes(), before)

    def test_links(self) -> None:
        self.book.add("ann")
        link, second = self.file("link.db"), self.file("second.db")
        link.path.symlink_to(self.book.path)
        self.assertFails(link("init"), 5)
        self.assertEqual(link.names(), ["ann"])
        self.assertTrue(link.path.is_symlink())
        os.link(self.book.path, second.path)
        for book in (self.book, second):
            with self.subTest(book=book):
                self.assertFails(book("list"), 5, "another hard link names the file")


class LocksTest(BookTest):
    def test_two_processes(self) -> None:
        """While one process has the file, it is busy for all others, even if that process is
        stopped."""
        with self.book.tagged() as service:
            self.assertEqual(service.ask("t account ann"), "t ok")
            service.process.send_signal(signal.SIGSTOP)
            for words in ("list", "init", "add bob", "serve --tagged"):
                done = self.book(*words.split(), given="x\n")
                self.assertFails(done, 5, "busy: ", "credkeep-ask --server asks the server")
            service.process.send_signal(signal.SIGCONT)
            self.assertEqual(service.ask("t show ann"), "t none")
            self.assertEqual(service.end(), DONE)
        self.assertEqual(self.book.names(), ["ann"])

    def test_waits(self) -> None:
        """With --wait the program tries again until the seconds are over, or the other process has
        ended."""
        with self.book.tagged() as service:
            self.assertEqual(service.ask("t account ann"), "t ok")
            start = time.monotonic()
            self.assertFails(self.book("list", wait=1), 5, "busy")
            self.assertGreaterEqual(time.monotonic() - start, 0.9)
            with Service(self.book.command(*SERVE, wait=30)) as waiting:
                waiting.send("t show ann\n")
                time.sleep(0.3)
                self.assertIsNone(waiting.process.poll())
                self.assertEqual(service.end(), DONE)
                self.assertEqual(waiting.answer(), "t none")
                self.assertEqual(waiting.end(), DONE)
