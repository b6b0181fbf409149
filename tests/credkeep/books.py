"""A book in its own folder: runs credkeep on its file, as a command and as a service."""

import base64
import contextlib
import pathlib
import random
import shutil
import signal
import sqlite3
import subprocess
import tempfile
import threading
import time
import unittest
from collections.abc import Callable, Iterable, Iterator, Sequence
from typing import Any, NamedTuple

from tests.helpers import Ended, ended, longest, program, text_of
from tests.samples import Found, attempts, is_whole, sample

# Costs that a test can afford, and a salt.
CHEAP = "$argon2id$v=19$m=8,t=1,p=1"
SALT = "c29tZXNhbHQ"
# The tag of no known password.
TAG = "A" * 43

# Of the password "password", from the list of vectors of the reference program's test.c; and the
# third vector of RFC 7914, of the password "pleaseletmein", as a record.
SETTING = f"$argon2id$v=19$m=256,t=2,p=1${SALT}"
RECORD = f"{SETTING}$nf65EOgLrQMR/uIPnA4rEsF5h7TKyQwu9U1bMCHGi/4"
OTHER = f"$argon2i$v=19$m=256,t=2,p=1${SALT}$iekCn0Y3spW+sCcFanM2xBT63UP2sghkUoHLIUpWRS8"
SCRYPT = (
    "$scrypt$ln=14,r=8,p=1$U29kaXVtQ2hsb3JpZGU"
    "$cCO9yzr9c0hGHAbNgf046/2o+7qQT44+qbVD9lRdofLVQylVYT8Pz2LUlwUkKpr55h6F3A1lHkDfzwF7RVdYhw"
)

# The bytes of a log with nothing in it.
EMPTY_LOG = 41

Accounts = dict[str, str]
# Stops a command at one of its calls. Returns its end, or nothing if it made no such call.
Stop = Callable[..., Ended | None]


class Change(NamedTuple):
    """A book, a command on it, the book after it, and the command's input."""

    before: Accounts
    words: list[str]
    after: Accounts
    given: str = ""


# The words of a service whose own costs are cheap.
SERVE = ("serve", "--tagged", "--setting", CHEAP)

WITHOUT_PASSWORD = [
    Change({"ann": RECORD, "cat": ""}, ["rename", "ann", "bob"], {"bob": RECORD, "cat": ""}),
    Change({"ann": RECORD, "cat": ""}, ["disable", "ann"], {"ann": "", "cat": ""}),
    Change({"ann": RECORD, "cat": ""}, ["delete", "ann"], {"cat": ""}),
]

DONE = Ended(0)


def says(answer: str) -> Ended:
    """The end of a command that writes this line: the status says whether it is a no."""
    is_no = answer in ("noaccount", "absent", "no", "wrong", "exists")
    return Ended(4 if is_no else 0, f"{answer}\n")


def imported(added: int, updated: int = 0, there: int = 0, bad: int = 0) -> str:
    """The output of an import that has these counts."""
    return f"{added} added, {updated} updated, {there} there already, {bad} bad\n"


def fails(status: int, text: str) -> Ended:
    """The end of a command that says why it failed."""
    return Ended(status, "", f"credkeep: {text}\n")


def lined(lines: Iterable[str]) -> str:
    """The text of these lines."""
    return "".join(f"{line}\n" for line in lines)


def lines_of(accounts: Accounts) -> str:
    """The lines that an import takes, and an export writes."""
    return lined(f"{name}:{record}" for name, record in accounts.items())


class Book:
    """A book's file, and the program on it."""

    def __init__(self, path: pathlib.Path) -> None:
        self.path = path
        self.log = pathlib.Path(f"{path}-wal")

    def command(self, *words: str, wait: object = None) -> list[str]:
        """The program's words on the file."""
        first = [] if wait is None else ["--wait", str(wait)]
        return [program("credkeep"), *first, str(self.path), *words]

    def __call__(self, *words: str, given: str = "", wait: object = None, **options: Any) -> Ended:
        """Runs the program on the file with these words."""
        return ended(self.command(*words, wait=wait), given, **options)

    def start(self, *words: str, **options: Any) -> "Service":
        """Starts the program with these words."""
        return Service(self.command(*words), **options)

    def tagged(self, *words: str, **options: Any) -> "Service":
        """Starts a service, whose own costs are cheap if the words name none."""
        costs = [] if "--setting" in words else ["--setting", CHEAP]
        return self.start("serve", "--tagged", *costs, *words, **options)

    def answers(self, *lines: str, words: Iterable[str] = ()) -> list[str]:
        """A service's answers to lines, each of which waits for the one before."""
        with self.tagged(*words) as service:
            found = [service.ask(line) for line in lines]
            rest = service.end()
        assert rest == DONE, rest
        return found

    def add(self, name: str, password: str = "correct horse", setting: str = CHEAP) -> None:
        """Adds an account with a record of this setting."""
        done = self("add", name, "--setting", setting, given=password)
        assert done == says("enrolled"), done

    def accounts(self) -> Accounts:
        """The names with their records, as an export writes them."""
        done = self("export")
        assert (done.status, done.faults) == (0, ""), done
        return dict(line.split(":", 1) for line in done.written.splitlines())

    def names(self) -> list[str]:
        """The names of the accounts, in their order."""
        done = self("list")
        assert done.status == 0, done
        return done.written.split()

    def remove(self) -> None:
        """Removes the file, and all files beside it with its name."""
        for file in self.path.parent.glob(f"{self.path.name}*"):
            file.unlink()

    def move_to(self, target: "Book") -> None:
        """Copies the file and its log as `cp` does, over existing files."""
        target.remove()
        for source, copy in ((self.path, target.path), (self.log, target.log)):
            if source.exists():
                shutil.copy(source, copy)


class Service(contextlib.AbstractContextManager["Service"]):
    """A program that answers lines. The test kills it if it runs for too long."""

    def __init__(self, command: list[str], **options: Any) -> None:
        pipe = subprocess.PIPE
        run = subprocess.Popen(command, stdin=pipe, stdout=pipe, stderr=pipe, **options)
        assert run.stdin and run.stdout and run.stderr
        self.process, self.stdin, self.stdout, self.stderr = run, run.stdin, run.stdout, run.stderr
        self.guard = threading.Timer(longest(), self.process.kill)
        self.guard.daemon = True
        self.guard.start()

    def __exit__(self, *_: object) -> None:
        self.kill()
        self.guard.cancel()
        for stream in (self.stdin, self.stdout, self.stderr):
            with contextlib.suppress(OSError):
                stream.close()

    def send(self, text: str) -> None:
        self.stdin.write(text.encode())
        self.stdin.flush()

    def answer(self) -> str:
        """The next line without its end, or nothing if there is none."""
        return text_of(self.stdout.readline()).removesuffix("\n")

    def ask(self, line: str) -> str:
        """The answer to a line."""
        self.send(line + "\n")
        return self.answer()

    def feed(self, text: str) -> threading.Thread:
        """Writes the text to the service from a thread, and ends its input; it may be gone by
        then."""

        def write() -> None:
            with contextlib.suppress(OSError):
                self.stdin.write(text.encode())
                self.stdin.close()

        feeder = threading.Thread(target=write)
        feeder.start()
        return feeder

    def end(self, given: str = "") -> Ended:
        """The service's end after this last input, with the output until then."""
        written, faults = self.process.communicate(given.encode(), longest())
        return Ended(self.process.returncode, text_of(written), text_of(faults))

    def kill(self) -> None:
        self.process.kill()
        self.process.wait()


def contents(folder: pathlib.Path) -> dict[str, bytes | None]:
    """The contents of a folder's files; a file's log without a change counts as none."""
    logs = {f"{file.name}-wal" for file in folder.iterdir()}
    found = dict[str, bytes | None]()
    for file in folder.iterdir():
        if file.name in logs and file.stat().st_size <= EMPTY_LOG:
            continue
        found[file.name] = file.read_bytes() if file.is_file() else None
    return found


def rows(path: pathlib.Path, text: str) -> list[Any]:
    """The answer of SQLite itself to a statement."""
    with contextlib.closing(sqlite3.connect(path, isolation_level=None)) as connection:
        return connection.execute(text).fetchall()


def altered(record: str, byte: int) -> str:
    """A record with another byte in this place of its tag."""
    setting, _, tag = record.rpartition("$")
    other = bytearray(base64.b64decode(f"{tag}="))
    other[byte] ^= 0x55
    return f"{setting}${base64.b64encode(other).decode().rstrip('=')}"


def frame_of(log: bytes) -> int:
    """The size of a frame of the log, by SQLite's file format alone."""
    return 24 + int.from_bytes(log[8:12], "big")


def commits_in(log: bytes) -> list[int]:
    """The places of the frames that end a transaction: each has the database's size beside it."""
    frames = range(32, len(log) - frame_of(log) + 1, frame_of(log))
    return [
        at
        for at in frames
        if log[at + 8 : at + 16] == log[16:24] and log[at + 4 : at + 8] != bytes(4)
    ]


class BookTest(unittest.TestCase):
    """A test with a folder of its own, and an empty book in it."""

    maxDiff = 2000

    def setUp(self) -> None:
        self.room = pathlib.Path(tempfile.mkdtemp(prefix="credkeep-"))
        self.addCleanup(shutil.rmtree, self.room, ignore_errors=True)
        self.room.chmod(0o755)
        self.book = self.begun()
        self.seen: dict[Any, Any] = {}

    def file(self, name: str) -> Book:
        """The program on a file of this name, which may not be there."""
        return Book(self.room / name)

    def begun(self, accounts: Accounts | None = None, name: str = "users.db") -> Book:
        """A new book with these accounts, in place of the file that was there."""
        book = self.file(name)
        book.remove()
        self.assertEqual(book("init"), DONE)
        if accounts:
            self.assertEqual(book("import", "--quiet", given=lines_of(accounts)), DONE)
        return book

    def killed_after(self, book: Book, *lines: str) -> None:
        """A service makes these changes and is killed, so they are in the log alone."""
        with book.tagged() as service:
            for line in lines:
                self.assertEqual(service.ask(f"t {line}"), "t ok")
        self.assertGreater(book.log.stat().st_size, EMPTY_LOG)

    def once(self, folder: pathlib.Path, look: Callable[[Book], Found]) -> Found:
        """The findings of a look that depends only on a folder's files: equal folders share one
        look."""
        files = [(it.name, it.stat().st_mode, it.read_bytes()) for it in folder.iterdir()]
        key = tuple(sorted(files))
        if key not in self.seen:
            self.seen[key] = look(Book(folder / "users.db"))
        return self.seen[key]

    @contextlib.contextmanager
    def copied(self) -> Iterator[Book]:
        """The book in a copy of the folder `base`."""
        with tempfile.TemporaryDirectory(dir=self.room) as room:
            folder = pathlib.Path(shutil.copytree(self.room / "base", f"{room}/base"))
            yield Book(folder / "users.db")

    def stopped(
        self,
        stop: Stop,
        calls: Sequence[Any],
        change: Change,
        look: Callable[[Book], Found],
        judge: Callable[[Ended, Found], None],
    ) -> list[Ended]:
        """The ends of the runs of a command, each stopped at one of a sample of these calls, and in
        a copy of the folder `base`. The judge sees the findings of a look afterwards."""

        def attempt(call: Any) -> tuple[Ended, Found] | None:
            with self.copied() as book:
                folder = book.path.parent
                done = stop(call, book.command(*change.words), change.given, cwd=folder)
                return done and (done, self.once(folder, look))

        ends = []
        for call, (done, found) in attempts(attempt, sample(calls)):
            with self.subTest(call=call, done=done):
                judge(done, found)
            ends.append(done)
        return ends

    def assertRows(self, ask: Callable[[str], Any], rows: Iterable[tuple[str, Any]]) -> None:
        """Each of these lines or commands has this answer or end."""
        for words, wanted in rows:
            with self.subTest(words=words):
                self.assertEqual(ask(words), wanted)

    def assertStopped(self, change: Change, done: Ended, found: Accounts) -> None:
        """A change that was stopped left the book before it or the one after it; status 0, and an
        answer, say that it was stored."""
        self.assertTrue(found in (change.before, change.after), f"a mixture: {done}")
        is_said = done.status == 0 or done.written
        self.assertTrue(found == change.after or not is_said, f"an answered change is gone: {done}")

    def assertKept(self, answered: int, names: list[str], found: Iterable[str]) -> None:
        """The book has all answered new names, and at most the next one."""
        may = (set(names[:answered]), set(names[: answered + 1]))
        self.assertTrue({*found} in may, f"{answered} were answered, and not those are there")

    def assertSeen(self, wanted: Iterable[Any], found: Iterable[Any]) -> None:
        """A whole run has found each of these; a sample may lack some."""
        if is_whole():
            self.assertLessEqual({*wanted}, {*found})

    def assertFails(self, done: Ended, status: int, *texts: str) -> None:
        """The run wrote nothing, and its messages have each of these texts."""
        self.assertEqual((done.status, done.written), (status, ""), done.faults)
        for text in texts or (" ",):
            self.assertIn(text, done.faults)

    def assertSound(self, book: Book) -> None:
        """SQLite finds nothing wrong with the file."""
        self.assertEqual(rows(book.path, "PRAGMA integrity_check"), [("ok",)])

    def assertLogIsEmpty(self, book: Book) -> None:
        """The file alone has all of the book."""
        self.assertTrue(not book.log.exists() or book.log.stat().st_size <= EMPTY_LOG)


def killed(
    book: Book, *words: str, given: str = "", within: float, how: int = signal.SIGKILL
) -> Ended:
    """The end of a command that is killed at a random moment of so many seconds."""
    with book.start(*words) as run:
        feeder = run.feed(given)
        time.sleep(random.random() * within)
        run.process.send_signal(how)
        written = text_of(run.stdout.read())
        feeder.join()
        return Ended(run.process.wait(), written)
