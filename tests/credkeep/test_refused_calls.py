"""strace refuses each system call in turn, or kills the program at it, or does so at a sample of
the calls: the book is the one before or the one after."""

import functools
import re
import tempfile
from collections import Counter
from collections.abc import Callable
from typing import Any

from tests.credkeep.books import (
    DONE,
    OTHER,
    RECORD,
    SERVE,
    SETTING,
    WITHOUT_PASSWORD,
    Accounts,
    Book,
)
from tests.credkeep.books import BookTest, Change, Stop, fails, lines_of
from tests.helpers import Ended, each, ended, need, need_native
from tests.samples import Found, is_whole

# The calls that change files or make changes last, and those between them.
CHANGES = [
    "write",
    "pwrite64",
    "copy_file_range",
    "sendfile",
    "ftruncate",
    "fsync",
    "fdatasync",
    "fchmod",
    "fchown",
    "rename",
    "renameat",
    "renameat2",
    "unlink",
    "unlinkat",
]
CALLS = CHANGES + [
    "openat",
    "newfstatat",
    "fstat",
    "readlink",
    "read",
    "pread64",
    "fcntl",
    "clock_nanosleep",
]
WRITES = ["pwrite64", "write", "fsync", "fdatasync", "ftruncate"]
# How a run is refused or killed, and at which calls.
WAYS = [("error=EIO", CHANGES), ("error=ENOSPC", CHANGES), ("signal=KILL", CALLS)]

MANY = {f"n{at:03}": RECORD for at in range(200)}
HALF = {name: OTHER for at, name in enumerate(MANY) if at % 2 == 0}
RESET = ["reset", "ann", "--setting", SETTING]
# Changes, and what their texts call them.
COMMANDS = [
    *((it, "the change of ann") for it in WITHOUT_PASSWORD),
    (Change({"ann": OTHER}, RESET, {"ann": RECORD}, "password\n"), "the change of ann"),
    (Change({}, ["import"], MANY, lines_of(MANY)), "the 200 new accounts"),
    (Change(HALF, ["import", "--update"], MANY, lines_of(MANY)), "and the records of 100 others"),
]
# An older copy, and the book of a killed run's file and log.
OLD = {"ann": "", "old": RECORD}
NEW = {"ann": RECORD, "bob": "", "k1": ""}


# A call by its name, and by its number among the calls of this name by one thread.
Call = tuple[str, int | str]


def traced(
    words: list[str], command: list[str], given: str = "", **options: Any
) -> tuple[Ended, str]:
    """Runs a command under strace with these words, and returns its end and the trace."""
    with tempfile.NamedTemporaryFile("r") as trace:
        done = ended(["strace", "-f", "-o", trace.name, *words, *command], given, **options)
        return done, trace.read()


def calls_of(names: list[str], command: list[str], given: str, **options: Any) -> list[Call]:
    """Returns the calls with these names that a run makes."""
    _, trace = traced(["-e", f"trace={','.join(names)}"], command, given, **options)
    most = dict.fromkeys(names, 0)
    for (_, name), count in Counter(re.findall(r"^(\d+) +(\w+)\(", trace, re.M)).items():
        most[name] = max(most[name], count)
    return [(name, nth) for name in names for nth in range(1, most[name] + 1)]


def without_call(how: str) -> Stop:
    """Refuses or kills a run at one of its calls."""

    def stop(call: Call, command: list[str], given: str = "", **options: Any) -> Ended | None:
        name, nth = call
        words = ["-e", f"trace={name}", "-e", f"inject={name}:{how}:when={nth}"]
        done, trace = traced(words, command, given, **options)
        return done if "INJECTED" in trace or "killed by SIGKILL" in trace else None

    return stop


class RefusedCallsTest(BookTest):
    def setUp(self) -> None:
        need("strace")
        need_native()
        super().setUp()
        (self.room / "base").mkdir()

    def refuse_each(
        self,
        change: Change,
        names: list[str],
        how: str,
        look: Callable[[Book], Found],
        judge: Callable[[Ended, Found], None],
    ) -> list[Ended]:
        """The ends of the command with each call of these names refused, or killed at it. The judge
        sees the findings of a look afterwards."""
        with self.copied() as book:
            command = book.command(*change.words)
            calls = calls_of(names, command, change.given, cwd=book.path.parent)
        with self.subTest(how=how):
            ends = self.stopped(without_call(how), calls, change, look, judge)
        statuses = {it.status for it in ends}
        must, may = ({-9}, {-9}) if how.startswith("signal") else ({5}, {0, 2, 5})
        self.assertLessEqual(statuses, may)
        self.assertSeen(must, statuses)
        return ends

    @each(*COMMANDS)
    def test_commands(self, change: Change, called: str) -> None:
        """Each refusal and each kill leaves the book before the change or after it. A message
        reports a file that can't be opened, and names a change that may be kept."""
        self.begun(change.before, "base/users.db").log.unlink(missing_ok=True)
        judge = functools.partial(self.assertStopped, change)
        self.refuse_each(change, WRITES, "signal=KILL", Book.accounts, judge)
        ends = self.refuse_each(change, WRITES, "error=EIO", Book.accounts, judge)
        self.assertSeen([fails(5, "disk I/O error")], ends)
        if is_whole():
            self.assertRegex("".join(it.faults for it in ends), f"{called} may be kept or not")

    def test_services(self) -> None:
        """Each answered line is kept, and at most one line more."""

        def judge(done: Ended, names: list[str]) -> None:
            answered = done.written.count("ok\n")
            self.assertTrue(done.status != 0 or answered == 3)
            self.assertKept(answered, ["a", "b", "c"], names)

        self.begun(name="base/users.db")
        given = "t account a\nt account b\nt account c\n"
        service = Change({}, [*SERVE], {}, given)
        self.refuse_each(service, WRITES, "error=EIO", Book.names, judge)

    def test_init(self) -> None:
        """An init that fails leaves an empty book or no file, and the next init goes on from there.
        Status 0 means that the book exists."""

        def look(book: Book) -> bool:
            is_there = book.path.exists() and book("list") == DONE
            again = book("init")
            assert again == DONE or "holds a book already" in again.faults, again
            assert book.accounts() == {}
            return is_there

        judge = lambda done, is_there: self.assertTrue(is_there or done.status)
        for how, calls in WAYS:
            self.refuse_each(Change({}, ["init"], {}), calls, how, look, judge)

    def test_sync_at_an_opening(self) -> None:
        """A sync that fails as a file is opened isn't called a missing permission."""
        done = without_call("error=EIO")(("fsync", "1+"), self.book.command("list"))
        assert done
        self.assertFails(done, 5, "a sync of the file")

    def copies(self, command: str, file: str, before: Accounts, after: Accounts) -> None:
        """A copy is written or restored whole or not at all, whatever is refused or killed. The
        next run is done whole, and leaves no file beside the others."""
        change = Change(before, [command, "copy.db"], after)
        self.begun(OLD, "base/copy.db").log.unlink()
        book = self.begun({"ann": RECORD, "bob": ""}, "base/users.db")
        self.killed_after(book, "account k1")

        def look(book: Book) -> Accounts:
            changed = Book(book.path.parent / file)
            accounts = changed.accounts() if changed.path.exists() else {}
            done = ended(book.command(*change.words), cwd=book.path.parent)
            assert (done.status, done.faults) == (0, ""), done
            assert changed.accounts() == after
            names = {it.name.removesuffix("-wal") for it in book.path.parent.iterdir()}
            assert names == {"users.db", "copy.db"}, names
            return accounts

        judge = functools.partial(self.assertStopped, change)
        for how, calls in WAYS:
            self.refuse_each(change, calls, how, look, judge)

    def test_backup(self) -> None:
        self.copies("backup", "copy.db", OLD, NEW)

    def test_restore(self) -> None:
        self.copies("restore", "users.db", NEW, OLD)
