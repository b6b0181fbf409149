#!/usr/bin/python3
"""Times `credkeep` on books of many accounts, beside Python's sqlite3 on the same file and
`htpasswd -B`.

    bench/keep/run.py [--turns N] [--accounts N [N ..]] [--program PROGRAM]

PROGRAM is the built credkeep, by default out/credkeep; htpasswd is that of Debian's
apache2-utils. Names come in random order. The hashes are the cheapest of each program (Argon2id
with 8 KiB and one pass, bcrypt with cost 4), so that the times are those of the storage. Each
figure is the best of the turns. credkeep syncs twice at each change, Python's sqlite3 once here
(WAL, synchronous = FULL), and htpasswd never does. The files are in TMPDIR: the time of a change
includes the syncs of that disk.
"""

import argparse
import pathlib
import random
import shutil
import sqlite3
import subprocess
import sys
import tempfile
import time
from collections.abc import Callable, Iterable

TOP = pathlib.Path(__file__).resolve().parent.parent.parent
sys.path.insert(1, str(TOP / "bench"))

from service import Service
from turns import print_row

CHEAP = "$argon2id$v=19$m=8,t=1,p=1"
PASSWORD = "secret"
PASSWORD_WORD = "c2VjcmV0"
READ_ALL = """import sqlite3, sys
rows = sqlite3.connect(sys.argv[1]).execute('SELECT name, record FROM account')
rows = dict(rows)"""
TABLE = "CREATE TABLE account (name TEXT NOT NULL PRIMARY KEY, record TEXT) STRICT"
BCRYPT = ("htpasswd", "-b", "-B", "-C", "4")
# The number of lines of a kind to time at once.
LINES = 1000
SHOWN = 200_000


def run(*words: str | pathlib.Path, given: str = "", status: int = 0) -> float:
    """Runs a program with this input, expects this status, and returns the seconds."""
    nothing = subprocess.DEVNULL
    with tempfile.TemporaryFile() as text:
        text.write(given.encode())
        text.seek(0)
        start = time.perf_counter()
        ended = subprocess.run(words, stdin=text, stdout=nothing, stderr=nothing)
        seconds = time.perf_counter() - start
    if ended.returncode != status:
        sys.exit(f"{words}: status {ended.returncode}")
    return seconds


def each_timed(work: Callable[[str], object], given: list[str]) -> float:
    """Returns the seconds of one of these calls."""
    start = time.perf_counter()
    for word in given:
        work(word)
    return (time.perf_counter() - start) / len(given)


def fill(path: pathlib.Path, rows: Iterable[tuple[str, str]], *texts: str) -> None:
    """Inserts rows into the table of a book, after these statements."""
    with sqlite3.connect(path) as connection:
        for text in texts:
            connection.execute(text)
        connection.executemany("INSERT INTO account VALUES (?, ?)", rows)
    connection.close()


class Sample:
    """Accounts in random order, in each of the files."""

    def __init__(self, program: pathlib.Path, folder: pathlib.Path, accounts: int) -> None:
        self.program, self.count = program, accounts
        self.book = folder / "users.db"
        self.other = folder / "other.db"
        self.users = folder / "users"
        numbers = random.Random(accounts).sample(range(16**8), accounts + 2 * LINES)
        names = [f"n{number:08x}" for number in numbers]
        self.names, self.new = names[:accounts], names[accounts:]
        run(program, self.book, "init")
        for name, salt in (("n0", "c29tZXNhbHQ"), ("n1", "b3RoZXJzYWx0")):
            run(program, self.book, "add", name, "--setting", f"{CHEAP}${salt}", given=PASSWORD)
        exported = subprocess.run(
            [program, self.book, "export"], capture_output=True, text=True, check=True
        ).stdout
        # A change writes the second record: SQLite writes nothing if a row stays as it is.
        self.record, self.changed = (line.split(":")[1] for line in exported.split())
        run(*BCRYPT, "-c", self.users, "n0", PASSWORD)
        bcrypt = self.users.read_text().strip().split(":")[1]
        self.rows = [(name, self.record) for name in self.names]
        fill(self.book, self.rows, "DELETE FROM account")
        shutil.copy(self.book, self.other)
        fill(self.other, [], "CREATE TABLE other (note TEXT)")
        self.users.write_text("".join(f"{name}:{bcrypt}\n" for name in self.names))

    def some(self, count: int) -> list[str]:
        """Returns this many of the names, in random order."""
        return random.Random(7).choices(self.names, k=count)


def ours(sample: Sample, turns: int) -> dict[str, str]:
    """Measures the figures of credkeep."""
    program, book, one = sample.program, sample.book, sample.names[0]

    def best(*words, **given):
        return min(run(program, *words, **given) for _ in range(turns))

    opened = best(book, "show", "nobody", status=4)
    # credkeep refuses a database with a second table once sqlite has opened it, before it reads a
    # row.
    refused = best(sample.other, "list", status=5)
    with Service(program, book, "serve", "--tagged", "--setting", CHEAP) as service:
        service.ask("t show nobody")
        blank = [""] * SHOWN
        blank_s = min(service.seconds_at_once(blank) for _ in range(turns)) / SHOWN
        shown = [f"t show {name}" for name in sample.some(SHOWN)]
        show_s = min(service.seconds_at_once(shown) for _ in range(turns)) / SHOWN
        verifies = [f"t verify {name} {PASSWORD_WORD}" for name in sample.some(LINES)]
        verify_s = min(each_timed(service.ask, verifies) for _ in range(turns))
        changes = [f"t load {name} {sample.changed}" for name in sample.some(LINES)]
        change_s = min(each_timed(service.ask, changes) for _ in range(turns))
        new_s = each_timed(service.ask, [f"t account {name}" for name in sample.new[:LINES]])
        peak = service.peak_mb()
    change = best(book, "change", one, "--setting", CHEAP, given=f"{PASSWORD}\n{PASSWORD}\n")
    check = best(book, "check", one, given=PASSWORD)
    listed = best(book, "export")
    return {
        "open, ms": f"{opened * 1e3:.1f}",
        "of it sqlite's, ms": f"{refused * 1e3:.1f}",
        "of it reading rows, us a row": f"{(opened - refused) * 1e6 / sample.count:.2f}",
        "a line that asks nothing, us": f"{blank_s * 1e6:.2f}",
        "`show`, us a line": f"{show_s * 1e6:.2f}",
        "verify, us": f"{verify_s * 1e6:.0f}",
        "change with its sync, us": f"{change_s * 1e6:.0f}",
        "new name with its sync, us": f"{new_s * 1e6:.0f}",
        "import, lines a second": f"{sample.count / imported(sample):.0f}",
        "export, ms": f"{listed * 1e3:.1f}",
        "one change by a process, ms": f"{change * 1e3:.1f}",
        "one check by a process, ms": f"{check * 1e3:.1f}",
        "peak memory of a service, MB": f"{peak:.0f}",
    }


def imported(sample: Sample) -> float:
    """Measures the seconds of an import of all accounts into a new book."""
    fresh = sample.book.with_name("fresh.db")
    run(sample.program, fresh, "init")
    lines = "".join(f"{name}:{record}\n" for name, record in sample.rows)
    seconds = run(sample.program, fresh, "import", given=lines)
    for path in fresh.parent.glob("fresh.db*"):
        path.unlink()
    return seconds


def theirs(sample: Sample, turns: int) -> dict[str, str]:
    """Measures the figures of Python's sqlite3 on the same file, and of htpasswd."""
    one, fresh = sample.names[0], sample.book.with_name("fresh.db")

    def best(more, *words):
        return min(run(*words) for _ in range(turns + more))

    # The difference of two starts of Python: with few rows, one turn shows nothing.
    read = best(2, sys.executable, "-c", READ_ALL, sample.book)
    empty = best(2, sys.executable, "-c", "import sqlite3, sys")
    connection = sqlite3.connect(sample.book, isolation_level=None)
    connection.execute("PRAGMA journal_mode = WAL")
    connection.execute("PRAGMA synchronous = FULL")
    select = "SELECT record FROM account WHERE name = ?"
    update = "UPDATE account SET record = ? WHERE name = ?"
    show_s = each_timed(
        lambda name: connection.execute(select, (name,)).fetchone(), sample.some(SHOWN)
    )
    changed = list(dict.fromkeys(sample.some(LINES)))
    change_s = each_timed(lambda name: connection.execute(update, (sample.record, name)), changed)
    insert = "INSERT INTO account VALUES (?, NULL)"
    new_s = each_timed(lambda name: connection.execute(insert, (name,)), sample.new[LINES:])
    connection.close()
    filled_s = each_timed(lambda _: fill(fresh, sample.rows, TABLE), [""])
    fresh.unlink()
    change = best(0, *BCRYPT, sample.users, one, PASSWORD)
    check = best(0, "htpasswd", "-v", "-b", sample.users, one, PASSWORD)
    with Service(
        sys.executable, "-c", f"{READ_ALL}\nprint(1, flush=True); sys.stdin.read()", sample.book
    ) as reader:
        reader.answer()
        peak = reader.peak_mb()
    return {
        "sqlite3: read all rows, ms": f"{(read - empty) * 1e3:.1f}",
        "sqlite3: SELECT of one, us": f"{show_s * 1e6:.1f}",
        "sqlite3: UPDATE with its sync, us": f"{change_s * 1e6:.0f}",
        "sqlite3: INSERT with its sync, us": f"{new_s * 1e6:.0f}",
        "sqlite3: INSERTs in one transaction, a second": f"{sample.count / filled_s:.0f}",
        "sqlite3: peak memory with all rows, MB": f"{peak:.0f}",
        "htpasswd: one change by a process, ms": f"{change * 1e3:.1f}",
        "htpasswd: one check by a process, ms": f"{check * 1e3:.1f}",
    }


def main() -> None:
    """Prints the table."""
    parser = argparse.ArgumentParser(
        description="Times credkeep beside Python's sqlite3 and htpasswd -B."
    )
    parser.add_argument("--turns", type=int, default=3)
    parser.add_argument("--accounts", type=int, nargs="+", default=[1000, 10000, 100000])
    parser.add_argument("--program", type=pathlib.Path, default=TOP / "out/credkeep")
    words = parser.parse_args()
    if not words.program.is_file():
        sys.exit(f"{words.program} is not there: `make programs` builds it, by the toolchain's rt")
    if shutil.which("htpasswd") is None:
        sys.exit("htpasswd is not there (Debian's package apache2-utils has it)")
    columns = []
    for accounts in words.accounts:
        with tempfile.TemporaryDirectory(prefix="keep-") as folder:
            sample = Sample(words.program, pathlib.Path(folder), accounts)
            columns.append(ours(sample, words.turns) | theirs(sample, words.turns))
        print(f"{accounts}: {columns[-1]}", file=sys.stderr, flush=True)
    print_row(["Accounts", *words.accounts])
    print("|---|" + "--:|" * len(columns))
    for row in columns[0]:
        print_row([row, *(column[row] for column in columns)])


if __name__ == "__main__":
    main()
