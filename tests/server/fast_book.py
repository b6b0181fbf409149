#!/usr/bin/python3
"""A book for tests, instead of credkeep: its hashes cost nothing, and it fails on demand.

    fast_book.py [--wait SECONDS] FILE serve --tagged [OPTION VALUE]..
    fast_book.py [--wait SECONDS] FILE import|export|backup ..          fast_files.py has these

The book answers the tagged lines of docs/SERVING.md from N threads, and appends a line to FILE for
each change. In the environment, CLOCK names a file with the seconds of the clock for failed tries,
and BOOK_FAULTS contains words:

    late            each answer comes after 0 to 0.05 s, and so in any order
    slow=S          each answer that would cost a hash comes after S seconds
    garbage         between answers the book writes lines that are no answers
    dies=N          the book ends with status 5 after N answers, within another one
    killed=N        the same, by a signal
    kills=N         the book kills its server instead of answer N, whose change is stored
    mute=WORD       the book never answers lines with this operation
    endless         before each answer to a verify the book writes a line of 4 MiB
    answers=TEXT    the book answers each verify by TEXT
    refuses=WORD    the book answers lines with this operation by `bad 4 memory`
    loses=N         the book answers each Nth change, but doesn't store it
    opens=S         the book answers only after S seconds
    shut=PATH       while the file PATH exists, the book ends with status 5 before it answers
    import=WORD     an import waits while the file WORD exists, or is killed amid it (`killed`), or
                    finds no room on the disk (`full`)

BOOK_LOG names a file to which the book appends each received line, without its tag.
"""

import base64
import fcntl
import hashlib
import importlib
import itertools
import math
import os
import pathlib
import random
import re
import signal
import sys
import threading
import time
from concurrent.futures import ThreadPoolExecutor
from typing import NamedTuple, Optional

NAME = re.compile(r"[a-z0-9._-]{1,32}")
COSTS = "$fast$c=1"
LOCKED, MUST_CHANGE = "!", "~"  # before the record of an account


class Shape(NamedTuple):
    """The fields of an operation."""

    fields: int
    passwords: int  # of the fields
    may_set: bool = False  # whether a setting may follow


NAME_ALONE, TWO_FIELDS = Shape(1, 0), Shape(2, 0)
TRY, NEW_RECORD = Shape(2, 1), Shape(2, 1, may_set=True)
SHAPE_OF = {
    "account": NAME_ALONE,
    "show": NAME_ALONE,
    "disable": NAME_ALONE,
    "delete": NAME_ALONE,
    "lock": NAME_ALONE,
    "unlock": NAME_ALONE,
    "expire": NAME_ALONE,
    "forgive": NAME_ALONE,
    "load": TWO_FIELDS,
    "rename": TWO_FIELDS,
    "list": TWO_FIELDS,
    "marks": TWO_FIELDS,
    "verify": TRY,
    "login": TRY,
    "remove": TRY,
    "enrol": NEW_RECORD,
    "reset": NEW_RECORD,
    "upgrade": NEW_RECORD,
    "change": Shape(3, 2, may_set=True),
}
TRIES = ("verify", "login", "change", "upgrade", "remove")
QUICK = ("show", "account", "list", "marks", "lock", "unlock", "expire", "forgive")
DAY, LONGEST_WAIT = 86400, 900  # seconds
NOISE = [b"\n", b"yes\n", b"* yes\n", b"0 yes\n", b"-1 yes\n", b"99999999 yes\n", b"\xff\x00 yes\n"]


words = os.environ.get("BOOK_FAULTS", "").split(";")
FAULTS = {word.partition("=")[0]: word.partition("=")[2] for word in words if word}


def decoded(text: str) -> Optional[bytes]:
    """The password of a field, or none."""
    if text == "-":
        return b""
    if not re.fullmatch("[A-Za-z0-9+/]+", text) or len(text) % 4 == 1:
        return None
    password = base64.b64decode(text + "=" * (-len(text) % 4))
    is_only_form = base64.b64encode(password).decode().rstrip("=") == text
    return password if is_only_form and len(password) <= 256 else None


def tag_of(password: bytes, salt: str) -> str:
    return hashlib.blake2b(password, key=salt.encode()[:64], digest_size=12).hexdigest()


def parts_of(setting: str) -> tuple[str, str]:
    """The costs in a setting, and its salt, which a line's has."""
    costs, _, salt = setting.rpartition("$")
    return (setting, "") if "=" in salt else (costs, salt)


def seconds() -> float:
    """The reading of the clock."""
    path = os.environ.get("CLOCK")
    return float(pathlib.Path(path).read_text()) if path else time.monotonic()


class Tries:
    """Tries that failed in a row at each name, and when the last did."""

    def __init__(self, limit: int) -> None:
        self.limit = limit
        self.failed = dict[str, tuple[int, float]]()

    def rest(self, name: str) -> int:
        """The seconds that the next try still has to wait."""
        count, last = self.failed.get(name, (0, 0.0))
        wait = min(2 ** (count - self.limit), LONGEST_WAIT) if count >= self.limit > 0 else 0
        return max(0, math.ceil(last + wait - seconds()))

    def count(self, name: str, said: str) -> str:
        """Counts the answer to a try, and returns it."""
        if said not in ("no", "wrong"):
            self.forgive(name)
        elif self.limit:
            now = seconds()
            count, last = self.failed.get(name, (0, now))
            before = count if now < last + DAY else 0
            self.failed[name] = (min(before, self.limit + 9) + 1, now)
        return said

    def forgive(self, name: str) -> None:
        self.failed.pop(name, None)


def marks_of(row: str) -> str:
    return row[: len(row) - len(row.lstrip(LOCKED + MUST_CHANGE))]


class Accounts:
    """Names, and a row at each: marks, and a record if it has one."""

    def __init__(self, costs: str, limit: int = 0) -> None:
        self.costs, self.rows = costs, dict[str, str]()
        self.tries = Tries(limit)

    def set(self, name: str, row: str) -> None:
        self.rows[name] = row
        if row == "gone":
            del self.rows[name]

    def put(self, name: str, row: str, said: str) -> str:
        """Stores a row, or "gone", and returns the answer."""
        self.set(name, row)
        return said

    def made(self, password: bytes, setting: str) -> str:
        """A record of a password, by default with the costs of new records."""
        costs, salt = parts_of(setting or self.costs)
        salt = salt or os.urandom(12).hex()
        return f"{costs}${salt}${tag_of(password, salt)}"

    def answer(self, words: list[str]) -> str:
        operation, *fields = words
        if operation == "disable" and fields[1:] == ["show"]:
            row = self.rows.get(fields.pop(0))
            said = self.answer(words[:2])
            return f"{words[1]}:{row}" if said == "disabled" else said
        due, secret, may_set = SHAPE_OF.get(operation, (-1, 0, False))
        count = len(fields) - due
        if count not in ((0, 1) if may_set else (0,)):
            return "bad 11 line"
        if operation in ("list", "marks"):
            return self.page(operation, *fields)
        names = fields if operation == "rename" else fields[:1]
        if not all(map(NAME.fullmatch, names)):
            return "bad 3 name"
        passwords = [decoded(it) for it in fields[1 : 1 + secret]]
        if None in passwords:
            return "bad 13 password"
        if count and not all(parts_of(fields[-1])):
            return "bad 1 shape"
        plain = [it or b"" for it in passwords]
        return self.done(operation, fields, plain, fields[-1] if count else "")

    def page(self, operation: str, first: str, count: str) -> str:
        """Names from one on, or those that have marks, with these."""
        if not NAME.fullmatch(first):
            return "bad 3 name"
        if not re.fullmatch("[1-9][0-9]{0,2}|1000", count):
            return "bad 5 range"
        rows = sorted(it for it in self.rows.items() if it[0] >= first)
        if operation == "list":
            return " ".join(["names", *(name for name, _ in rows[: int(count)])])
        marks = {name: marks_of(row) for name, row in rows}
        marked = [f"{name}:{found}" for name, found in marks.items() if found]
        return " ".join(["marks", *marked[: int(count)]])

    def done(self, operation: str, fields: list[str], plain: list[bytes], setting: str) -> str:
        name, row = fields[0], self.rows.get(fields[0])
        if operation == "account":
            return self.put(name, "", "ok") if row is None else "bad 1 exists"
        if row is None:
            return "bad 5 noaccount" if operation in ("show", "load") else "noaccount"
        match operation:
            case "forgive":
                self.tries.forgive(name)
                return "forgiven"
            case "show":
                return row or "none"
            case "delete":
                return self.put(name, "gone", "deleted")
            case "rename" if fields[1] in self.rows:
                return "exists"
            case "rename":
                self.put(fields[1], row, "")
                return self.put(name, "gone", "renamed")
        lock = LOCKED if row.startswith(LOCKED) else ""
        record = row[len(marks_of(row)) :]
        match operation:
            case "load":
                return self.put(name, lock + fields[1], "ok")
            case "lock":
                return self.put(name, LOCKED + row[len(lock) :], "locked")
            case "unlock":
                return self.put(name, row[1:], "unlocked") if lock else "none"
            case "reset":
                made = lock + self.made(plain[0], setting)
                self.tries.forgive(name)
                return self.put(name, made, "replaced" if record else "enrolled")
            case "enrol" if record or lock:
                return "exists"
            case "enrol":
                self.tries.forgive(name)
                return self.put(name, self.made(plain[0], setting), "enrolled")
            case _ if not record:
                return "absent"
            case "disable":
                return self.put(name, lock, "disabled")
            case "expire":
                return self.put(name, lock + MUST_CHANGE + record, "expired")
        if rest := self.tries.rest(name):
            return f"later {rest}"
        return self.tries.count(name, self.judged(operation, name, row, plain, setting))

    def judged(self, operation: str, name: str, row: str, plain: list[bytes], setting: str) -> str:
        """The answer to a try at a row with a record."""
        marks = marks_of(row)
        record = row[len(marks) :]
        salt, tag = record.split("$")[-2:]
        if marks.startswith(LOCKED) or tag_of(plain[0], salt) != tag:
            return "no" if operation in ("verify", "login") else "wrong"
        if marks and operation != "change":
            return "expired"
        match operation:
            case "change" if marks and plain[0] == plain[1]:
                return "same"
            case "login" if not record.startswith(f"{self.costs}$"):
                return self.put(name, self.made(plain[0], ""), "yes")
            case "verify" | "login":
                return "yes"
            case "remove":
                return self.put(name, "", "removed")
            case "upgrade" if record.startswith(f"{parts_of(setting or self.costs)[0]}$"):
                return "kept"
        said = "replaced" if operation == "change" else "upgraded"
        return self.put(name, self.made(plain[-1], setting), said)


class Book(Accounts):
    """The accounts in a file: each change is stored there before it is answered."""

    def __init__(self, path: str, costs: str, limit: int) -> None:
        super().__init__(costs, limit)
        self.loses, self.puts = int(FAULTS.get("loses", "0")), itertools.count(1)
        self.file = open(path, "a+b", buffering=0)
        fcntl.flock(self.file, fcntl.LOCK_EX)
        self.file.seek(0)
        for line in self.file.read().decode().splitlines():
            self.set(*line.split(" "))

    def put(self, name: str, row: str, said: str) -> str:
        if not (self.loses and "$" in row and next(self.puts) % self.loses == 0):
            self.set(name, row)
            self.write(f"{name} {row}\n".encode())
        return said

    def write(self, line: bytes) -> None:
        """Appends a line. If the disk has no room it ends, and may have a part of it."""
        try:
            while line:
                line = line[self.file.write(line) :]
        except OSError:
            os._exit(5)


WRITTEN = itertools.count()


def write(operation: str, tag: str, said: str) -> None:
    """Writes an answer, or the fault in its place."""
    written = next(WRITTEN)
    for word in FAULTS.keys() & {"dies", "killed"}:
        if written >= int(FAULTS[word]):
            os.write(1, f"{tag} {said}".encode())
            if word == "killed":
                os.kill(os.getpid(), signal.SIGKILL)
            else:
                os._exit(5)
    if written == int(FAULTS.get("kills", "-1")):
        os.kill(os.getppid(), signal.SIGKILL)
        os._exit(5)
    if "endless" in FAULTS and operation == "verify":
        os.write(1, b"x" * (4 << 20) + b"\n")
    if "garbage" in FAULTS:
        os.write(1, random.choice(NOISE))
    os.write(1, f"{tag} {said}\n".encode())


def work(book: Book, output: threading.Lock, line: str) -> None:
    """Answers a line."""
    tag, _, rest = line.partition(" ")
    if not re.fullmatch("[a-z0-9]{1,20}", tag) or len(line) > 1024:
        tag, rest = "*", ""
    words = rest.split(" ")
    if "late" in FAULTS:
        time.sleep(random.random() * 0.05)
    with output:
        is_early = words[0] in TRIES and book.tries.rest("".join(words[1:2])) > 0
    if "slow" in FAULTS and words[0] not in QUICK and not is_early:
        time.sleep(float(FAULTS["slow"]))
    if FAULTS.get("mute") == words[0]:
        return
    with output:
        is_refused = FAULTS.get("refuses") == words[0]
        said = "bad 4 memory" if is_refused else book.answer(words)
        said = FAULTS.get("answers", said) if words[0] == "verify" else said
        write(words[0], tag, said)


def serve(path: str, options: dict[str, str]) -> None:
    if os.path.exists(FAULTS.get("shut", "")):
        sys.exit(5)
    costs, limit = options.get("--setting", COSTS), int(options.get("--tries", "0"))
    book, output = Book(path, costs, limit), threading.Lock()
    time.sleep(float(FAULTS.get("opens", "0")))
    log, any_bytes = os.environ.get("BOOK_LOG", os.devnull), "surrogateescape"
    sys.stdin.reconfigure(errors=any_bytes)  # type: ignore[attr-defined]
    with ThreadPoolExecutor(int(options.get("--at-once", "4"))) as pool:
        with open(log, "a", buffering=1, errors=any_bytes) as asked:
            for line in sys.stdin:
                asked.write(line.partition(" ")[2])
                pool.submit(work, book, output, line.rstrip("\n"))


if __name__ == "__main__":
    if "--help" in sys.argv:
        print("--tries N")
        sys.exit()
    if "serve" not in sys.argv:
        fast_files = importlib.import_module("fast_files")
        sys.exit(fast_files.main(sys.argv[1:], FAULTS.get("import", "")))
    at = sys.argv.index("serve")
    path, _serve, _tagged, *words = sys.argv[at - 1 :]
    serve(path, dict(zip(words[::2], words[1::2])))
