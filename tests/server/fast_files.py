"""The commands of fast_book.py that need exclusive use of its file, or copy it. They have the
names, the answers and the statuses of credkeep's."""

import fcntl
import os
import re
import shutil
import signal
import sys
import time
from collections import Counter

NAME = re.compile("[a-z0-9._-]{1,32}")
MARKED = re.compile(r"(!?~?)(\$.*)?")
BOUNDS = ("--most-memory", "--most-work")  # of a line's record: it keeps none of them
STATUS_OF_LINES, STATUS_OF_DATABASE = 6, 5
ENDS = ("added", "updated", "there already", "bad")  # of a line, in the order of the counts


def rows_of(path: str) -> dict[str, str]:
    """The names of a file, with their rows."""
    rows = dict[str, str]()
    with open(path) as file:
        for line in file:
            name, _, row = line.rstrip("\n").partition(" ")
            rows[name] = row
            if row == "gone":
                del rows[name]
    return rows


def why_bad(line: bytes, options: list[str], seen: dict[str, str]) -> tuple[str, str, str]:
    """The name and the row of a line, and the number and the word of its fault if it has one."""
    name, colon, rest = line.rstrip(b"\r").decode(errors="surrogateescape").partition(":")
    marks_and_record = MARKED.fullmatch(rest.partition(":")[0])
    if not colon:
        return name, "", "11 line"
    if not NAME.fullmatch(name):
        return name, "", "3 name"
    if marks_and_record is None:
        return name, "", "1 shape"
    if marks_and_record[1] and "--keep-locked" not in options:
        return name, "", "17 locked"
    is_kept = "--skip-existing" in options or "--update" in options
    return name, marks_and_record[0], "1 exists" if name in seen and not is_kept else ""


def import_lines(path: str, options: list[str], fault: str) -> int:
    """Reads lines from standard input, all or none."""
    lines = sys.stdin.buffer.read().split(b"\n")
    while os.path.exists(fault):
        time.sleep(0.01)
    with open(path, "a+b", buffering=0) as file:
        fcntl.flock(file, fcntl.LOCK_EX)
        rows, taken, counts = rows_of(path), "", Counter[str]()
        for number, line in enumerate(lines, 1):
            if not line or line.startswith(b"#"):
                continue
            name, row, why = why_bad(line, options, rows)
            if why:
                print(f"credkeep: line {number}: it is bad ({why})", file=sys.stderr)
                counts["bad"] += 1
            elif name in rows and "--update" not in options:
                counts["there already"] += 1
            else:
                counts["updated" if name in rows else "added"] += 1
                if rows.get(name, "").startswith("!") and not row.startswith("!"):
                    row = f"!{row}"  # an import ends no lock
                taken += f"{name} {row}\n"
                rows[name] = row
        if counts["bad"] and "--skip-bad" not in options:
            return STATUS_OF_LINES
        if fault == "full":
            print("credkeep: the database failed: database or disk is full", file=sys.stderr)
            return STATUS_OF_DATABASE
        if fault == "killed":
            os.kill(os.getpid(), signal.SIGKILL)
        if "--dry-run" not in options:
            file.write(taken.encode())
    print(", ".join(f"{counts[end]} {end}" for end in ENDS))
    return 0


def main(words: list[str], fault: str) -> int:
    if words[0] == "--wait":
        words = words[2:]
    path, command, *rest = words
    if command == "import":
        return import_lines(path, rest, fault)
    if command == "backup":
        shutil.copyfile(path, rest[0])
        os.chmod(rest[0], 0o600)
        print(f"{len(rows_of(path))} accounts, 0 changes in the log")
    if command == "export":
        for name, row in sorted(rows_of(path).items()):
            print(f"{name}:{row}")
    return 0
