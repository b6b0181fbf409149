"""An htpasswd file, which the server never writes, and HTPASSWD.moved, which the server writes
beside it."""

import asyncio
import re
import time

from .aging import Line, today
from .appending import status_of
from .book import NAME
from .journal import Marks, log, log_seldom
from .names import Names
from .schemes import why_unknown

STILL_SECONDS = 0.1  # seconds for which a file must not change before the server reads it
MOST_LOOKS = 20  # looks at a changing file before the server reads it all the same
MOST_TOLD = 20  # names in a line of the log
MUST_CHANGE = b"expire"  # in HTPASSWD.moved: the user must change the password


class OldFile:
    """The file, which the server reads again after each change. HTPASSWD.moved lists the users who
    have left the file, and other users who must change the password."""

    def __init__(self, path: str, names: Names) -> None:
        self.path = path
        self.names = names
        self.version: tuple[int, ...] = ()
        self.lines = dict[bytes, Line]()  # empty while the file can't be read
        self.last_lines = self.lines  # the last lines read, for the users whom they bar
        self.reading = asyncio.Lock()
        self.moved = Marks(f"{path}.moved")
        self.moved.append(b"")
        self.read()

    def read(self) -> None:
        """Reads the file, and logs the users who can't move."""
        version = version_at_rest(self.path)
        lines, stuck = dict[bytes, Line](), list[str]()
        for user, record, *others in users_in(self.path):
            name, line = self.names.of_book(user), Line(record, tuple(others))
            if name in lines:  # of two lines with one name, the first decides
                continue
            lines[name] = line
            if record and not self.has_moved(name) and (why := why_stuck(name, line)):
                stuck.append(f"{printable(user)} ({why})")
        self.version = version
        self.lines = lines
        self.last_lines = lines
        if stuck:
            dots = ", ..." if len(stuck) > MOST_TOLD else ""
            text = "%s: %d of %d users can't move: %s%s"
            users = ", ".join(stuck[:MOST_TOLD])
            log.warning(text, self.path, len(stuck), len(lines), users, dots)

    async def refresh(self) -> None:
        """Reads the file again if it has changed. If the server can't read the file, the book
        decides, and the file's last bars still count."""
        async with self.reading:
            try:
                if version_of(self.path) != self.version:
                    await asyncio.to_thread(self.read)
            except OSError as fault:
                log_seldom(self.path, "%s: %s", self.path, fault.strerror)
                self.lines = {}
                self.version = ()

    async def line(self, name: bytes) -> Line:
        """Returns the file's line for a name that hasn't moved, otherwise a line without a
        record."""
        await self.refresh()
        return Line() if self.has_moved(name) else self.lines.get(name, Line())

    async def bars(self, name: bytes) -> bool:
        """Whether the file's line for a name bars its user, even after the move."""
        await self.refresh()
        return bool(self.last_lines.get(name, Line()).bar(today()))

    async def barred(self) -> set[bytes]:
        """Returns the names of the users whom the file's lines bar, if a book allows these
        names."""
        await self.refresh()
        barred = {name for name, line in self.last_lines.items() if line.bar(today())}
        return {name for name in barred if NAME.fullmatch(name)}

    async def unmoved(self) -> list[bytes]:
        """Returns the names whose records count once the book has none, if a book allows these
        names."""
        await self.refresh()
        of_records = [name for name, line in self.last_lines.items() if line.record]
        return [it for it in of_records if NAME.fullmatch(it) and not self.has_moved(it)]

    def has_moved(self, name: bytes) -> bool:
        return self.moved.has(name)

    async def note_moved(self, name: bytes) -> bool:
        """Notes that the file no longer decides about a name. Returns False if the server can't
        write the note."""
        return self.has_moved(name) or await self.moved.put(name)

    def is_expired(self, name: bytes) -> bool:
        """Whether HTPASSWD.moved says that the user of a name, who hasn't moved, must change the
        password."""
        return self.moved.has(name, MUST_CHANGE) and not self.has_moved(name)

    async def expire(self, name: bytes) -> bool:
        """Notes in HTPASSWD.moved that the user of a name must change the password. Returns False
        if the write fails."""
        return self.is_expired(name) or await self.moved.put(name, MUST_CHANGE)

    def must_change(self, name: bytes, line: Line) -> bool:
        """Whether the user in a name's line must change a right password."""
        return line.must_change(today()) or self.is_expired(name)


def version_of(path: str) -> tuple[int, ...]:
    """Returns the metadata of a file, which change with each write or replacement."""
    status = status_of(path)
    return status.st_ino, status.st_size, status.st_mtime_ns, status.st_ctime_ns


def version_at_rest(path: str) -> tuple[int, ...]:
    """Waits until a file no longer changes, and returns its version: htpasswd truncates the file
    before it writes."""
    version = version_of(path)
    for _ in range(MOST_LOOKS):
        time.sleep(STILL_SECONDS)
        before, version = version, version_of(path)
        if version == before:
            break
    return version


def users_in(path: str) -> list[list[bytes]]:
    """Returns the fields of each user's line in a file."""
    with open(path, "rb") as file:
        lines = [line.rstrip() for line in file if not line.startswith(b"#")]
    return [line.split(b":") for line in lines if b":" in line]


def printable(name: bytes) -> str:
    """Returns a name in a form that is safe for the log."""
    return re.sub(rb"[^!-~]", b"?", name).decode()


def why_stuck(name: bytes, line: Line) -> str:
    """Returns the reason why a user can't move, or an empty text."""
    if not NAME.fullmatch(name):
        return "not a name of a book"
    return why_unknown(line.record) or line.why_shut(today())
