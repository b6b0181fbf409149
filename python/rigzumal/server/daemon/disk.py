"""The free space on the disks to which a change writes. A book that finds no space ends, and so
does the service for all its users."""

import asyncio
import errno
import os

from .journal import log_seldom

# The bytes that changes may write before the server looks again: SQLite's log grows to 1,000 pages
# of 4 KiB, and then the file itself, by the pages of new accounts.
NEEDED = 8 << 20
FULL = b"bad 19 disk"  # the answer to a change that the server doesn't try
LOG_ROOM = 6 << 20  # bytes of the book's log at most, with those of its last change
PATIENCE = 10.0  # seconds for an allocation: logins wait for that after a start and an import
NO_ROOM = [os.strerror(number).encode() for number in (errno.ENOSPC, errno.EDQUOT)]


def has_room(folder: str, needed: int = NEEDED) -> bool:
    """Whether a folder has room for a change, as far as its filesystem reports it.

    Blocks reserved for root don't count, even for root. The function can't detect a user's quota.
    """
    try:
        found = os.statvfs(folder)
    except OSError:
        return True  # the book has the files open, and may know better
    if found.f_blocks == 0:  # a filesystem without a size, such as ramfs
        return True
    return found.f_bavail * found.f_frsize >= needed


class LogRoom:
    """The blocks of the book's log, which the server allocates before the book writes them.

    A record that replaces one of the same length then needs no free block, and doesn't end the book
    on a disk that somebody fills. A filesystem that writes each block anew, such as Btrfs, still
    needs free ones.
    """

    def __init__(self, book: str) -> None:
        self.log = f"{book}-wal"
        self.is_allocated = False
        self.one_at_a_time = asyncio.Lock()

    async def renew(self) -> None:
        """Allocates the blocks of the log of another process."""
        self.is_allocated = False
        await self.allocate()

    async def allocate(self) -> bool:
        """Allocates the blocks, unless an earlier call has done so. Returns False if the disk has
        no room."""
        async with self.one_at_a_time:
            if not self.is_allocated:
                self.is_allocated = await has_allocated(self.log)
        return self.is_allocated


async def has_allocated(file: str) -> bool:
    """Allocates blocks behind the end of a file. Returns False if the disk has no room, or hangs.
    A filesystem that can't allocate blocks ahead counts as one with room.

    fallocate(1) does this. Python's posix_fallocate changes the size of the file, and on some
    filesystems writes into the file, while the book writes there too. A thread in such a call would
    keep the server from exiting while the disk hangs.
    """
    if not os.path.exists(file):
        return True
    pipe, nothing = asyncio.subprocess.PIPE, asyncio.subprocess.DEVNULL
    words = ("fallocate", "--keep-size", "--length", str(LOG_ROOM), file)
    given = {**os.environ, "LC_ALL": "C"}  # for the system's own texts
    try:
        process = await asyncio.create_subprocess_exec(
            *words, stdin=nothing, stdout=nothing, stderr=pipe, env=given
        )
    except OSError as fault:
        log_seldom(words[0], "%s: %s", words[0], fault.strerror)
        return isinstance(fault, FileNotFoundError)
    try:
        _, faults = await asyncio.wait_for(process.communicate(), PATIENCE)
    except asyncio.TimeoutError:
        process.kill()
        log_seldom(words[0], "%s: %s hangs", file, words[0])
        return False
    if process.returncode:
        log_seldom(words[0], "%s: %s", file, faults.decode(errors="replace").strip())
    return not any(text in faults for text in NO_ROOM)
