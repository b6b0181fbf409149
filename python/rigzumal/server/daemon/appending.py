"""A private file that only grows, and a program that writes such a file.

    appending.py PATH

The program receives texts through the socket at its standard input, appends each one, and answers
it. The program is a separate process, since nothing can end a thread that waits for a hung disk, or
the process of such a thread.
"""

import errno
import os
import socket
import stat
import struct
import sys
from contextlib import suppress
from typing import BinaryIO

SIZE = struct.Struct(">Q")  # the number of a text's bytes, which precedes the text
FAULT = struct.Struct(">H")  # the answer: the system's number of a fault, or 0


def status_of(path: str) -> os.stat_result:
    """Returns the status of a regular file, and refuses others: a pipe might keep the server
    waiting."""
    found = os.stat(path)
    if not stat.S_ISREG(found.st_mode):
        raise OSError(errno.EINVAL, "it isn't a regular file", path)
    return found


def private(path: str, flags: int) -> int:
    """Opens a regular file, but no link. A new file is for its owner only."""
    with suppress(FileNotFoundError):
        status_of(path)
    return os.open(path, flags | os.O_NOFOLLOW | os.O_NONBLOCK, 0o600)


class GrowingFile:
    """A private file that the program opens for each text: an administrator rotates it by a
    rename."""

    def __init__(self, path: str) -> None:
        self.path = path
        self.named = -1  # the inode of the file whose name is on the disk

    def append(self, text: bytes) -> None:
        """Writes whole lines, and first ends the last line, of which a fault may have left only a
        part."""
        with open(self.path, "ab+", buffering=0, opener=private) as file:
            found = os.fstat(file.fileno())
            end = os.pread(file.fileno(), 1, max(found.st_size - 1, 0))
            if text and end not in (b"", b"\n"):
                text = b"\n" + text
            while text:
                text = text[file.write(text) :]
            os.fdatasync(file.fileno())
        if self.named != found.st_ino:
            self.sync_name()
            self.named = found.st_ino

    def sync_name(self) -> None:
        folder = os.open(os.path.dirname(os.path.abspath(self.path)), os.O_DIRECTORY)
        try:
            os.fsync(folder)
        finally:
            os.close(folder)


def write_texts(file: GrowingFile, texts: BinaryIO, answers: socket.socket) -> None:
    """Appends and answers each text, until the input ends."""
    while len(size := texts.read(SIZE.size)) == SIZE.size:
        (count,) = SIZE.unpack(size)
        text, fault = texts.read(count), 0
        if len(text) < count:
            return  # somebody killed the server while it sent the text
        try:
            file.append(text)
        except OSError as refusal:
            fault = refusal.errno or errno.EIO
        answers.sendall(FAULT.pack(fault))


def main() -> None:
    os.umask(0o177)
    with socket.socket(fileno=0) as server, server.makefile("rb") as texts:
        with suppress(OSError):  # the server has ended
            write_texts(GrowingFile(sys.argv[1]), texts, server)


if __name__ == "__main__":
    main()
