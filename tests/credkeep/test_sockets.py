"""A service behind a socket at which another program listens: docs/SERVING.md shows both."""

import contextlib
import os
import pathlib
import signal
import subprocess
import time
from collections.abc import Iterator

from tests.credkeep.books import BookTest
from tests.helpers import each, need, until
from tests.server.served import Client


def is_listening(path: pathlib.Path) -> bool:
    """Whether a socket at a path takes connections: it has its name before it does."""
    sockets = [it.split() for it in pathlib.Path("/proc/net/unix").read_text().splitlines()]
    return any(it[-1] == str(path) and it[3] == "00010000" for it in sockets)


@contextlib.contextmanager
def listening(command: list[str], path: pathlib.Path) -> Iterator[None]:
    """Another program that listens at a path and starts credkeep for each connection."""
    with subprocess.Popen(command, start_new_session=True, stderr=subprocess.DEVNULL) as listener:
        try:
            until(lambda: is_listening(path), "it listens")
            yield
        finally:
            os.killpg(listener.pid, signal.SIGTERM)


class SocketsTest(BookTest):
    @each("socat", "systemd-socket-activate")
    def test_two_clients(self, listener: str) -> None:
        """The second client's lines are answered once the first has closed its connection."""
        need(listener)
        book, path = self.begun(), self.room / listener
        service = book.command("serve", "--tagged", wait=30)
        listen = ["--accept", "--inetd", "-l", str(path), *service]
        if listener == "socat":
            socket_ = f"UNIX-LISTEN:{path},mode=600,fork,max-children=1"
            listen = [socket_, f"EXEC:{' '.join(service)}"]
        with listening([listener, *listen], path), Client(path) as first:
            first.send("t account ann\nt show ann\n")
            self.assertEqual(first.lines(2), [b"t ok", b"t none"])
            with Client(path) as second:
                second.send("t account bob\nt show ann\n")
                time.sleep(0.2)
                first.send("t show bob\n")
                self.assertEqual(first.line(), b"t bad 5 noaccount")
                first.close()
                self.assertEqual(second.lines(2), [b"t ok", b"t none"])
        self.assertEqual(book("list", wait=30), (0, "ann\nbob\n", ""))
