"""Names and passwords that a visitor may send, for the tests of each client that builds lines from
fields. A login with any of them fails, the client sends only its own lines, and ada's password
stays."""

from __future__ import annotations

import contextlib
import pathlib
import re
import socket
import socketserver
import threading
from typing import Any

PASSWORD = b"secret"  # ada's

# The lines of a login without their tags: a name has no space and no control character, and a
# password is in base64.
NAME, PW = rb"[^\0-\x20\x7f]{1,254}", rb"(?:[A-Za-z0-9+/]+|-)"
LOGIN = rb"(?:known %b|verify %b %b|change %b %b %b)" % (NAME, NAME, PW, NAME, PW, PW)

# By what is odd in them. The second and third set ada's password to "hacked" where the name comes
# into a line as it is; one has the tags of an example, and the other those of the clients.
NAMES = {
    "newline": b"ada\n",
    "lines": b"ada YQ\nt0 reset ada aGFja2Vk\nt0 verify ada",
    "lines of our tag": b"ada YQ\n1 reset ada aGFja2Vk\n1 verify ada",
    "newline first": b"\n1 reset ada aGFja2Vk",
    "blank": b" ",
    "space": b"ada lovelace",
    "fields": b"ada c2VjcmV0",
    "tab": b"ada\t",
    "NUL": b"ada\0",
    "CR": b"ada\r",
    "CR and newline": b"ada\r\n",
    "DEL": b"ada\x7f",
    "0xFF": b"ada\xff",
    "letters of two bytes": "\u00e4da".encode(),
    "line separator": "ada\u2028".encode(),
    "33 letters": b"a" * 33,
    "1,100 letters": b"a" * 1100,
    "5,000 letters": b"a" * 5000,
    "empty": b"",
    "@": b"ada@example.org",
    "capitals": b"Ada",
    "colon": b"ada:secret",
    "slash": b"../ada",
}

# None of them is ada's, though each but two could be a record's.
PASSWORDS = {
    "newline": b"secret\n",
    "lines": b"secret\n1 reset ada aGFja2Vk\n1 verify ada c2VjcmV0",
    "space": b"secret ",
    "fields": b"secret aGFja2Vk",
    "NUL": b"secret\0",
    "CR": b"secret\r",
    "0xFF": b"secret\xff",
    "256 bytes": b"x" * 256,
    "257 bytes": b"x" * 257,
    "1,100 letters": b"x" * 1100,
    "empty": b"",
    "a field": b"c2VjcmV0",
    "@": b"secret@example.org",
    "capitals": b"Secret",
    "colon": b"ada:secret",
}


def text_of(field: bytes) -> str:
    """A field as Python reads it from a command line or a form: a byte that is no UTF-8 is a lone
    surrogate."""
    return field.decode(errors="surrogateescape")


class Tap(socketserver.ThreadingUnixStreamServer):
    """A socket in front of a server's, which notes what clients send."""

    daemon_threads = True

    def __init__(self, path: pathlib.Path, server: pathlib.Path) -> None:
        super().__init__(str(path), socketserver.BaseRequestHandler)
        self.path, self.server, self.sent = path, server, bytearray()

    def finish_request(self, request: Any, client_address: Any) -> None:
        with socket.socket(socket.AF_UNIX) as server, contextlib.suppress(OSError):  # one has gone
            server.connect(str(self.server))
            back = threading.Thread(target=hand_on, args=(server, request), daemon=True)
            back.start()
            while more := request.recv(65536):
                self.sent += more
                server.sendall(more)
            server.shutdown(socket.SHUT_WR)
            back.join()

    def other_lines(self) -> list[bytes]:
        """The bytes that were sent and are no line of a login."""
        lines = bytes(self.sent).splitlines(keepends=True)
        return [it for it in lines if not re.fullmatch(rb"[a-z0-9]{1,20} %b\n" % LOGIN, it)]

    def __enter__(self) -> Tap:
        threading.Thread(target=self.serve_forever, args=(0.01,), daemon=True).start()
        return self

    def __exit__(self, *_: object) -> None:
        self.shutdown()
        self.server_close()


def hand_on(one: socket.socket, other: socket.socket) -> None:
    """Passes bytes on from one socket to the other, until the input ends."""
    with contextlib.suppress(OSError):  # one of them has gone
        while more := one.recv(65536):
            other.sendall(more)
        other.shutdown(socket.SHUT_WR)
